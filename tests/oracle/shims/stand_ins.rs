//! Document 01's logarithm and exponential with the split LN2 of change request 10, in their
//! operations and their order. The scripted edits put these in the place of `ln`, `log2` and `exp`
//! of the standard library.

const LN2_HI: f64 = f64::from_bits(0x3FE6_2E42_FEE0_0000);
const LN2_LO: f64 = f64::from_bits(0x3DEA_39EF_3579_3C76);
const LOG2E: f64 = 1.4426950408889634;

pub trait StandIns {
    fn stand_in_ln(self) -> f64;
    fn stand_in_log2(self) -> f64;
    fn stand_in_exp(self) -> f64;
}

impl StandIns for f64 {
    fn stand_in_ln(self) -> f64 {
        match parts(self) {
            Ok((e, tail)) => e * LN2_HI + (tail + e * LN2_LO),
            Err(limit) => limit,
        }
    }

    fn stand_in_log2(self) -> f64 {
        match parts(self) {
            Ok((e, tail)) => e + tail * LOG2E,
            Err(limit) => limit,
        }
    }

    fn stand_in_exp(self) -> f64 {
        if self.is_nan() {
            return f64::NAN;
        }
        if self < -708.0 {
            return 0.0;
        }
        if self > 708.0 {
            return f64::INFINITY;
        }
        let n = (self * LOG2E + 0.5).floor();
        let r = (self - n * LN2_HI) - n * LN2_LO;
        let mut q = 1.0;
        for j in (1..=13).rev() {
            q = 1.0 + (r * q) / f64::from(j);
        }
        q * f64::from_bits(((n as i64 + 1023) as u64) << 52)
    }
}

/// `e` and `(2·s)·p` of a positive finite number; for any other argument the logarithm itself.
fn parts(x: f64) -> Result<(f64, f64), f64> {
    if x.is_nan() || x < 0.0 {
        return Err(f64::NAN);
    }
    if x == 0.0 {
        return Err(f64::NEG_INFINITY);
    }
    if x == f64::INFINITY {
        return Err(x);
    }
    let (x, lowered) = if x < f64::MIN_POSITIVE {
        (x * 18014398509481984.0, 54) // 2^54
    } else {
        (x, 0)
    };
    let bits = x.to_bits();
    let mut e = (bits >> 52) as i64 - 1023 - lowered;
    let mut m = f64::from_bits((bits & 0x000F_FFFF_FFFF_FFFF) | 0x3FF0_0000_0000_0000);
    if m > 1.4142135623730951 {
        m *= 0.5;
        e += 1;
    }
    let s = (m - 1.0) / (m + 1.0);
    let z = s * s;
    let mut p = 1.0 / 23.0;
    for j in (0..=10).rev() {
        p = p * z + 1.0 / f64::from(2 * j + 1);
    }
    Ok((e as f64, (2.0 * s) * p))
}
