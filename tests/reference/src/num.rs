//! Document 01, "Arithmetic", with change request 10: each operation rounded once, in the stated
//! order.

use crate::plant::*;

/// "LN2 is split into hi = 0x3FE62E42FEE00000 and lo = 0x3DEA39EF35793C76."
const HI: f64 = f64::from_bits(0x3FE6_2E42_FEE0_0000);
const LO: f64 = f64::from_bits(0x3DEA_39EF_3579_3C76);
/// LN2 before it was split; only planted mistakes use it.
const WHOLE: f64 = f64::from_bits(0x3FE6_2E42_FEFA_39EF);
/// "LOG2E the f64 nearest 1.4426950408889634"
#[allow(clippy::approx_constant)]
pub const LOG2E: f64 = 1.442_695_040_888_963_4;

/// 1/(2j+1) for j from 0 to 11, each quotient rounded once.
const ODD: [f64; 12] = [
    1.0 / 1.0,
    1.0 / 3.0,
    1.0 / 5.0,
    1.0 / 7.0,
    1.0 / 9.0,
    1.0 / 11.0,
    1.0 / 13.0,
    1.0 / 15.0,
    1.0 / 17.0,
    1.0 / 19.0,
    1.0 / 21.0,
    1.0 / 23.0,
];

/// e, s and p of a positive finite number m·2^e.
fn series(x: f64) -> (f64, f64, f64) {
    let mut bits = x.to_bits();
    let mut e: i64 = 0;
    // "Subnormals are first scaled by 2^54, e lowered by 54."
    if bits < 1 << 52 && !planted(LN_SUBNORMAL) {
        bits = (x * (1u64 << 54) as f64).to_bits();
        e = -54;
    }
    e += (bits >> 52) as i64 - 1023;
    let mut m = f64::from_bits(bits & 0x000F_FFFF_FFFF_FFFF | 0x3FF0_0000_0000_0000);
    // "if m > 1.4142135623730951, halve m and add 1 to e"
    #[allow(clippy::approx_constant)]
    let border = 1.414_213_562_373_095_1;
    let halve = if planted(LN_HALVE_AT) {
        m >= border
    } else if planted(LN_HALVE_LATE) {
        m > 1.5
    } else {
        m > border
    };
    if halve {
        m *= 0.5;
        e += 1;
    }
    // "s = (m−1)/(m+1), z = s·s. Start with p = 1/23, and for j from 10 down to 0
    // replace p by p·z + 1/(2j+1)."
    let s = (m - 1.0) / (m + 1.0);
    let z = s * s;
    let (mut p, from) = if planted(LN_TERMS) { (ODD[10], 10) } else { (ODD[11], 11) };
    if planted(LN_FUSED_TERM) {
        for j in (0..from).rev() {
            p = p.mul_add(z, ODD[j]);
        }
    } else {
        for j in (0..from).rev() {
            p = p * z + ODD[j];
        }
    }
    (e as f64, s, p)
}

/// "Zero gives −infinity, +infinity itself, negatives and NaN give NaN."
fn special(x: f64) -> Option<f64> {
    if x.is_nan() || x < 0.0 {
        Some(f64::NAN)
    } else if x == 0.0 {
        Some(f64::NEG_INFINITY)
    } else if x == f64::INFINITY {
        Some(x)
    } else {
        None
    }
}

/// A part of LN2, one unit of its last digit more.
fn last_digit_more(part: f64) -> f64 {
    f64::from_bits(part.to_bits() + 1)
}

/// "ln becomes e·hi + ((2·s)·p + e·lo)"
pub fn ln(x: f64) -> f64 {
    if let Some(y) = special(x) {
        return y;
    }
    let (e, s, p) = series(x);
    let tail = (2.0 * s) * p;
    match () {
        _ if planted(LN_FUSED) => e * HI + e.mul_add(LO, tail),
        _ if planted(LN_FUSED_TAIL) => e * HI + (2.0 * s).mul_add(p, e * LO),
        _ if planted(LN_ONE_PRODUCT) || planted(NOTHING_SPLIT) => e * WHOLE + tail,
        _ if planted(LN_EXCHANGED) => e * LO + (tail + e * HI),
        _ if planted(LN_PARTS_FIRST) => (e * HI + e * LO) + tail,
        _ if planted(LN_NO_LOW) => e * HI + tail,
        _ if planted(LN_LOW_ONCE) => e * HI + (tail + LO),
        _ if planted(LN_LOW_NEGATIVE) => e * HI + (tail - e * LO),
        _ if planted(LN_WHOLE_AND_LOW) => e * WHOLE + (tail + e * LO),
        _ if planted(LN_HIGH_DIGIT) => e * last_digit_more(HI) + (tail + e * LO),
        _ if planted(LN_LOW_DIGIT) => e * HI + (tail + e * last_digit_more(LO)),
        _ => e * HI + (tail + e * LO),
    }
}

/// "log2 is e + ((2·s)·p)·LOG2E", "log2 is left as it was"
pub fn log2(x: f64) -> f64 {
    if planted(LOG2_OF_LN) {
        return ln(x) * LOG2E;
    }
    if let Some(y) = special(x) {
        return y;
    }
    let (e, s, p) = series(x);
    if planted(LOG2_GROUPED) {
        e + (2.0 * s) * (p * LOG2E)
    } else if planted(LOG2_OVER_LN2) {
        e + ((2.0 * s) * p) / WHOLE
    } else if planted(LOG2_WITH_LOW) {
        e + ((2.0 * s) * p + e * LO) * LOG2E
    } else {
        e + ((2.0 * s) * p) * LOG2E
    }
}

/// "exp ...: NaN gives NaN, below −708 it is 0, above 708 +infinity. Else n = floor(v·LOG2E + 0.5),
/// .., q = 1; for j from 13 down to 1, q becomes 1 + (r·q)/j; result q·2^n."
/// "exp's r becomes (v − n·hi) − n·lo"
pub fn exp(v: f64) -> f64 {
    if v.is_nan() {
        return f64::NAN;
    }
    let least = if planted(EXP_ZERO_EARLY) { -700.0 } else { -708.0 };
    if v < least || (planted(EXP_ZERO_AT) && v == -708.0) {
        return 0.0;
    }
    if v > 708.0 {
        return f64::INFINITY;
    }
    let n = match () {
        _ if planted(EXP_TRUNCATED) => (v * LOG2E).trunc(),
        _ if planted(EXP_N_DIVIDED) => (v / WHOLE + 0.5).floor(),
        _ => (v * LOG2E + 0.5).floor(),
    };
    let r = match () {
        _ if planted(EXP_FUSED_REST) => (-n).mul_add(LO, v - n * HI),
        _ if planted(EXP_ONE_PRODUCT) || planted(NOTHING_SPLIT) => v - n * WHOLE,
        _ if planted(EXP_EXCHANGED) => (v - n * LO) - n * HI,
        _ if planted(EXP_PARTS_FIRST) => v - (n * HI + n * LO),
        _ if planted(EXP_NO_LOW) => v - n * HI,
        _ if planted(EXP_LOW_ADDED) => (v - n * HI) + n * LO,
        _ if planted(EXP_WHOLE_AND_LOW) => (v - n * WHOLE) - n * LO,
        _ if planted(EXP_HIGH_DIGIT) => (v - n * last_digit_more(HI)) - n * LO,
        _ if planted(EXP_LOW_DIGIT) => (v - n * HI) - n * last_digit_more(LO),
        _ => (v - n * HI) - n * LO,
    };
    let mut q = 1.0;
    let from = if planted(EXP_TERMS) { 12 } else { 13 };
    if planted(EXP_GROUPED) {
        for j in (1..=from).rev() {
            q = 1.0 + r * (q / j as f64);
        }
    } else {
        for j in (1..=from).rev() {
            q = 1.0 + (r * q) / j as f64;
        }
    }
    q * f64::from_bits(((n as i64 + 1023) as u64) << 52)
}

/// "square root round to nearest, ties to even"
pub fn root(x: f64) -> f64 {
    if planted(ROOT_IN_F32) {
        return f64::from((x as f32).sqrt());
    }
    x.sqrt()
}

/// f64 to f32, to nearest, ties to even. "NaN is written 0x7FC00000."
pub fn narrow(x: f64) -> f32 {
    if x.is_nan() && !planted(NAN_PAYLOAD) {
        return f32::from_bits(0x7FC0_0000);
    }
    let y = x as f32;
    if planted(NARROW_CHOPS) && f64::from(y).abs() > x.abs() {
        return f32::from_bits(y.to_bits() - 1);
    }
    y
}

/// The bits of a float that is written. "NaN is written 0x7FC00000."
pub(crate) fn written(x: f32) -> u32 {
    if x.is_nan() && !planted(NAN_PAYLOAD) {
        return 0x7FC0_0000;
    }
    x.to_bits()
}

/// "Minimum and maximum of a NaN and a number give the number; of two zeros the earlier stays."
/// The earlier is the first argument.
macro_rules! picks {
    ($min:ident, $max:ident, $float:ty) => {
        pub fn $min(a: $float, b: $float) -> $float {
            if planted(PICK_NAN) && b.is_nan() {
                b
            } else if planted(PICK_LATER_ZERO) && a == b {
                b
            } else if a.is_nan() || b < a {
                b
            } else {
                a
            }
        }

        pub fn $max(a: $float, b: $float) -> $float {
            if planted(PICK_NAN) && b.is_nan() {
                b
            } else if planted(PICK_LATER_ZERO) && a == b {
                b
            } else if a.is_nan() || b > a {
                b
            } else {
                a
            }
        }
    };
}

picks!(min32, max32, f32);
picks!(min64, max64, f64);

/// `expand_knots`: ten points on the straight lines between the knots, i/9 of the way.
pub fn expand_knots(knots: &[f32]) -> [f32; 10] {
    let mut points = [0.0f32; 10];
    let Some(last) = knots.len().checked_sub(1) else {
        return points;
    };
    if last == 0 {
        let only = if planted(KNOT_ZERO_SIGN) { knots[0] + 0.0 } else { knots[0] };
        return [only; 10];
    }
    if knots.len() == 10 && !planted(KNOTS_TEN) {
        points.copy_from_slice(knots);
        return points;
    }
    for (i, point) in points.iter_mut().enumerate() {
        if i == 9 && !planted(KNOTS_LAST) {
            *point = knots[last];
            break;
        }
        let pos = if planted(KNOTS_POSITION) {
            (i * last) as f64 / 9.0
        } else if planted(KNOTS_POSITION_F32) {
            f64::from(i as f32 / 9.0 * last as f32)
        } else {
            i as f64 / 9.0 * last as f64
        };
        let j = (pos.floor() as usize).min(last - 1);
        let frac = pos - j as f64;
        *point = if planted(KNOTS_WIDE_STEP) {
            narrow(f64::from(knots[j]) + frac * (f64::from(knots[j + 1]) - f64::from(knots[j])))
        } else if planted(KNOTS_IN_F32) {
            knots[j] + frac as f32 * (knots[j + 1] - knots[j])
        } else {
            narrow(f64::from(knots[j]) + frac * f64::from(knots[j + 1] - knots[j]))
        };
    }
    points
}
