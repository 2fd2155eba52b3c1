// Vectors of ln, log2 and exp: the stand-ins of document 01, Arithmetic, ln and exp with change request 10's two parts of LN2, operation by
// operation.
mod inputs;
use inputs::{bits, inputs, vector, EXP, LN, LOG2};
use std::io::Write;

const HI: f64 = f64::from_bits(0x3FE6_2E42_FEE0_0000);
const LO: f64 = f64::from_bits(0x3DEA_39EF_3579_3C76);
const LOG2E: f64 = 1.4426950408889634;

// e, and (2 s) p, of a positive finite number
fn parts(x: f64) -> (f64, f64) {
    let (x, lowered) = if x < f64::MIN_POSITIVE { (x * 18014398509481984.0, 54.0) } else { (x, 0.0) };
    let b = x.to_bits();
    let mut m = f64::from_bits(b & 0x000F_FFFF_FFFF_FFFF | 0x3FF0_0000_0000_0000);
    let mut e = (b >> 52) as f64 - 1023.0 - lowered;
    if m > 1.4142135623730951 {
        m /= 2.0;
        e += 1.0;
    }
    let s = (m - 1.0) / (m + 1.0);
    let z = s * s;
    let mut p = 1.0 / 23.0;
    for j in (0..=10).rev() {
        p = p * z + 1.0 / (2 * j + 1) as f64;
    }
    (e, (2.0 * s) * p)
}

fn log(x: f64, join: fn(f64, f64) -> f64) -> f64 {
    if x.is_nan() || x < 0.0 {
        f64::NAN
    } else if x == 0.0 {
        f64::NEG_INFINITY
    } else if x == f64::INFINITY {
        x
    } else {
        let (e, t) = parts(x);
        join(e, t)
    }
}

fn exp(v: f64) -> f64 {
    if v.is_nan() {
        return v;
    }
    if v < -708.0 {
        return 0.0;
    }
    if v > 708.0 {
        return f64::INFINITY;
    }
    let n = (v * LOG2E + 0.5).floor();
    let r = (v - n * HI) - n * LO;
    let mut q = 1.0;
    for j in (1..=13).rev() {
        q = 1.0 + (r * q) / j as f64;
    }
    q * f64::from_bits(((n as i64 + 1023) as u64) << 52)
}

fn main() {
    let mut out = std::io::stdout().lock();
    for b in inputs(LN) {
        out.write_all(&vector(LN, b, bits(log(f64::from_bits(b), |e, t| e * HI + (t + e * LO))))).unwrap();
    }
    for b in inputs(LOG2) {
        out.write_all(&vector(LOG2, b, bits(log(f64::from_bits(b), |e, t| e + t * LOG2E)))).unwrap();
    }
    for b in inputs(EXP) {
        out.write_all(&vector(EXP, b, bits(exp(f64::from_bits(b))))).unwrap();
    }
}
