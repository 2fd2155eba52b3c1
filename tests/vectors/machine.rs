// Vectors of narrowing and of the square root, as the machine's IEEE 754 instructions give them.
mod inputs;
use inputs::{bits, inputs, vector, NARROW, ROOT};
use std::io::Write;

fn narrow(x: f64) -> u64 {
    let y = x as f32;
    if y.is_nan() { 0x7FC0_0000 } else { y.to_bits() as u64 }
}

fn main() {
    let mut out = std::io::stdout().lock();
    for b in inputs(NARROW) {
        out.write_all(&vector(NARROW, b, narrow(f64::from_bits(b)))).unwrap();
    }
    for b in inputs(ROOT) {
        out.write_all(&vector(ROOT, b, bits(f64::from_bits(b).sqrt()))).unwrap();
    }
}
