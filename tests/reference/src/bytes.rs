//! Fields, ranges and the walk over records that pack, query and sheet share.

use crate::plant::*;
use crate::Refusal;

pub fn refuse<T>(number: u8, place: usize) -> Result<T, Refusal> {
    Err(Refusal { number, place: place as u64 })
}

/// "Integers are little-endian, floats IEEE 754 bits"
pub fn u16_at(bytes: &[u8], at: usize) -> u16 {
    u16::from_le_bytes([bytes[at], bytes[at + 1]])
}

pub fn u32_at(bytes: &[u8], at: usize) -> u32 {
    u32::from_le_bytes([bytes[at], bytes[at + 1], bytes[at + 2], bytes[at + 3]])
}

pub fn f32_at(bytes: &[u8], at: usize) -> f32 {
    f32::from_bits(u32_at(bytes, at))
}

pub fn f32s_at<const N: usize>(bytes: &[u8], at: usize) -> [f32; N] {
    let mut values = [0.0; N];
    for (i, value) in values.iter_mut().enumerate() {
        *value = f32_at(bytes, at + 4 * i);
    }
    values
}

pub fn put_f32(out: &mut Vec<u8>, value: f32) {
    out.extend_from_slice(&crate::num::written(value).to_le_bytes());
}

/// "Temperature and tolerances are finite and above 0"
pub fn finite_above_zero(x: f32) -> bool {
    if planted(INFINITE_SCALE) {
        return x > 0.0;
    }
    if planted(ZERO_SCALE) {
        return x.is_finite() && x >= 0.0;
    }
    x.is_finite() && x > 0.0
}

/// "prior and threshold above 0, at most 1"
pub fn share(x: f32) -> bool {
    if planted(SHARE_BELOW_ONE) {
        return x > 0.0 && x < 1.0;
    }
    if planted(SHARE_FROM_ZERO) {
        return (0.0..=1.0).contains(&x);
    }
    x > 0.0 && x <= 1.0
}

/// "weights finite, sign clear, zero allowed"
pub fn weight(x: f32) -> bool {
    if planted(WEIGHT_MINUS_ZERO) {
        return x.is_finite() && x >= 0.0;
    }
    if planted(WEIGHT_NOT_ZERO) {
        return x.is_finite() && x > 0.0;
    }
    if planted(WEIGHT_INFINITE) {
        return x >= 0.0 && x.is_sign_positive();
    }
    if planted(WEIGHT_AT_MOST_ONE) {
        return x.is_sign_positive() && x <= 1.0;
    }
    x.is_finite() && x.is_sign_positive()
}

/// "size at most 100", "points are finite, size at most 128". −0 is a value.
pub fn sized(x: f32, most: f32) -> bool {
    if planted(SIZE_BELOW) {
        return x.abs() < most;
    }
    if planted(SIZE_NAN) {
        return !(x.abs() > most);
    }
    let refused = if most == 100.0 { KNOT_MINUS_ZERO } else { POINT_MINUS_ZERO };
    if planted(refused) && minus_zero(x) {
        return false;
    }
    x.abs() <= most
}

/// "the tail value at phrase end and elsewhere, finite and of size at most 50". −0 is a value. `at` is where the record stands.
pub fn tail_in_range(bytes: &[u8], at: usize) -> bool {
    let [last, elsewhere] = tail_at(bytes, at).map(tail_value);
    match () {
        _ if planted(TAIL_END_ONLY) => last,
        _ if planted(TAIL_ELSEWHERE_ONLY) => elsewhere,
        _ => last && elsewhere,
    }
}

fn tail_value(x: f32) -> bool {
    match () {
        _ if planted(TAIL_BELOW_50) => x.abs() < 50.0,
        _ if planted(TAIL_ABOVE_50) => x.is_finite(),
        _ if planted(TAIL_NO_LEAST) => x <= 50.0,
        _ if planted(TAIL_NAN) => !(x.abs() > 50.0),
        _ if planted(TAIL_INFINITE) => x.abs() <= 50.0 || x.is_infinite(),
        _ if planted(TAIL_MINUS_ZERO) && minus_zero(x) => false,
        _ if planted(TAIL_AT_MOST_ZERO) => -50.0 <= x && x <= 0.0,
        _ => x.abs() <= 50.0,
    }
}

/// The two values of a tail's record.
pub fn tail_at(bytes: &[u8], at: usize) -> [f32; 2] {
    f32s_at(bytes, at + 1)
}

/// "zero bytes"
pub fn zero_bytes(bytes: &[u8]) -> bool {
    bytes.iter().all(|&b| b == 0)
}

/// Unused floats are zero bytes; −0 is refused.
pub fn unused_floats(bytes: &[u8], mistake: u32) -> bool {
    if planted(mistake) {
        return bytes.chunks_exact(4).all(|f| f32_at(f, 0) == 0.0);
    }
    zero_bytes(bytes)
}

/// "flag 0 or 1; regions finite, from ≤ to"; "from and to where the flag is 0, are zero bytes".
/// `at` is where the flag stands.
pub fn region_in_range(bytes: &[u8], at: usize) -> bool {
    match bytes[at] {
        0 => unused_floats(&bytes[at + 1..at + 9], UNUSED_REGION_MINUS_ZERO),
        1 => {
            let (from, to) = (f32_at(bytes, at + 1), f32_at(bytes, at + 5));
            if planted(REGION_MINUS_ZERO) && (minus_zero(from) || minus_zero(to)) {
                return false;
            }
            if planted(REGION_STRICT) {
                return from.is_finite() && to.is_finite() && from < to;
            }
            if planted(REGION_INFINITE) {
                return from <= to;
            }
            if planted(REGION_IN_UNIT) && !(from >= 0.0 && to <= 1.0) {
                return false;
            }
            from.is_finite() && to.is_finite() && from <= to
        }
        _ => false,
    }
}

fn minus_zero(x: f32) -> bool {
    x == 0.0 && x.is_sign_negative()
}

/// The walk over the records of one input.
pub struct Walk<'a> {
    pub bytes: &'a [u8],
    /// Offset of the record in hand.
    pub at: usize,
    length_of: fn(u8) -> Option<usize>,
}

impl<'a> Walk<'a> {
    pub fn new(bytes: &'a [u8], length_of: fn(u8) -> Option<usize>) -> Self {
        Walk { bytes, at: 0, length_of }
    }

    /// The kind of the next record. 2 at the input's end if it is missing; "1 misplaced: kind
    /// unknown or not due".
    pub fn kind(&self, due: impl Fn(u8) -> bool) -> Result<u8, Refusal> {
        let Some(&kind) = self.bytes.get(self.at) else {
            let place = if planted(PLACE_MISSING_ZERO) { 0 } else { self.at };
            return refuse(2, place);
        };
        if due(kind) {
            return Ok(kind);
        }
        if planted(CUT_BEFORE_KIND) {
            self.whole(kind)?;
        }
        refuse(1, self.at)
    }

    /// "2 cut short: input ends before the body ... does", at the record that has begun.
    pub fn whole(&self, kind: u8) -> Result<(), Refusal> {
        let length = (self.length_of)(kind).unwrap_or(1);
        if self.bytes.len() - self.at < length {
            let place = if planted(PLACE_CUT_END) { self.bytes.len() } else { self.at };
            return refuse(2, place);
        }
        Ok(())
    }

    /// "4 crowded: a count passes its limit", for a record that goes past. After 1 and 2.
    pub fn room(&self, kind: u8, crowded: bool) -> Result<(), Refusal> {
        if planted(CROWDED_BEFORE_CUT) && crowded {
            return refuse(4, self.at);
        }
        self.whole(kind)?;
        if crowded {
            return refuse(4, self.at);
        }
        Ok(())
    }

    pub fn check(&self, number: u8, good: bool) -> Result<(), Refusal> {
        if good {
            Ok(())
        } else {
            refuse(number, self.at)
        }
    }

    pub fn step(&mut self, kind: u8) {
        self.at += (self.length_of)(kind).unwrap_or(1);
    }

    /// "3 overrun: bytes after the last record", at the first surplus byte.
    pub fn end(&self) -> Result<(), Refusal> {
        if self.at == self.bytes.len() || planted(SURPLUS_PASSES) {
            return Ok(());
        }
        let place = if planted(PLACE_SURPLUS_END) { self.bytes.len() } else { self.at };
        refuse(3, place)
    }
}
