// Inputs of the vectors, as bits of f64s: edges first, then seeded random ones, PER_OPERATION of each; behind these, for ln and exp,
// the numbers at which LN2's two parts (change request 10) count most.
#![allow(dead_code)]
pub const PER_OPERATION: usize = 1500;

pub const NARROW: u8 = 0;
pub const ROOT: u8 = 1;
pub const LN: u8 = 2;
pub const LOG2: u8 = 3;
pub const EXP: u8 = 4;

// splitmix64
pub struct Random(u64);

impl Random {
    fn next(&mut self) -> u64 {
        self.0 = self.0.wrapping_add(0x9E37_79B9_7F4A_7C15);
        let mut z = self.0;
        z = (z ^ (z >> 30)).wrapping_mul(0xBF58_476D_1CE4_E5B9);
        z = (z ^ (z >> 27)).wrapping_mul(0x94D0_49BB_1331_11EB);
        z ^ (z >> 31)
    }

    fn below(&mut self, n: u64) -> u64 {
        self.next() % n
    }

    // from 0 up and below 1
    fn unit(&mut self) -> f64 {
        (self.next() >> 11) as f64 / 9007199254740992.0
    }
}

// b and its two neighbours, with both signs
fn around(v: &mut Vec<u64>, b: u64) {
    for n in [b.wrapping_sub(1), b, b + 1] {
        let n = n & 0x7FFF_FFFF_FFFF_FFFF;
        v.push(n);
        v.push(n | 1 << 63);
    }
}

// b and its two neighbours
fn beside(v: &mut Vec<u64>, b: u64) {
    v.extend([b - 1, b, b + 1]);
}

// zeros, infinities, NaNs, ends of the subnormal and normal ranges, small whole numbers
fn common(v: &mut Vec<u64>) {
    for b in [
        0,
        1 << 63,
        0x7FF0_0000_0000_0000,
        0xFFF0_0000_0000_0000,
        0x7FF8_0000_0000_0000,
        0xFFF8_0000_0000_0000,
        0x7FF0_0000_0000_0001,
        0xFFF0_0000_0000_0001,
        0x7FF4_0000_DEAD_BEEF,
        0x7FFF_FFFF_FFFF_FFFF,
        0xFFFF_FFFF_FFFF_FFFF,
    ] {
        v.push(b);
    }
    // the least and the largest subnormal, 2^-1022, the largest f64
    for b in [2, 0x0010_0000_0000_0000, 0x7FEF_FFFF_FFFF_FFFE] {
        around(v, b);
    }
    for n in 1..=12 {
        around(v, (n as f64).to_bits());
    }
    around(v, 0.5f64.to_bits());
}

fn any(r: &mut Random) -> u64 {
    r.next()
}

// a positive number of any exponent
fn positive(r: &mut Random) -> u64 {
    r.below(2047) << 52 | r.next() >> 12
}

// a positive subnormal of any number of digits
fn subnormal(r: &mut Random) -> u64 {
    let digits = 1 + r.below(52);
    1 << (digits - 1) | r.next() & ((1 << (digits - 1)) - 1)
}

fn narrowing(v: &mut Vec<u64>, r: &mut Random) {
    for b in [
        0x47EF_FFFF_E000_0000, // the largest f32
        0x47EF_FFFF_F000_0000, // halfway from there to 2^128
        0x47F0_0000_0000_0000, // 2^128
        0x3810_0000_0000_0000, // 2^-126, the least f32 that is not subnormal
        0x380F_FFFF_C000_0000, // the largest subnormal f32
        0x380F_FFFF_E000_0000, // halfway between these two
        0x36A0_0000_0000_0000, // 2^-149, the least subnormal f32
        0x3690_0000_0000_0000, // half of it
        0x36B8_0000_0000_0000, // 3 of it
        0x36A8_0000_0000_0000, // 1.5 of it
        0x36B4_0000_0000_0000, // 2.5 of it
    ] {
        around(v, b);
    }
    // halfway between two f32s, and the neighbours
    for _ in 0..60 {
        let f = (r.below(254) << 23 | r.below(1 << 23)) as u32;
        around(v, (f32::from_bits(f) as f64).to_bits() | 0x1000_0000);
    }
    for _ in 0..30 {
        let k = r.below(1 << 23);
        around(v, ((2 * k + 1) as f64 * f64::from_bits(0x3690_0000_0000_0000)).to_bits());
    }
    while v.len() < PER_OPERATION {
        // three in four within the exponents of an f32
        v.push(if r.below(4) == 0 { any(r) } else { (870 + r.below(285)) << 52 | r.next() >> 12 | r.next() << 63 });
    }
}

fn roots(v: &mut Vec<u64>, r: &mut Random) {
    // squares, and the neighbours
    for _ in 0..100 {
        let k = 1 + r.below(94906265);
        let x = (k * k) as f64 * f64::from_bits((1023 - 400 + 2 * r.below(400)) << 52);
        beside(v, x.to_bits());
    }
    while v.len() < PER_OPERATION {
        v.push(match r.below(8) {
            0 => any(r),
            1 => subnormal(r),
            _ => positive(r),
        });
    }
}

fn logarithms(v: &mut Vec<u64>, r: &mut Random) {
    // powers of two, subnormal ones too
    for k in 0..52 {
        v.push(1 << k);
    }
    for e in (1..2047).step_by(11) {
        v.push(e << 52);
    }
    // m about the root of 2, for several e, and in a subnormal
    for e in [1, 2, 500, 1021, 1022, 1023, 1024, 1025, 1500, 2045, 2046] {
        for b in 0x6_A09E_667F_3BCBu64..=0x6_A09E_667F_3BCF {
            v.push(e << 52 | b);
        }
    }
    for shift in 1..6 {
        beside(v, 0x16_A09E_667F_3BCD >> (shift + 1));
    }
    // about 1, and the frequencies of a voice over 55 Hz
    for k in 0..52 {
        v.push(0x3FF0_0000_0000_0000 + (1 << k));
        v.push(0x3FF0_0000_0000_0000 - (1 << k));
    }
    for _ in 0..200 {
        v.push(((60.0 + 440.0 * r.unit()) as f32 as f64 / 55.0).to_bits());
    }
    while v.len() < PER_OPERATION {
        v.push(match r.below(8) {
            0 => any(r),
            1 => subnormal(r),
            _ => positive(r),
        });
    }
}

fn exponents(v: &mut Vec<u64>, r: &mut Random) {
    for x in [708.0, 709.0, 745.0, 1024.0, 0.6931471805599453, 0.34657359027997264] {
        around(v, f64::to_bits(x));
    }
    // where v·LOG2E + 0.5 passes a whole number
    for _ in 0..60 {
        let n = r.below(1021) as f64;
        around(v, ((n + 0.5) * 0.6931471805599453).to_bits());
    }
    while v.len() < PER_OPERATION {
        v.push(match r.below(8) {
            0 => any(r),
            1 => (708.0 * r.unit()).to_bits(),
            2 => (r.below(1023) + 1) << 52 | r.next() >> 12 | 1 << 63,
            3 => (-r.unit()).to_bits(),
            _ => (-708.0 * r.unit()).to_bits(),
        });
    }
}

// Found by search: numbers at which lo's last digit, or the rounding of the product with lo, reaches the answer.
const RARE_LN: [u64; 4] = [0x4700_0001_3CA5_CC92, 0x3A30_0000_2220_0AF0, 0x396F_FFFD_7B1A_EBD0, 0x473F_FFFF_96F2_7899];
const RARE_EXP: [u64; 5] =
    [0xC083_9A62_B5D5_3472, 0xC07B_6C31_C8AA_2181, 0xC06A_56EF_8EC9_3BB5, 0xC084_8E5F_987C_2ADD, 0xC081_3DF6_7979_E79B];

// Every power of two that is an f64: their logarithms are k·hi + k·lo. Then the root of 2 in m, with its neighbours, for every fourth
// exponent: where m is halved and e grows by 1.
fn split_logarithms(v: &mut Vec<u64>) {
    v.extend((0..52).map(|k| 1 << k));
    v.extend((1..2047).map(|e| e << 52));
    for e in (1..2047).step_by(4) {
        beside(v, e << 52 | 0x6_A09E_667F_3BCD);
    }
    v.extend(RARE_LN);
}

// n of exp
fn whole(v: f64) -> f64 {
    (v * 1.4426950408889634 + 0.5).floor()
}

// The f64s beside v, which is not 0
fn below(v: f64) -> f64 {
    f64::from_bits(if v > 0.0 { v.to_bits() - 1 } else { v.to_bits() + 1 })
}

fn above(v: f64) -> f64 {
    -below(-v)
}

// The two v between which exp's n steps up, for each n from -1020 to 1021; of those above 0 the upper alone. So every n is there that exp
// has.
fn split_exponents(v: &mut Vec<u64>) {
    for n in -1020..=1021 {
        let n = n as f64;
        let mut last = (n - 0.5) * 0.6931471805599453;
        while whole(last) >= n {
            last = below(last);
        }
        while whole(above(last)) < n {
            last = above(last);
        }
        if n <= 0.0 {
            v.push(last.to_bits());
        }
        v.push(above(last).to_bits());
    }
    v.extend(RARE_EXP);
}

pub fn inputs(op: u8) -> Vec<u64> {
    let mut v = Vec::new();
    let mut r = Random(0x746F_6E65_6B69_7400 + op as u64);
    common(&mut v);
    match op {
        NARROW => narrowing(&mut v, &mut r),
        ROOT => roots(&mut v, &mut r),
        LN | LOG2 => logarithms(&mut v, &mut r),
        _ => exponents(&mut v, &mut r),
    }
    assert_eq!(v.len(), PER_OPERATION);
    match op {
        LN => split_logarithms(&mut v),
        EXP => split_exponents(&mut v),
        _ => {}
    }
    v
}

// One vector: the operation, the input's bits, the answer's bits, little-endian.
pub fn vector(op: u8, input: u64, answer: u64) -> [u8; 17] {
    let mut b = [op; 17];
    b[1..9].copy_from_slice(&input.to_le_bytes());
    b[9..].copy_from_slice(&answer.to_le_bytes());
    b
}

// A NaN's bits are those with only the highest of the digits set.
pub fn bits(x: f64) -> u64 {
    if x.is_nan() { 0x7FF8_0000_0000_0000 } else { x.to_bits() }
}
