//! Builders of packs, queries and sheets, and generated cases for the tests.

use crate::Refusal;

/// A generator of numbers (splitmix64).
pub struct Rng(pub u64);

impl Rng {
    pub fn next(&mut self) -> u64 {
        self.0 = self.0.wrapping_add(0x9E37_79B9_7F4A_7C15);
        let mut z = self.0;
        z = (z ^ (z >> 30)).wrapping_mul(0xBF58_476D_1CE4_E5B9);
        z = (z ^ (z >> 27)).wrapping_mul(0x94D0_49BB_1331_11EB);
        z ^ (z >> 31)
    }

    pub fn below(&mut self, n: usize) -> usize {
        (self.next() % n as u64) as usize
    }

    pub fn one_in(&mut self, n: usize) -> bool {
        self.below(n) == 0
    }

    pub fn pick<T: Copy>(&mut self, from: &[T]) -> T {
        from[self.below(from.len())]
    }

    /// In 0 to 1.
    pub fn unit(&mut self) -> f64 {
        (self.next() >> 11) as f64 / (1u64 << 53) as f64
    }
}

fn floats(out: &mut Vec<u8>, values: &[f32]) {
    for v in values {
        out.extend_from_slice(&v.to_bits().to_le_bytes());
    }
}

fn knots(out: &mut Vec<u8>, knots: &[f32]) {
    out.push(knots.len() as u8);
    let mut slots = [0.0; 10];
    slots[..knots.len()].copy_from_slice(knots);
    floats(out, &slots);
}

fn region(out: &mut Vec<u8>, region: Option<(f32, f32)>) {
    out.push(u8::from(region.is_some()));
    let (from, to) = region.unwrap_or((0.0, 0.0));
    floats(out, &[from, to]);
}

pub fn settings(kind: u8, temperature: f32, threshold: f32) -> Vec<u8> {
    let mut out = vec![kind];
    floats(&mut out, &[temperature, threshold]);
    out
}

pub fn tone(number: u8, prior: f32, k: &[f32], r: Option<(f32, f32)>) -> Vec<u8> {
    let mut out = vec![2, number];
    floats(&mut out, &[prior]);
    knots(&mut out, k);
    region(&mut out, r);
    out
}

/// What a tone's tail adds at phrase end and elsewhere: kind 7 in a pack, 24 in a sheet.
pub fn tail(kind: u8, values: [f32; 2]) -> Vec<u8> {
    let mut out = vec![kind];
    floats(&mut out, &values);
    out
}

pub fn accent(number: u8, parent: u8, tolerances: [f32; 4]) -> Vec<u8> {
    let mut out = vec![3, number, parent];
    floats(&mut out, &tolerances);
    out
}

pub fn rule(label: u16, tone: u8, prev: u8, fin: u8, form: u8) -> Vec<u8> {
    let l = label.to_le_bytes();
    vec![4, l[0], l[1], tone, prev, fin, form]
}

pub fn part(weight: f32, k: &[f32]) -> Vec<u8> {
    let mut out = vec![5];
    floats(&mut out, &[weight]);
    knots(&mut out, k);
    out
}

/// A sheet's tone with its tail's record.
pub fn sheet_tone(number: u8, prior: f32, r: Option<(f32, f32)>, values: [f32; 2]) -> Vec<u8> {
    let mut out = vec![18, number];
    floats(&mut out, &[prior]);
    region(&mut out, r);
    [out, tail(24, values)].concat()
}

pub fn sheet_accent(number: u8, tolerances: [f32; 4]) -> Vec<u8> {
    let mut out = vec![19, number];
    floats(&mut out, &tolerances);
    out
}

pub fn list(number: u8, owner: u8, form: u8, label: u16, count: u8) -> Vec<u8> {
    let l = label.to_le_bytes();
    vec![21, number, owner, form, l[0], l[1], count]
}

pub fn component(weight: f32, points: [f32; 10]) -> Vec<u8> {
    let mut out = vec![22];
    floats(&mut out, &[weight]);
    floats(&mut out, &points);
    out
}

#[derive(Clone)]
pub struct Ask {
    pub accent: u8,
    pub tone: u8,
    pub prev: u8,
    pub fin: u8,
    pub span: (u32, u32),
    pub register: (f32, f32),
    pub issues: u16,
    pub variants: Vec<(u8, f32)>,
    pub cold: bool,
    pub frames: Vec<(u8, f32, f32)>,
}

impl Ask {
    /// Accent 1, tone 1, the whole of the frames, register 0 to 12.
    pub fn of(frames: Vec<(u8, f32, f32)>) -> Ask {
        Ask {
            accent: 1,
            tone: 1,
            prev: 0,
            fin: 0,
            span: (0, frames.len() as u32),
            register: (0.0, 12.0),
            issues: 0,
            variants: Vec::new(),
            cold: false,
            frames,
        }
    }

    pub fn bytes(&self) -> Vec<u8> {
        let mut out = vec![48, self.accent, self.tone, self.prev, self.fin];
        out.extend_from_slice(&self.span.0.to_le_bytes());
        out.extend_from_slice(&self.span.1.to_le_bytes());
        floats(&mut out, &[self.register.0, self.register.1]);
        out.extend_from_slice(&self.issues.to_le_bytes());
        out.push(self.variants.len() as u8);
        for i in 0..4 {
            let (tone, weight) = self.variants.get(i).copied().unwrap_or((0, 0.0));
            out.push(tone);
            floats(&mut out, &[weight]);
        }
        out.extend_from_slice(&(self.frames.len() as u16).to_le_bytes());
        if self.cold {
            out.push(55);
        }
        out.extend(frame_bytes(&self.frames));
        out
    }
}

pub fn frame_bytes(frames: &[(u8, f32, f32)]) -> Vec<u8> {
    let mut out = Vec::new();
    for &(flag, hz, p) in frames {
        out.extend_from_slice(&[50, flag]);
        floats(&mut out, &[hz, p]);
    }
    out
}

pub fn steady(n: usize, hz: f32) -> Vec<(u8, f32, f32)> {
    vec![(1, hz, 1.0); n]
}

const ODD_FLOATS: [u32; 34] = [
    0x0000_0000, // 0
    0x8000_0000, // −0
    0x0000_0001, // least subnormal
    0x3F80_0000, // 1
    0x3F80_0001, // just above 1
    0x3F7F_FFFF, // just below 1
    0xBF80_0000, // −1
    0x3F00_0000, // 0.5
    0x4248_0000, // 50
    0x4248_0001, // just above 50
    0xC248_0000, // −50
    0xC248_0001, // just below −50
    0x42C8_0000, // 100
    0x42C8_0001, // just above 100
    0xC2C8_0000, // −100
    0x4300_0000, // 128
    0x4300_0001, // just above 128
    0xC300_0000, // −128
    0x42F0_0000, // 120
    0x7F7F_FFFF, // greatest finite
    0x7F80_0000, // +infinity
    0xFF80_0000, // −infinity
    0x7FC0_0000, // NaN
    0xFFC0_1234, // NaN with a payload
    0x3E80_0000, // 0.25
    0x4000_0000, // 2
    0xC000_0000, // −2
    0x3DE3_8E39, // 1/9
    0x3E63_8E39, // 2/9
    0x3EAA_AAAB, // 1/3
    0x3F2A_AAAB, // 2/3
    0x3F63_8E39, // 8/9
    0x7F00_0000, // 2^127
    0x0080_0000, // least normal
];

pub fn odd_float(r: &mut Rng) -> f32 {
    f32::from_bits(r.pick(&ODD_FLOATS))
}

fn some_knots(r: &mut Rng, least: usize) -> Vec<f32> {
    let count = match r.below(6) {
        0 => least,
        1 => 10,
        2 => 1,
        _ => 1 + r.below(10),
    };
    let style = r.below(4);
    let level = r.pick(&[1.0f32, 2.0, 5.0, -0.0, 0.0]);
    (0..count)
        .map(|_| match style {
            0 => level,
            1 => r.pick(&[0.0f32, -0.0, 1.0, 2.0, 3.0, 5.0, -1.0]),
            2 => (r.unit() * 8.0 - 2.0) as f32,
            _ => (r.unit() * 200.0 - 100.0) as f32,
        })
        .collect()
}

fn scale(r: &mut Rng) -> f32 {
    match r.below(8) {
        0 => (r.unit() * 3.0) as f32 + 0.01,
        1 => 1e-30,
        2 => 1e30,
        _ => r.pick(&[0.5f32, 0.25, 1.0, 2.0, 0.7, 0.3]),
    }
}

/// Distinct numbers from 1, in some order.
fn numbers(r: &mut Rng, count: usize) -> Vec<u8> {
    let mut pool: Vec<u8> = (1..=9).collect();
    pool.push(255);
    if r.one_in(2) {
        for i in (1..pool.len()).rev() {
            pool.swap(i, r.below(i + 1));
        }
    }
    pool.truncate(count);
    pool
}

pub struct SomePack {
    pub bytes: Vec<u8>,
    pub tones: Vec<u8>,
    pub accents: Vec<u8>,
}

/// Parents for accents so that every chain ends, wherever they stand; at times one chain of all.
fn some_parents(r: &mut Rng, accents: &[u8]) -> Vec<u8> {
    let mut order: Vec<usize> = (0..accents.len()).collect();
    if !r.one_in(4) {
        for i in (1..order.len()).rev() {
            order.swap(i, r.below(i + 1));
        }
    }
    let one = r.one_in(4);
    let mut parents = vec![0; accents.len()];
    for (i, &at) in order.iter().enumerate().skip(1) {
        if one || !r.one_in(3) {
            parents[at] = accents[order[if one { i - 1 } else { r.below(i) }]];
        }
    }
    parents
}

/// A pack of one tone and of accents numbered from 1 with these parents; a rule of the last one
/// that has no parent.
pub fn of_parents(parents: &[u8]) -> Vec<u8> {
    let mut out = [settings(1, 1.0, 0.25), tone(1, 1.0, &[3.0], None)].concat();
    let root = parents.iter().rposition(|&p| p == 0);
    for (i, &parent) in parents.iter().enumerate() {
        out.extend(accent(i as u8 + 1, parent, [1.0; 4]));
        if Some(i) == root {
            out.extend([rule(9, 0, 0, 0, 2), part(1.0, &[2.0])].concat());
        }
    }
    out.push(6);
    out
}

/// A tail that loads.
fn some_tail(r: &mut Rng) -> f32 {
    match r.below(3) {
        0 => r.pick(&[0.0, -0.0, 50.0, -50.0, 1e-40, -1e-45, -1.0]),
        1 => (-5.0 * r.unit()) as f32,
        _ => (100.0 * r.unit() - 50.0) as f32,
    }
}

/// A pack that loads.
pub fn some_pack(r: &mut Rng) -> SomePack {
    let sizes = [1, 1, 2, 2, 3, 4, 8];
    let (tone_count, accent_count) = (r.pick(&sizes), r.pick(&sizes));
    let tones = numbers(r, tone_count);
    let accents = numbers(r, accent_count);
    let temperature = if r.one_in(3) { 1.0 } else { scale(r) };
    let threshold = r.pick(&[0.25f32, 0.5, 0.9, 1.0, 1e-6, 0.6]);
    let mut bytes = settings(1, temperature, threshold);
    let shared = some_knots(r, 1);
    let context_only = r.one_in(3);
    let tailed = r.one_in(2);
    for &t in &tones {
        let k =
            if r.one_in(3) { shared.clone() } else { some_knots(r, usize::from(!context_only)) };
        let k = if context_only && r.one_in(3) { Vec::new() } else { k };
        let prior = if r.one_in(2) { 0.5 } else { (r.unit() as f32).max(1e-9) };
        let ends = [
            0.0f32,
            -0.0,
            0.11111111,
            0.22222222,
            1.0 / 3.0,
            0.5,
            2.0 / 3.0,
            0.8888889,
            1.0,
            2.0,
            -1.0,
        ];
        let (a, b) = (r.pick(&ends), r.pick(&ends));
        let range = r.one_in(2).then_some((a.min(b), a.max(b)));
        bytes.extend(tone(t, prior, &k, range));
        if tailed && !r.one_in(3) {
            bytes.extend(tail(7, [some_tail(r), some_tail(r)]));
        }
    }
    let (mut rules, mut parts) = (0, 0);
    let many_rules = r.one_in(2);
    let parents = some_parents(r, &accents);
    for (&a, &parent) in accents.iter().zip(&parents) {
        let tolerances = [scale(r), scale(r), scale(r), scale(r)];
        bytes.extend(accent(a, parent, tolerances));
        let own = r.below(if many_rules { 8 } else { 3 });
        for _ in 0..own {
            if rules == 64 || parts + 4 > 128 {
                break;
            }
            rules += 1;
            let of = |r: &mut Rng| if r.one_in(2) { 0 } else { tones[r.below(tones.len())] };
            let form = 2 + r.below(2) as u8;
            let label = r.pick(&[0u16, 1, 2, 3, 300, 65535]);
            let (t, p) = (of(r), of(r));
            bytes.extend(rule(label, t, p, r.below(3) as u8, form));
            let count = if form == 2 { 1 } else { 1 + r.below(4) };
            parts += count;
            let alike = r.one_in(3).then(|| some_knots(r, 1));
            for _ in 0..count {
                let weight = if form == 2 {
                    1.0
                } else {
                    r.pick(&[0.0f32, 0.5, 0.5, 0.25, 1.0, 0.3, 3.0, f32::MAX, 1e-40])
                };
                let k = if r.one_in(3) { shared.clone() } else { some_knots(r, 1) };
                bytes.extend(part(weight, alike.as_ref().unwrap_or(&k)));
            }
        }
    }
    bytes.push(6);
    SomePack { bytes, tones, accents }
}

/// A query, mostly one that the pack answers.
pub fn some_query(r: &mut Rng, tones: &[u8], accents: &[u8]) -> Ask {
    let n = match r.below(10) {
        0 => r.below(5),
        1 => 3,
        2 => 7,
        3 => 8,
        4 => 11,
        5 => 10 + r.below(90),
        6 => 19,
        _ => 3 + r.below(30),
    };
    let style = r.below(9);
    let base = r.pick(&[110.0f32, 55.0, 220.0, 100.0, 147.3]);
    let step = r.pick(&[0.5f64, 1.0, 0.25, 2.0]);
    let centre = r.below(n.max(1));
    let noise = r.pick(&[1.0f64, 6.0, 40.0]);
    let gaps = r.pick(&[0usize, 0, 3, 8]);
    let frames: Vec<(u8, f32, f32)> = (0..n)
        .map(|i| {
            let hz = match style {
                0 => base,
                1 | 8 => (55.0 * 2f64.powf((i as f64 - centre as f64) * step / 12.0)) as f32,
                2 => {
                    let shape = [55.0f32, 55.0, 110.0, 110.0, 55.0, 27.5, 27.5, 55.0];
                    shape[i * 8 / n.max(1)]
                }
                3 => r.pick(&[55.0f32, 110.0, 27.5, 220.0]),
                4 => {
                    if i == centre {
                        base * 2.0
                    } else {
                        base
                    }
                }
                5 => {
                    if i == 0 || i + 1 == n {
                        55.0
                    } else {
                        55.0 * (1.0 + i as f32)
                    }
                }
                _ => (110.0 * 2f64.powf((r.unit() - 0.5) * noise / 12.0)) as f32,
            };
            let flag = if gaps > 0 && r.one_in(gaps) { 0 } else { 1 };
            let hz = if r.one_in(200) { odd_float(r) } else { hz };
            let p = match r.below(40) {
                0 => odd_float(r),
                1 => -0.0,
                _ => r.pick(&[1.0f32, 0.9, 0.3, 0.1]),
            };
            (flag, hz, p)
        })
        .collect();
    let frames =
        if r.one_in(12) { frames.iter().map(|f| (f.0, f.1, -0.0)).collect() } else { frames };
    let holding =
        |r: &mut Rng, held: &[u8]| if r.one_in(25) { r.below(256) as u8 } else { r.pick(held) };
    let registers =
        [(0.0f32, 12.0f32), (1.0, 5.0), (13.0, 17.0), (0.0, 96.0), (-12.0, 12.0), (0.0, 24.0)];
    let register = match r.below(24) {
        // Chao values near 0, where the last bits show.
        _ if style == 8 => (1.0, 5.0),
        0 => (odd_float(r), odd_float(r)),
        1 => (0.0, 1e-45),
        2 => (5.0, 5.0),
        3 => (12.0, 0.0),
        4 => (f32::NEG_INFINITY, 12.0),
        5 => (0.0, f32::INFINITY),
        6 => (16777216.0, 16777217.5),
        7 => (-0.1, 1e9),
        8..=12 => ((r.unit() * 10.0) as f32, (10.0 + r.unit() * 10.0) as f32),
        _ => r.pick(&registers),
    };
    let count = if r.one_in(2) { 0 } else { r.below(5) };
    let weights = [
        0.0f32,
        -0.0,
        0.1,
        0.3,
        0.25,
        0.5,
        1.0,
        1e-30,
        0.5 + 9.5367431640625e-7,
        0.5 + 1.9073486328125e-6,
        1.0 + 9.5367431640625e-7,
    ];
    let variants = (0..count)
        .map(|_| {
            let weight = if r.one_in(30) { odd_float(r) } else { r.pick(&weights) };
            let weight = if r.one_in(3) { (r.unit() * 0.3) as f32 } else { weight };
            (holding(r, tones), weight)
        })
        .collect();
    let span = match r.below(8) {
        0 => (r.below(4) as u32, n as u32 + 5),
        1 => (1, n.saturating_sub(1) as u32),
        2 => (n as u32, 0),
        3 => (0, u32::MAX),
        _ => (0, n as u32),
    };
    let issues = match r.below(4) {
        0 => (r.next() & 0x3FF) as u16,
        1 => 1 << r.below(10),
        2 => 1 << 9,
        _ => 0,
    };
    let prev = if r.one_in(2) { 0 } else { holding(r, tones) };
    Ask {
        accent: holding(r, accents),
        tone: holding(r, tones),
        prev,
        fin: r.below(2) as u8,
        span,
        register,
        issues,
        variants,
        cold: false,
        frames,
    }
}

/// Frames that make a register: of one pitch, which is widened at times, of two that are nearly one, of few, of any; and how many
/// semitones a pitch is from 55 Hz.
pub fn cold_frames(r: &mut Rng) -> Vec<(u8, f32, f32)> {
    let n = match r.below(8) {
        0 => r.pick(&[1usize, 2, 3, 1023, 1024]),
        1 => 1 + 20 * r.below(8),
        2 => 250 + r.below(100),
        _ => 3 + r.below(40),
    };
    let hz = |st: f64| (55.0 * 2f64.powf(st / 12.0)) as f32;
    let style = r.below(8);
    // Where the ceiling, or the floor, is a power of two and a bit more, its f32s lie twice as far apart.
    let level = r.pick(&[6.0, 14.0, 30.0, 62.0, -8.0, -16.0, -32.0, 0.0]);
    let base = hz(level + 2.0 * r.unit());
    let next = f32::from_bits(base.to_bits() + 1 + r.below(3) as u32);
    let step = r.unit() * 0.2;
    let gaps = r.pick(&[0usize, 0, 3, 8]);
    let frame = |i: usize, r: &mut Rng| {
        let pitch = match style {
            0 | 1 => base,
            2 => r.pick(&[base, next]),
            3 => r.pick(&[55.0f32, 110.0, 27.5, 220.0, 82.5, 41.25]),
            4 => hz((i as f64 - n as f64 / 2.0) * step),
            5 => r.pick(&[1e-45f32, 1e-40, 20.0, 55.0, 1e30, f32::MAX]),
            _ => hz(40.0 * r.unit() - 12.0),
        };
        let flag = u8::from(gaps == 0 || !r.one_in(gaps));
        let pitch = if r.one_in(150) { odd_float(r) } else { pitch };
        (flag, pitch, r.pick(&[1.0f32, 0.9, 0.3, 0.1]))
    };
    (0..n).map(|i| frame(i, r)).collect()
}

/// The same query, but of such frames, and measured in their register.
pub fn some_cold_query(r: &mut Rng, tones: &[u8], accents: &[u8]) -> Ask {
    let mut ask = some_query(r, tones, accents);
    ask.cold = true;
    if r.one_in(2) {
        ask.frames = cold_frames(r);
        let n = ask.frames.len();
        let (a, b) = (r.below(n) as u32, r.below(n + 3) as u32);
        ask.span = r.pick(&[(0, n as u32), (0, n as u32), (0, b), (a, n as u32), (a, b)]);
    }
    ask
}

/// A sheet that loads and need not come from a pack: every list is named by a row.
pub fn some_sheet(r: &mut Rng) -> Vec<u8> {
    let sizes = [1, 2, 2, 3, 8];
    let (tone_count, accent_count) = (r.pick(&sizes), r.pick(&sizes));
    let tones = numbers(r, tone_count);
    let mut accents = numbers(r, accent_count);
    accents.sort();
    let mut out = settings(17, 1.0, 0.5);
    for &t in &tones {
        let values = [some_tail(r), some_tail(r)];
        out.extend(sheet_tone(t, 0.5, r.one_in(3).then_some((0.0, 0.5)), values));
    }
    for &a in &accents {
        out.extend(sheet_accent(a, [1.0; 4]));
    }
    let rows = accents.len() * tones.len() * (tones.len() + 1);
    let most = r.pick(&[1usize, 2, 5, 128]).min(2 * rows);
    let mut used = 0u8;
    for a in &accents {
        for t in &tones {
            for p in std::iter::once(&0).chain(&tones) {
                let mut name = || {
                    if usize::from(used) < most && (most > 5 || r.one_in(2)) {
                        used += 1;
                        used
                    } else {
                        r.below(usize::from(used) + 1) as u8
                    }
                };
                let (open, closed) = (name(), name());
                out.extend_from_slice(&[20, *a, *t, *p, open, closed]);
            }
        }
    }
    let mut left = 192;
    for i in 0..used {
        let after = usize::from(used - i) - 1;
        let count = (1 + r.below(4)).min(left - after);
        left -= count;
        out.extend(list(i + 1, r.pick(&accents), 3, u16::from(i), count as u8));
        for _ in 0..count {
            let mut points = [0.0; 10];
            for p in &mut points {
                *p = r.pick(&[0.0f32, -0.0, 1.0, 128.0, -128.0, 110.0]);
            }
            out.extend(component(r.pick(&[0.0f32, 1.0, 0.5]), points));
        }
    }
    out.push(23);
    out
}

/// Cuts bytes into records by the lengths of their kinds.
pub fn records(bytes: &[u8]) -> Vec<Vec<u8>> {
    let mut out = Vec::new();
    let mut at = 0;
    while at < bytes.len() {
        let length = match bytes[at] {
            1 | 7 | 17 | 24 => 9,
            2 => 56,
            3 => 19,
            4 | 21 => 7,
            5 | 48 => 46,
            18 => 15,
            19 => 18,
            20 => 6,
            22 => 45,
            50 => 10,
            // 6, 23 and 55, and what is none.
            _ => 1,
        };
        let end = (at + length).min(bytes.len());
        out.push(bytes[at..end].to_vec());
        at = end;
    }
    out
}

const KINDS: [u8; 20] = [0, 1, 2, 3, 4, 5, 6, 7, 17, 18, 19, 20, 21, 22, 23, 24, 48, 50, 55, 255];

/// One to three changes: a field, a kind, a record left out, doubled or moved, a cut, a surplus.
pub fn damaged(r: &mut Rng, bytes: &[u8]) -> Vec<u8> {
    let mut all = records(bytes);
    for _ in 0..1 + r.below(3) {
        if all.is_empty() {
            break;
        }
        // Kinds with few records are met by kind, the others by place.
        let i = if r.one_in(2) {
            r.below(all.len())
        } else {
            let mut kinds: Vec<u8> = all.iter().map(|x| x[0]).collect();
            kinds.sort();
            kinds.dedup();
            let kind = r.pick(&kinds);
            let of: Vec<usize> = (0..all.len()).filter(|&i| all[i][0] == kind).collect();
            r.pick(&of)
        };
        let record = &mut all[i];
        match r.below(12) {
            0 => {
                all.remove(i);
            }
            1 => {
                let copy = record.clone();
                all.insert(i, copy);
            }
            2 => {
                let j = r.below(all.len());
                all.swap(i, j);
            }
            3 => record[0] = r.pick(&KINDS),
            4 | 5 if record.len() > 5 => {
                let value = odd_float(r).to_bits().to_le_bytes();
                let at = 1 + r.below(record.len() - 4);
                record[at..at + 4].copy_from_slice(&value);
            }
            6 | 7 if record.len() > 8 => {
                // On a field of the kind.
                let value = odd_float(r).to_bits().to_le_bytes();
                let at = match record[0] {
                    2 if r.one_in(2) => r.pick(&[2, 48, 52]),
                    2 => 7 + 4 * r.below(10),
                    3 => 3 + 4 * r.below(4),
                    5 if r.one_in(2) => 1,
                    5 => 6 + 4 * r.below(10),
                    7 | 24 => r.pick(&[1, 5]),
                    18 => r.pick(&[2, 7, 11]),
                    19 => 2 + 4 * r.below(4),
                    22 => 1 + 4 * r.below(11),
                    48 => r.pick(&[13, 17, 25, 30, 35, 40]),
                    _ => 2,
                };
                if at + 4 <= record.len() {
                    record[at..at + 4].copy_from_slice(&value);
                }
            }
            8 => {
                let at = r.below(record.len());
                record.truncate(at);
                all.truncate(i + 1);
            }
            9 => all.push(vec![r.pick(&[0u8, 6, 23, 50, 55]); 1 + r.below(3)]),
            _ => {
                let at =
                    if r.one_in(2) { r.below(record.len()) } else { r.below(record.len().min(8)) };
                record[at] = r.pick(&[0u8, 1, 2, 3, 4, 5, 7, 9, 10, 11, 12, 129, 130, 200, 255]);
            }
        }
        all.retain(|x| !x.is_empty());
    }
    all.concat()
}

pub enum Case {
    Pack(Vec<u8>),
    Sheet(Vec<u8>),
    Query(Vec<u8>),
    Judge(Vec<u8>, Vec<u8>),
    JudgeSheet(Vec<u8>, Vec<u8>),
    Lend(Result<Vec<u8>, Refusal>, usize),
    Number(f64),
    Pair(f64, f64),
    Grid([[f64; 4]; 3]),
    Knots(Vec<f32>),
    Register(Vec<u8>),
    Span(f32, f32),
}

fn told<T>(out: &mut Vec<u8>, answer: &Result<T, Refusal>, bytes: impl Fn(&T) -> Vec<u8>) {
    match answer {
        Ok(v) => out.extend(bytes(v)),
        Err(e) => {
            out.push(52);
            out.push(e.number);
            out.extend_from_slice(&e.place.to_le_bytes());
        }
    }
}

impl Case {
    /// Packs, sheets and buffers; judgements; queries and shapes; functions alone.
    pub fn sort(&self) -> usize {
        match self {
            Case::Pack(_) | Case::Sheet(_) | Case::Lend(..) => 0,
            Case::Judge(..) | Case::JudgeSheet(..) => 1,
            Case::Query(_) => 2,
            Case::Number(_) | Case::Pair(..) | Case::Grid(_) | Case::Knots(_) => 3,
            Case::Register(_) | Case::Span(..) => 3,
        }
    }

    /// All that the implementation says about a case.
    pub fn answer(&self) -> Vec<u8> {
        let mut out = Vec::new();
        let mut checked = |r: Option<Refusal>| told(&mut out, &r.map_or(Ok(()), Err), |_| vec![]);
        match self {
            Case::Pack(pack) => {
                checked(crate::check_pack(pack));
                told(&mut out, &crate::write_sheet(pack), Vec::clone);
            }
            Case::Sheet(sheet) => checked(crate::check_sheet(sheet)),
            Case::Query(query) => {
                checked(crate::check_query(query));
                told(&mut out, &crate::write_shape(query), Vec::clone);
            }
            Case::Judge(pack, query) => told(&mut out, &crate::judge(pack, query), Vec::clone),
            Case::JudgeSheet(sheet, query) => {
                told(&mut out, &crate::judge_sheet(sheet, query), Vec::clone)
            }
            Case::Lend(result, room) => {
                let mut buffer = vec![0xA5; *room];
                told(&mut out, &crate::lend(result, &mut buffer), |n| n.to_le_bytes().to_vec());
                out.extend(buffer);
            }
            Case::Number(x) => {
                for v in [crate::ln(*x), crate::log2(*x), crate::exp(*x), crate::root(*x)] {
                    let bits = if v.is_nan() { 0x7FF8_0000_0000_0000 } else { v.to_bits() };
                    out.extend_from_slice(&bits.to_le_bytes());
                }
                out.extend_from_slice(&crate::narrow(*x).to_bits().to_le_bytes());
            }
            Case::Pair(a, b) => {
                for v in [crate::min64(*a, *b), crate::max64(*a, *b)] {
                    out.extend_from_slice(&v.to_bits().to_le_bytes());
                }
            }
            Case::Grid(m) => out.extend_from_slice(&crate::solve(*m).to_bits().to_le_bytes()),
            Case::Knots(k) => floats(&mut out, &crate::expand_knots(k)),
            Case::Register(frames) => floats(&mut out, &crate::register_of(frames)),
            Case::Span(floor, ceil) => floats(&mut out, &crate::at_least_min_span(*floor, *ceil)),
        }
        out
    }
}
