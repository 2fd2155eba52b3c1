//! Queries that load.

use crate::pack::{Pack, LEAST, MAX, NORMAL};
use crate::pick;
use crate::rng::Rng;

#[derive(Clone)]
pub struct Frame {
    pub voiced: u8,
    pub hz: f32,
    pub p: f32,
}

#[derive(Clone)]
pub struct Query {
    pub accent: u8,
    pub tone: u8,
    pub prev: u8,
    pub fin: u8,
    pub span: (u32, u32),
    pub floor: f32,
    pub ceil: f32,
    pub issues: u16,
    pub variants: Vec<(u8, f32)>,
    /// Whether kind 55 stands behind the query record.
    pub cold: bool,
    pub frames: Vec<Frame>,
}

/// What stands for hz where a frame with its flag set has no pitch.
pub const NO_PITCH: [f32; 6] = [
    0.0,
    -0.0,
    -110.0,
    f32::NAN,
    f32::INFINITY,
    f32::NEG_INFINITY,
];

/// The records of frames.
pub fn frame_bytes(frames: &[Frame]) -> Vec<u8> {
    let mut out = Vec::new();
    for f in frames {
        out.extend([50, f.voiced]);
        out.extend(f.hz.to_le_bytes());
        out.extend(f.p.to_le_bytes());
    }
    out
}

impl Query {
    pub fn bytes(&self) -> Vec<u8> {
        let mut out = vec![48, self.accent, self.tone, self.prev, self.fin];
        out.extend(self.span.0.to_le_bytes());
        out.extend(self.span.1.to_le_bytes());
        out.extend(self.floor.to_le_bytes());
        out.extend(self.ceil.to_le_bytes());
        out.extend(self.issues.to_le_bytes());
        out.push(self.variants.len() as u8);
        for i in 0..4 {
            let (tone, weight) = self.variants.get(i).copied().unwrap_or((0, 0.0));
            out.push(tone);
            out.extend(weight.to_le_bytes());
        }
        out.extend((self.frames.len() as u16).to_le_bytes());
        if self.cold {
            out.push(55);
        }
        out.extend(frame_bytes(&self.frames));
        out
    }
}

pub fn any_f32(r: &mut Rng) -> f32 {
    match r.below(4) {
        0 => f32::from_bits(r.bits32()),
        1 => r.pick(&[0.0, -0.0, LEAST, -LEAST, NORMAL, MAX, -MAX]),
        2 => f32::from_bits(r.pick(&[
            0x7FC0_0000,
            0xFFC0_0000,
            0x7F80_0001,
            0x7F80_0000,
            0xFF80_0000,
            0x7FFF_FFFF,
        ])),
        _ => r.between(-10.0, 30.0),
    }
}

fn register(r: &mut Rng) -> (f32, f32) {
    let floor = match r.below(3) {
        0 => 0.0,
        1 => r.between(-5.0, 15.0),
        _ => r.pick(&[-12.0, -24.0, 5.0, -0.0]),
    };
    match r.below(16) {
        0 => (any_f32(r), any_f32(r)),
        1 => (any_f32(r), 12.0),
        2 => (floor, any_f32(r)),
        3 => (floor, floor),
        4 => (floor + 7.0, floor),
        5 => (
            floor,
            floor + r.pick(&[LEAST, 1.0e-30, 1.0e-6, 1.0e30, MAX]),
        ),
        6..=8 => (floor, floor + r.pick(&[4.0, 8.0, 12.0, 16.0, 24.0, 48.0])),
        _ => (floor, floor + r.between(3.0, 24.0)),
    }
}

fn count(r: &mut Rng) -> usize {
    match r.below(100) {
        0 if r.chance(1, 2) => 0,
        1 if r.chance(1, 2) => 1,
        2..=3 => 2,
        4..=13 => 3,
        14..=19 => 7,
        20..=33 => 8,
        34..=38 => 9,
        39..=43 => 10,
        44..=47 => 11,
        // Windows whose edges are whole numbers but for rounding.
        48 if r.chance(1, 2) => r.pick(&[100, 100, 100, 280, 460, 640, 820, 1000]),
        48 => 1024,
        49 => pick!(r, 1023, 1024, r.range(200, 1024)),
        50..=53 => r.range(60, 200),
        54..=60 => r.range(4, 6),
        _ => r.range(11, 60),
    }
}

/// The pitch of frame `i` of `n`.
fn pitches(r: &mut Rng, n: usize, pack: Option<&Pack>, floor: f32, ceil: f32) -> Vec<f32> {
    let width = if ceil - floor > 0.5 && ceil - floor < 100.0 {
        ceil - floor
    } else {
        4.0
    };
    let base = if floor.abs() < 100.0 { floor } else { 0.0 };
    let hz = |chao: f64| {
        let st = f64::from(base) + (chao - 1.0) / 4.0 * f64::from(width);
        (55.0 * 2f64.powf(st / 12.0)) as f32
    };
    match r.below(10) {
        0 if r.chance(1, 2) => vec![r.pick(&[110.0, 55.0, 27.5, 220.0]); n],
        0 => vec![r.between(60.0, 400.0); n],
        1 => {
            // Runs of exact semitones.
            let mut all = Vec::new();
            while all.len() < n {
                let v = r.pick(&[55.0, 110.0, 27.5, 220.0, 55.0]);
                for _ in 0..r.range(1, 6) {
                    all.push(v);
                }
            }
            all.truncate(n);
            if r.chance(1, 2) && n > 0 {
                all[n - 1] = all[0];
            }
            all
        }
        2 => {
            // Down and up again, or up and down, by the same way, from and to one pitch.
            let mut all = vec![55.0; n];
            let k = n / 6 + 1;
            let (one, two) = if r.chance(1, 2) {
                (27.5, 110.0)
            } else {
                (110.0, 27.5)
            };
            for (i, v) in all.iter_mut().enumerate() {
                match i / k {
                    1 | 2 => *v = one,
                    3 | 4 => *v = two,
                    _ => {}
                }
            }
            all
        }
        3 => (0..n).map(|_| r.between(40.0, 600.0)).collect(),
        4 if r.chance(1, 2) => (0..n)
            .map(|_| match r.below(4) {
                0 => f32::from_bits(r.bits32()),
                1 => r.pick(&[LEAST, NORMAL, MAX, 1.0e-40, 1.0e30]),
                _ => r.between(20.0, 2000.0),
            })
            .collect(),
        5 => {
            // A dip or a hill of some excursion.
            let (at, size) = (r.unit(), f64::from(r.between(-3.0, 3.0)));
            let wide = 0.05 + 0.3 * r.unit();
            (0..n)
                .map(|i| {
                    let u = i as f64 / (n.max(2) - 1) as f64;
                    hz(3.0 + size * (1.0 - ((u - at) / wide).abs()).max(0.0))
                })
                .collect()
        }
        _ => {
            // A curve of the pack, moved by about a tolerance, and some noise.
            let mut curves: Vec<&[f32]> = Vec::new();
            if let Some(p) = pack {
                curves.extend(p.tones.iter().map(|t| &t.knots[..]));
                let rules = p.accents.iter().flat_map(|a| &a.rules);
                curves.extend(rules.flat_map(|x| &x.parts).map(|p| &p.knots[..]));
            }
            curves.retain(|c| !c.is_empty() && c.iter().all(|k| k.abs() < 10.0));
            let curve: Vec<f32> = if curves.is_empty() {
                (0..r.range(1, 4)).map(|_| r.between(1.0, 5.0)).collect()
            } else {
                curves[r.below(curves.len())].to_vec()
            };
            let shift = r.pick(&[0.0, 0.0, 0.5, -0.5, 1.0, -1.0, 1.5, -1.5, 2.5]);
            let tilt = r.pick(&[0.0, 0.0, 1.0, -1.0, 2.0, -2.0]);
            let noise = r.pick(&[0.0, 0.0, 0.1, 0.5]);
            (0..n)
                .map(|i| {
                    let u = i as f64 / (n.max(2) - 1) as f64;
                    let x = u * (curve.len() - 1) as f64;
                    let j = (x.floor() as usize).min(curve.len() - 1);
                    let k = (j + 1).min(curve.len() - 1);
                    let (a, b) = (f64::from(curve[j]), f64::from(curve[k]));
                    let c = a + (x - j as f64) * (b - a) + shift + tilt * (u - 0.5);
                    hz(c + noise * (r.unit() - 0.5))
                })
                .collect()
        }
    }
}

fn voicing(r: &mut Rng, n: usize) -> Vec<bool> {
    let mut all = vec![true; n];
    match r.below(12) {
        0 => {
            let share = r.range(3, 9);
            for v in &mut all {
                *v = r.chance(share, 10);
            }
        }
        1 | 2 if n > 4 => {
            // A hole.
            let a = r.range(1, n - 2);
            let b = r.range(a, n - 2);
            all[a..=b].fill(false);
        }
        3 if r.chance(1, 2) => {
            // Two or three frames in all.
            all.fill(false);
            for _ in 0..r.range(2, 4) {
                if n > 0 {
                    let at = r.below(n);
                    all[at] = true;
                }
            }
        }
        4 if n > 3 => {
            let (a, b) = (r.below(n / 2), r.range(n / 2, n - 1));
            all[..a].fill(false);
            all[b..].fill(false);
        }
        5 if r.chance(1, 3) => all.fill(false),
        6 if n > 6 => {
            // Only the ends.
            let (a, b) = (r.range(1, 3), n - r.range(1, 3));
            all[a..b].fill(false);
        }
        _ => {}
    }
    all
}

fn span(r: &mut Rng, n: usize) -> (u32, u32) {
    let n = n as u32;
    match r.below(32) {
        0 => (0, u32::MAX),
        1 => (r.below(n as usize + 2) as u32, u32::MAX - r.below(2) as u32),
        2 => (0, n + r.range(1, 20) as u32),
        3 => {
            let a = r.below(n as usize + 1) as u32;
            (a, r.range(a as usize, n as usize + 2) as u32)
        }
        4 => (r.below(n as usize + 1) as u32, n),
        5 => (0, r.below(n as usize + 1) as u32),
        6 => match r.below(8) {
            0 => (n, 0),
            1 => (r.bits32(), r.bits32()),
            2 => (n, n),
            3 => (n, u32::MAX),
            4 => (u32::MAX, u32::MAX),
            5 => (0, 16_777_217 + r.below(5) as u32),
            6 => (1, 0x8000_0001 + r.below(300) as u32),
            _ => (u32::MAX, 0),
        },
        7 => (1, n),
        _ => (0, n),
    }
}

fn issues(r: &mut Rng) -> u16 {
    match r.below(12) {
        0..=4 => 0,
        5 | 6 => 1 << r.below(10),
        7 => r.next() as u16 & 0x3FF,
        8 => 1 << 9,
        9 => 1 << 9 | 1 << r.below(10),
        10 => 1 << r.below(10) | 1 << r.below(10),
        _ => r.pick(&[0x3FF, 1 << 3, 1 << 1, 1 << 2, 1 << 4]),
    }
}

fn variants(r: &mut Rng, tone: &mut dyn FnMut(&mut Rng) -> u8) -> Vec<(u8, f32)> {
    let n = r.range(1, 4);
    let mut all: Vec<(u8, f32)> = Vec::new();
    let step = 2f32.powi(-24);
    match r.below(8) {
        // Up to the edge of 15: what is left to 1, moved by some steps.
        0 | 1 => {
            let mut sum = 0.0f32;
            for i in 0..n {
                let w = if i + 1 == n {
                    let off = r.pick(&[0, 0, 1, 2, 8, 15, 16, 17, 18, 20, 32, 33, 40, 1000]);
                    let off = off as f32 * step * if r.chance(1, 4) { -1.0 } else { 1.0 };
                    (1.0 - sum) + off
                } else {
                    pick!(r, 0.5, 0.25, 0.125, r.between(0.0, 0.3))
                };
                sum += w;
                all.push((tone(r), w));
            }
        }
        2 => {
            let more = r.pick(&[-20, -19, -21, -18, -23]);
            all.push((tone(r), 0.5));
            all.push((tone(r), 0.5 + 2f32.powi(more)));
        }
        3 => {
            for _ in 0..n {
                let w = r.pick(&[0.0, -0.0, LEAST, NORMAL, 0.25, 0.5, 1.0]);
                all.push((tone(r), w));
            }
        }
        4 if r.chance(1, 2) => {
            for _ in 0..n {
                let w = match r.below(3) {
                    0 => any_f32(r),
                    1 => r.pick(&[-LEAST, -1.0, 1.000_000_1, 1.000_001, 1.000_001_1, 2.0]),
                    _ => 0.1,
                };
                all.push((tone(r), w));
            }
        }
        _ => {
            for _ in 0..n {
                let w = r.between(0.0, 1.0 / n as f32);
                all.push((tone(r), w));
            }
        }
    }
    all
}

/// A query that loads, mostly about what the pack holds.
pub fn query(r: &mut Rng, pack: Option<&Pack>) -> Query {
    let held: Vec<u8> = pack.map_or(vec![1, 2, 3], |p| {
        p.tones.iter().map(|t| t.number).collect()
    });
    let accents: Vec<u8> = pack.map_or(vec![1], |p| p.accents.iter().map(|a| a.number).collect());
    let odd = r.chance(1, 12);
    let mut tone = |r: &mut Rng| match odd {
        true if r.chance(1, 3) => pick!(r, 0, 255, r.byte()),
        _ => held[r.below(held.len())],
    };
    let accent = if odd && r.chance(1, 3) {
        r.byte()
    } else {
        r.pick(&accents)
    };
    let of = tone(r);
    let prev = if r.chance(1, 2) { 0 } else { tone(r) };
    let (floor, ceil) = register(r);
    let crossing = r.chance(1, 16);
    let n = if crossing {
        9 * r.range(1, 10) + 1
    } else {
        count(r)
    };
    let mut pitches = pitches(r, n, pack, floor, ceil);
    let (mut floor, mut ceil) = (floor, ceil);
    let fine = r.chance(1, 12);
    if crossing {
        // Exact values on both sides of 0, and points at whole frames: windows whose mean is 0 but
        // for the rounding of each step, which an f32 shows.
        let width = r.pick(&[16.0, 12.0, 8.0, 24.0]);
        (floor, ceil) = (width / 4.0, width / 4.0 + width);
        for v in &mut pitches {
            *v = r.pick(&[27.5, 55.0, 110.0, 55.0]);
        }
    } else if fine {
        // Values next to 0 are multiples of 2^-53. From 2^-29 to 2^-27 these lie halfway between
        // two f32s, or next to it, so that the last bit of an f64 decides an f32.
        let width = r.pick(&[6.0, 7.0, 11.0, 12.0]);
        let mut hz = 110.0;
        for _ in 0..300 {
            let tried = r.between(60.0, 400.0);
            let st = 12.0 * (f64::from(tried) / 55.0).log2();
            let f = (st + width / 4.0) as f32;
            let c = f + width as f32;
            let value = 1.0 + 4.0 * (st - f64::from(f)) / (f64::from(c) - f64::from(f));
            (hz, floor, ceil) = (tried, f, c);
            if value.abs() > 1.8e-9 && value.abs() < 7.5e-9 {
                break;
            }
        }
        let step = r.pick(&[0.0, 0.0, 1.2e-7, 1.0e-6]);
        for v in &mut pitches {
            *v = hz * (1.0 + step * r.below(3) as f32);
        }
    }
    let mut voiced = voicing(r, n);
    if (fine || crossing) && n > 4 && r.chance(1, 2) {
        let a = r.range(1, n - 2);
        voiced[a..=r.range(a, n - 2)].fill(false);
    }
    let spoiled = r.chance(1, 10);
    let confidence = r.below(8);
    let frames = (0..n)
        .map(|i| {
            let mut frame = Frame {
                voiced: u8::from(voiced[i]),
                hz: pitches[i],
                p: match confidence {
                    0 => -0.0,
                    1 => 0.0,
                    2 => any_f32(r),
                    3 => r.pick(&[0.0, -0.0]),
                    4 => 1.0,
                    _ => r.unit() as f32,
                },
            };
            if !voiced[i] && r.chance(3, 4) {
                frame.hz = any_f32(r);
            }
            if spoiled && r.chance(1, 6) {
                frame.hz = r.pick(&NO_PITCH);
            }
            frame
        })
        .collect();
    let mut bits = issues(r);
    let variants = if r.chance(2, 5) {
        variants(r, &mut tone)
    } else {
        Vec::new()
    };
    if !variants.is_empty() && r.chance(1, 4) {
        bits |= 1 << 9;
    }
    Query {
        accent,
        tone: of,
        prev,
        fin: r.below(2) as u8,
        span: span(r, n),
        floor,
        ceil,
        issues: bits,
        variants,
        cold: false,
        frames,
    }
}
