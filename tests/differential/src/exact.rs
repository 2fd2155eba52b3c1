//! Judgements that show the last bit of a logarithm or an exponential. The shape lies on the curve, so that a score is made of
//! logarithms alone, and what they come to lies next to 0, where an f32 has every bit of the f64.

use crate::pack::{Accent, Pack, Part, Rule, Tone};
use crate::pick;
use crate::query::{Frame, Query};
use crate::rng::Rng;

/// A pitch that stays, and a tone whose curve it is, bit for bit; tolerances, temperature and prior 1.
pub fn on_the_curve(r: &mut Rng) -> (Pack, Query) {
    let (hz, semitones) = r.pick(&[(27.5, -12.0), (55.0, 0.0), (110.0, 12.0), (220.0, 24.0)]);
    let (width, height) = (r.pick(&[8.0, 12.0, 16.0, 24.0, 48.0]), r.below(5) as f32);
    let floor = semitones - width * height / 4.0;
    let tone = Tone {
        number: r.range(1, 248) as u8,
        prior: 1.0,
        knots: vec![1.0 + height; r.range(1, 3)],
        region: None,
        tail: None,
    };
    let accent = Accent {
        number: r.range(1, 255) as u8,
        parent: 0,
        tolerances: [1.0; 4],
        rules: Vec::new(),
    };
    let n = r.range(8, 10);
    let query = Query {
        accent: accent.number,
        tone: tone.number,
        prev: 0,
        fin: r.below(2) as u8,
        span: (0, n as u32),
        floor,
        ceil: floor + width,
        issues: r.pick(&[0, 0, 1 << 9, 1 << 3]),
        variants: Vec::new(),
        cold: false,
        frames: vec![
            Frame {
                voiced: 1,
                hz,
                p: 1.0
            };
            n
        ],
    };
    let pack = Pack {
        temperature: 1.0,
        threshold: 0.5,
        tones: vec![tone],
        accents: vec![accent],
    };
    (pack, query)
}

/// So many shares of 1, each above 0; the last is what the others leave.
fn shares(r: &mut Rng, n: usize) -> Vec<f32> {
    let mut left = 1.0f32;
    let mut all = Vec::new();
    for _ in 1..n {
        let share = match r.below(6) {
            0 => 0.5,
            1 => 2f32.powi(-(r.range(1, 30) as i32)),
            2 => 1.0 - 2f32.powi(-(r.range(1, 20) as i32)),
            3 => r.pick(&[0.1, 0.2, 0.25, 0.3, 0.7, 0.9]),
            _ => r.between(0.01, 0.99),
        };
        all.push(left * share);
        left -= left * share;
    }
    all.push(left);
    all
}

/// A positive number of some size: m·2^e with e to `far`, m about where it is halved at times.
fn sized(r: &mut Rng, far: i32) -> f32 {
    let e = r.range(0, 2 * far as usize) as i32 - far;
    let m = match r.below(3) {
        0 => r.between(1.414_2, 1.414_3),
        1 => r.pick(&[1.0, 1.0, 1.5, 1.414_213_5, 1.414_213_6]),
        _ => r.between(1.0, 2.0),
    };
    m * 2f32.powi(e)
}

/// Shares for the target's tone and variants of the same tone.
fn variants(r: &mut Rng, q: &mut Query) {
    let n = r.range(2, 5);
    let shares = shares(r, n);
    q.variants = shares[1..].iter().map(|&w| (q.tone, w)).collect();
}

/// Lets the tone be a mixture of its own curve with these weights, and sets the tolerances whose product is taken.
fn mixture(r: &mut Rng, p: &mut Pack, weights: &[f32], tolerances: [f32; 3]) {
    p.accents[0].tolerances[..3].copy_from_slice(&tolerances);
    let knots = &p.tones[0].knots;
    let part = |&weight: &f32| Part {
        weight,
        knots: knots.clone(),
    };
    p.accents[0].rules = vec![Rule {
        label: 1,
        tone: r.pick(&[0, p.tones[0].number]),
        prev: 0,
        fin: 0,
        form: 3,
        parts: weights.iter().map(part).collect(),
    }];
}

/// Weights that come to the product of the tolerances, however large or small that is.
fn parts(r: &mut Rng, p: &mut Pack) {
    let far = r.pick(&[1, 8, 40, 120]);
    let size = sized(r, far);
    let count = r.range(1, 4);
    let weights: Vec<f32> = shares(r, count).iter().map(|w| w * size).collect();
    let sum: f64 = weights.iter().map(|&w| f64::from(w)).sum();
    let (one, two) = (sized(r, 10) * size.sqrt(), sized(r, 10));
    let three = (sum / f64::from(one) / f64::from(two)) as f32;
    let three = f32::from_bits(three.to_bits() + r.below(5) as u32 - 2);
    let mut tolerances = [one, two, three];
    tolerances.rotate_left(r.below(3));
    mixture(r, p, &weights, tolerances);
}

/// Tolerances, found by search, whose product's logarithm shows lo's last digit, or the rounding of e·lo: bits of f32s.
const RARE: [[u32; 3]; 4] = [
    [0x5209_032D, 0x5200_CF12, 0x52ED_A8C6],
    [0x30C7_184C, 0x3095_0DE7, 0x2F0D_5639],
    [0x2E9A_7A22, 0x2EC9_7766, 0x2D06_C514],
    [0x5317_9BFC, 0x5355_8C2D, 0x5281_8CF2],
];

/// One weight, next to the product of such tolerances.
fn rare(r: &mut Rng, p: &mut Pack) {
    let tolerances = r.pick(&RARE).map(f32::from_bits);
    let product: f64 = tolerances.iter().map(|&t| f64::from(t)).product();
    mixture(r, p, &[product as f32], tolerances);
}

/// Shares of 1 that are multiples of some 2^-k and come to 1 without rounding.
fn exact_shares(r: &mut Rng, n: usize) -> Vec<f32> {
    let whole = 1 << r.range(4, 20);
    let mut left = whole;
    let mut all = Vec::new();
    for more in (1..n).rev() {
        let share = r.range(1, (left - more).min(2 * left / (more + 1)));
        all.push(share as f32 / whole as f32);
        left -= share;
    }
    all.push(left as f32 / whole as f32);
    all
}

/// Tones of one curve, whose priors are shares of 1; the threshold is the greatest of them, which is the posterior but for what
/// logarithm and exponential round, or another.
fn twins(r: &mut Rng, p: &mut Pack) {
    let count = r.range(2, 8);
    let first = p.tones[0].clone();
    let priors = match r.below(4) {
        0 => vec![r.pick(&[0.5, 0.25, 0.125, 0.1, 0.3]); count],
        1 => shares(r, count),
        _ => exact_shares(r, count),
    };
    let tone = |(i, &prior): (usize, &f32)| Tone {
        number: first.number + i as u8,
        prior,
        ..first.clone()
    };
    p.tones = priors.iter().enumerate().map(tone).collect();
    let greatest = priors.iter().fold(0.0f32, |most, &prior| most.max(prior));
    p.threshold = pick!(r, greatest, greatest, greatest, 1.0 / count as f32, 0.5);
}

/// The target is far off, its variant on the curve, and weighs as much as the variant's prior: what is left is a logarithm less
/// what an f32 has of it, here one of the least that were found.
fn prior_as_weight(r: &mut Rng, p: &mut Pack, q: &mut Query) {
    let mut best = (f64::INFINITY, 0.5);
    for _ in 0..64 {
        let weight = sized(r, 140);
        let weight = if weight > 1.0 { 1.0 / weight } else { weight };
        let ln = f64::from(weight).ln();
        let rest = (f64::from(ln as f32) - ln).abs() / ln.abs();
        if rest < best.0 {
            best = (rest, weight);
        }
    }
    p.tones[0].prior = best.1;
    let near = p.tones[0].number;
    p.tones.push(Tone {
        number: near % 255 + 1,
        knots: vec![100.0],
        ..p.tones[0].clone()
    });
    q.tone = near % 255 + 1;
    q.variants = vec![(near, best.1)];
}

/// A pack and a query that show last bits.
pub fn exact(r: &mut Rng) -> (Pack, Query) {
    let (mut p, mut q) = on_the_curve(r);
    match r.below(16) {
        0..=4 => variants(r, &mut q),
        5 | 6 => parts(r, &mut p),
        7 | 8 => {
            parts(r, &mut p);
            variants(r, &mut q);
        }
        9..=12 => twins(r, &mut p),
        13 | 14 => prior_as_weight(r, &mut p, &mut q),
        _ => rare(r, &mut p),
    }
    (p, q)
}
