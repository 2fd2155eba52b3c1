//! The cases: what each is made of, and which calls it makes.

use crate::cold;
use crate::damage;
use crate::exact::exact;
use crate::pack::{self, Pack, Part, Rule};
use crate::query::{self, Query};
use crate::rng::Rng;
use crate::sheet;
use crate::tails;

pub const KINDS: [&str; 13] = [
    "pack that loads",
    "pack and query that load",
    "query that loads",
    "pack damaged",
    "query damaged",
    "sheet damaged",
    "sheet of no pack",
    "two packs, alike or nearly",
    "single functions",
    "two packs apart in one bit of a tail",
    "pack and cold query that load",
    "cold query damaged",
    "registers alone",
];

/// How many cases in 122 are of each kind; those of the last three have kind 55 (change request 3).
const SHARES: [usize; KINDS.len()] = [8, 38, 13, 13, 8, 9, 4, 2, 3, 2, 14, 6, 2];

/// The calls, by the numbers that the fixed samples give them.
pub const CALLS: [&str; 20] = [
    "",
    "check_pack",
    "check_query",
    "check_sheet",
    "write_shape",
    "write_sheet",
    "judge",
    "judge_sheet",
    "look_pack",
    "look_sheet",
    "ln",
    "log2",
    "exp",
    "root",
    "narrow",
    "expand_knots",
    "min and max",
    "solve",
    "cold_register",
    "at_least_min_span",
];
/// The kind of the pairs that differ in one bit of a tail.
pub const APART: usize = 9;

pub const CHECK_PACK: u8 = 1;
pub const CHECK_QUERY: u8 = 2;
pub const CHECK_SHEET: u8 = 3;
pub const WRITE_SHAPE: u8 = 4;
pub const WRITE_SHEET: u8 = 5;
pub const JUDGE: u8 = 6;
pub const JUDGE_SHEET: u8 = 7;
pub const LOOK_PACK: u8 = 8;
pub const LOOK_SHEET: u8 = 9;
pub const LN: u8 = 10;
pub const LOG2: u8 = 11;
pub const EXP: u8 = 12;
pub const NARROW: u8 = 14;
pub const EXPAND_KNOTS: u8 = 15;
pub const MIN_MAX: u8 = 16;
pub const SOLVE: u8 = 17;
pub const COLD_REGISTER: u8 = 18;
pub const MIN_SPAN: u8 = 19;

/// One call and its inputs; the second is empty where the call takes one.
#[derive(PartialEq)]
pub struct Call {
    pub call: u8,
    pub a: Vec<u8>,
    pub b: Vec<u8>,
}

pub struct Case {
    pub kind: usize,
    pub calls: Vec<Call>,
}

impl Case {
    fn call(&mut self, call: u8, a: &[u8], b: &[u8]) {
        self.calls.push(Call {
            call,
            a: a.to_vec(),
            b: b.to_vec(),
        });
    }
}

fn sheet_of(pack: &[u8]) -> Vec<u8> {
    reference::write_sheet(pack).unwrap_or_default()
}

/// Products of weights that pass the greatest f32: parts of the greatest weight, and a variant
/// that is a little above 1.
fn overflow(r: &mut Rng, p: &mut Pack, q: &mut Query) {
    let tone = p.tones[r.below(p.tones.len())].number;
    let accent = r.below(p.accents.len());
    let parts = (0..r.range(1, 3))
        .map(|_| Part {
            weight: r.pick(&[pack::MAX, pack::MAX, 1.0]),
            knots: vec![3.0],
        })
        .collect();
    p.accents[accent].rules = vec![Rule {
        label: 9,
        tone,
        prev: 0,
        fin: 0,
        form: 3,
        parts,
    }];
    if p.parts() > 128 || p.rules() > 64 {
        p.accents.iter_mut().for_each(|a| a.rules.truncate(1));
    }
    q.accent = p.accents[accent].number;
    q.variants = vec![(tone, 1.0 + r.range(0, 9) as f32 * f32::EPSILON)];
}

/// Tolerances at which the first tone's log-likelihood is next to 0, so that its f32 shows the
/// last bits of the f64s behind it.
fn balance(r: &mut Rng, p: &mut Pack, q: &mut Query) {
    let accent = r.below(p.accents.len());
    q.accent = p.accents[accent].number;
    q.prev = 0;
    p.temperature = 1.0;
    let shares = [0; 3].map(|_| r.between(0.7, 1.4));
    if r.chance(1, 2) {
        // Points so small that their distance to a contour point takes more bits than an f32 has.
        (p.accents[accent].parent, p.accents[accent].rules) = (0, Vec::new());
        for t in &mut p.tones {
            t.knots = (0..10).map(|_| r.between(-0.003, 0.003)).collect();
        }
    }
    // The first tone's curve, somewhat off, with holes: weights that are no powers of two.
    let found = reference::look_pack(&p.bytes(), q.accent, p.tones[0].number, 0, q.fin);
    let Some(points) = found.and_then(|f| f.first().map(|c| c.points.map(f32::from_bits))) else {
        return;
    };
    let n = r.range(20, 90);
    (q.floor, q.ceil, q.span) = (0.0, 12.0, (0, n as u32));
    q.issues &= !(1 << 3);
    let off = f64::from(r.between(-0.6, 0.6));
    q.frames = (0..n)
        .map(|i| {
            let x = 9.0 * i as f64 / (n - 1) as f64;
            let j = (x as usize).min(8);
            let (a, b) = (f64::from(points[j]), f64::from(points[j + 1]));
            let chao = a + (x - j as f64) * (b - a) + off + 0.2 * r.unit();
            query::Frame {
                voiced: u8::from(r.chance(2, 3)),
                hz: (55.0 * 2f64.powf((chao - 1.0) / 4.0)) as f32,
                p: 1.0,
            }
        })
        .collect();
    if reference::judge(&p.bytes(), &q.bytes()).is_err() {
        (q.tone, q.variants) = (p.tones[0].number, Vec::new());
    }
    let query = q.bytes();
    let judged = |p: &Pack| -> Option<f32> {
        let record = reference::judge(&p.bytes(), &query).ok()?;
        Some(f32::from_le_bytes([
            record[3], record[4], record[5], record[6],
        ]))
    };
    let first = |p: &mut Pack, s: f32| -> Option<f32> {
        for (t, share) in p.accents[accent].tolerances.iter_mut().zip(shares) {
            *t = s * share;
        }
        judged(p)
    };
    // The greatest power of two at which it is not below 0, and the next.
    let Some(k) = (-6..8)
        .rev()
        .find(|&k| first(p, 2f32.powi(k)).is_some_and(|v| v >= 0.0))
    else {
        return;
    };
    let (mut low, mut high) = (2f32.powi(k).to_bits(), 2f32.powi(k + 1).to_bits());
    while high - low > 1 {
        let middle = low + (high - low) / 2;
        match first(p, f32::from_bits(middle)) {
            Some(v) if v >= 0.0 => low = middle,
            _ => high = middle,
        }
    }
    first(p, f32::from_bits(low));
    settle(p, accent, &judged);
}

/// Moves the first three tolerances by some f32 steps each, so that what is judged comes as close to 0 as they allow. Over few
/// steps it follows each of them nearly in a straight line: for every pair of steps of two the third's is known.
fn settle(p: &mut Pack, accent: usize, judged: &dyn Fn(&Pack) -> Option<f32>) {
    const FAR: i32 = 48;
    let base = p.accents[accent].tolerances;
    let mut moved = |steps: [i32; 3]| -> (f64, [f32; 4]) {
        let mut tried = base;
        for (t, step) in tried.iter_mut().zip(steps) {
            *t = f32::from_bits(t.to_bits().wrapping_add_signed(step));
        }
        p.accents[accent].tolerances = tried;
        (judged(p).map_or(f64::INFINITY, f64::from), tried)
    };
    let start = moved([0; 3]).0;
    let slopes = [[FAR, 0, 0], [0, FAR, 0], [0, 0, FAR]]
        .map(|steps| (moved(steps).0 - start) / f64::from(FAR));
    let mut near: Vec<(f64, [i32; 3])> = Vec::new();
    for i in -FAR..FAR {
        for j in -FAR..FAR {
            let rest = start + f64::from(i) * slopes[0] + f64::from(j) * slopes[1];
            let k = (-rest / slopes[2]).round();
            if k.abs() <= f64::from(FAR) {
                near.push(((rest + k * slopes[2]).abs(), [i, j, k as i32]));
            }
        }
    }
    near.sort_by(|a, b| a.0.total_cmp(&b.0));
    let mut best = (f64::INFINITY, base);
    for &(_, steps) in near.iter().take(24) {
        let (v, tried) = moved(steps);
        if v.abs() < best.0 && v != 0.0 {
            best = (v.abs(), tried);
        }
    }
    p.accents[accent].tolerances = best.1;
}

/// Numbers, found by search, at which what next to no other shows can be seen.
const RARE: [u64; 9] = [
    0x4700_0001_3CA5_CC92, // ln: lo's last digit, and the rounding of e·lo
    0x3A30_0000_2220_0AF0, // ln: lo's last digit
    0x396F_FFFD_7B1A_EBD0, // ln: the rounding of e·lo
    0xC083_9A62_B5D5_3472, // exp: lo's last digit
    0xC06A_56EF_8EC9_3BB5, // exp: lo's last digit
    0xC084_8E5F_987C_2ADD, // exp: lo's last digit, and the rounding of n·lo
    0xC081_3DF6_7979_E79B, // exp: the rounding of n·lo
    0xC02B_0861_A6C0_F69C, // exp: n by division by LN2
    0xC037_386E_22ED_F4A7, // exp: n by division by LN2
];

/// A number n + `more` times LN2, mostly below 0, up to `far` from there or a few steps off.
fn beside(r: &mut Rng, more: f64, far: f64) -> u64 {
    let n = r.range(0, 1021) as f64 * r.pick(&[1.0, -1.0, -1.0, -1.0]);
    let v = (n + more) * std::f64::consts::LN_2 + (r.unit() - 0.5) * far;
    v.to_bits().wrapping_add(r.below(5) as u64).wrapping_sub(2)
}

/// Bits of f64s for the single functions.
fn bits(r: &mut Rng) -> u64 {
    let special = [
        0,
        1 << 63,
        1,
        0x000F_FFFF_FFFF_FFFF,
        0x0010_0000_0000_0000,
        0x7FEF_FFFF_FFFF_FFFF,
        0x7FF0_0000_0000_0000,
        0xFFF0_0000_0000_0000,
        0x7FF8_0000_0000_0000,
        0x7FF0_0000_0000_0001,
        0xFFFF_FFFF_FFFF_FFFF,
        0x3FF0_0000_0000_0000,
        0xBFF0_0000_0000_0000,
        0x3FF6_A09E_667F_3BCD, // 1.4142135623730951
        0x3FF6_A09E_667F_3BCC,
        0x3FF6_A09E_667F_3BCE,
        0x4000_0000_0000_0000,
        (-708f64).to_bits(),
        708f64.to_bits(),
        0x47EF_FFFF_E000_0000, // greatest f32
        0x47EF_FFFF_F000_0000, // halfway to the next
        0x36A0_0000_0000_0000, // least f32
        0x3690_0000_0000_0000, // half of it
        0x3810_0000_0000_0000, // least normal f32
    ];
    match r.below(20) {
        // Powers of two, and next to them.
        16 if r.chance(1, 4) => r.pick(&RARE),
        16 => {
            let power = match r.range(0, 2097) as u64 {
                k @ 0..=51 => 1 << k,
                k => (k - 51) << 52,
            };
            power.wrapping_add(r.pick(&[0, 0, 1, u64::MAX]))
        }
        // Where m is halved, and next to it, with any exponent.
        17 => {
            let border = 0x0006_A09E_667F_3BCD + r.below(3) as u64 - 1;
            (r.range(1, 2046) as u64) << 52 | border
        }
        // Where v·LOG2E + 0.5 steps from one whole number to the next, and where v is next to n·LN2.
        18 => beside(r, -0.5, 0.0),
        19 => {
            let far = r.pick(&[0.1, 1.0e-3, 1.0e-5, 1.0e-9]);
            beside(r, 0.0, far)
        }
        // Mantissas at the ends of the series' reach, where its last term counts most.
        12..=14 => {
            let m = r.pick(&[1.400, 1.41421, 1.4143, 1.405, 1.41]) + 0.02 * (r.unit() - 0.5);
            let e = r.pick(&[0, 0, 0, -1, -1, 1, 5, -30]);
            (m * 2f64.powi(e)).to_bits()
        }
        15 => (1.0 + (r.unit() - 0.5) * r.pick(&[1.0, 0.1, 1.0e-3, 1.0e-8])).to_bits(),
        0 => r.next(),
        1 => r.pick(&special),
        2 => r
            .pick(&special)
            .wrapping_add(r.below(5) as u64)
            .wrapping_sub(2),
        3 => (r.range(1, 2046) as u64) << 52 | r.next() >> 12,
        4 => r.next() >> 12,
        5 => (-750.0 * r.unit()).to_bits(),
        6 => (-r.unit() * 2f64.powi(-(r.below(60) as i32))).to_bits(),
        7 => ((r.unit() - 0.5) * 1500.0).to_bits(),
        // Near a tie of the narrowing.
        8 => {
            let f = f64::from(f32::from_bits(r.bits32() & 0x7FFF_FFFF)).to_bits();
            f.wrapping_add(1 << 28)
                .wrapping_add(r.below(3) as u64)
                .wrapping_sub(1)
        }
        // Below the normal f32s.
        9 => {
            let f = r.unit() * 2f64.powi(-126 - r.below(26) as i32);
            f.to_bits() & !0 << r.pick(&[0, 20, 29, 40])
        }
        // Near a square.
        10 => {
            let s = f64::from_bits((r.range(600, 1400) as u64) << 52 | r.next() >> 12 & !0 << 26);
            (s * s)
                .to_bits()
                .wrapping_add(r.below(3) as u64)
                .wrapping_sub(1)
        }
        _ => {
            let e = r.range(1000, 1046) as u64;
            e << 52 | r.next() >> 12
        }
    }
}

fn functions(r: &mut Rng, case: &mut Case) {
    for call in LN..=NARROW {
        let all: Vec<u8> = (0..64).flat_map(|_| bits(r).to_le_bytes()).collect();
        case.call(call, &all, &[]);
    }
    let style = pack::style(r);
    let knots: Vec<u8> = pack::knots(r, style)
        .iter()
        .flat_map(|k| k.to_le_bytes())
        .collect();
    case.call(EXPAND_KNOTS, &knots, &[]);
    let pair = |r: &mut Rng| {
        let zero = r.chance(1, 3);
        [0; 2].map(|_| match zero {
            true => r.pick(&[0, 1u64 << 63, 1, 0x7FF8 << 48]),
            false => bits(r),
        })
    };
    let pairs: Vec<u8> = (0..16)
        .flat_map(|_| pair(r))
        .flat_map(u64::to_le_bytes)
        .collect();
    case.call(MIN_MAX, &pairs, &[]);
    // Small whole numbers, so that pivots are equal at times.
    let grid: Vec<u8> = (0..12)
        .map(|_| r.range(0, 6) as f64 - 3.0)
        .flat_map(f64::to_le_bytes)
        .collect();
    case.call(SOLVE, &grid, &[]);
}

/// Registers of frames, and pairs of ends.
fn registers(r: &mut Rng, case: &mut Case) {
    for _ in 0..4 {
        let n = cold::count(r);
        let frames = cold::frames(r, n);
        case.call(COLD_REGISTER, &query::frame_bytes(&frames), &[]);
    }
    for _ in 0..8 {
        let ends: Vec<u8> = cold::ends(r)
            .into_iter()
            .flat_map(f32::to_le_bytes)
            .collect();
        case.call(MIN_SPAN, &ends, &[]);
    }
}

fn looks(r: &mut Rng, accents: &[u8], tones: &[u8]) -> Vec<[u8; 4]> {
    let mut all = Vec::new();
    for &a in accents {
        for &t in tones {
            for p in 0..=tones.len() {
                for f in 0..2 {
                    all.push([a, t, if p == 0 { 0 } else { tones[p - 1] }, f]);
                }
            }
        }
    }
    while all.len() > 12 {
        let at = r.below(all.len());
        all.swap_remove(at);
    }
    all
}

pub fn case(seed: u64, index: u64) -> Case {
    let mut rng = Rng::new(seed, index);
    let r = &mut rng;
    let mut at = r.below(SHARES.iter().sum());
    let mut kind = 0;
    while at >= SHARES[kind] {
        at -= SHARES[kind];
        kind += 1;
    }
    let mut case = Case {
        kind,
        calls: Vec::new(),
    };
    match kind {
        0 => {
            let p = pack::pack(r);
            let bytes = p.bytes();
            let sheet = sheet_of(&bytes);
            case.call(CHECK_PACK, &bytes, &[]);
            case.call(WRITE_SHEET, &bytes, &[]);
            case.call(CHECK_SHEET, &sheet, &[]);
            let accents: Vec<u8> = p.accents.iter().map(|a| a.number).collect();
            let tones: Vec<u8> = p.tones.iter().map(|t| t.number).collect();
            for look in looks(r, &accents, &tones) {
                case.call(LOOK_PACK, &bytes, &look);
                case.call(LOOK_SHEET, &sheet, &look);
            }
        }
        1 => {
            let mut p = pack::pack(r);
            let mut q = query::query(r, Some(&p));
            match r.below(40) {
                0 => overflow(r, &mut p, &mut q),
                1 | 2 => balance(r, &mut p, &mut q),
                3..=6 => {
                    (p, q) = exact(r);
                    if r.chance(1, 4) {
                        tails::give(r, &mut p);
                    }
                }
                7..=12 => tails::creaky(r, &mut p, &mut q),
                _ => {}
            }
            let (bytes, q) = (p.bytes(), q.bytes());
            case.call(JUDGE, &bytes, &q);
            case.call(JUDGE_SHEET, &sheet_of(&bytes), &q);
        }
        2 => {
            let q = query::query(r, None).bytes();
            case.call(CHECK_QUERY, &q, &[]);
            case.call(WRITE_SHAPE, &q, &[]);
        }
        3 => {
            let p = pack::pack(r);
            let mut q = query::query(r, Some(&p)).bytes();
            let mut bytes = p.bytes();
            match r.below(20) {
                0..=3 => bytes = damage::crowded_pack(r, &p),
                4 => bytes = damage::confused_pack(r, &p),
                5..=7 => bytes = damage::misparented_pack(r, &p),
                8..=11 => damage::mistailed(r, &mut bytes),
                _ => damage::damage(r, &mut bytes),
            }
            if r.chance(1, 4) {
                damage::damage(r, &mut q);
            }
            case.call(CHECK_PACK, &bytes, &[]);
            case.call(WRITE_SHEET, &bytes, &[]);
            case.call(JUDGE, &bytes, &q);
        }
        4 => {
            let p = pack::pack(r);
            let mut q = query::query(r, Some(&p)).bytes();
            if r.chance(1, 5) {
                damage::crowded_query(r, &mut q);
            } else {
                damage::damage(r, &mut q);
            }
            let bytes = p.bytes();
            case.call(CHECK_QUERY, &q, &[]);
            case.call(WRITE_SHAPE, &q, &[]);
            case.call(JUDGE, &bytes, &q);
            case.call(JUDGE_SHEET, &sheet_of(&bytes), &q);
        }
        5 => {
            let (mut s, q) = match r.below(4) {
                0 => {
                    let past = r.chance(1, 3);
                    let s = sheet::sheet(r, past);
                    if past && r.chance(2, 3) {
                        // The limits themselves.
                        let q = query::query(r, None).bytes();
                        case.call(CHECK_SHEET, &s, &[]);
                        case.call(JUDGE_SHEET, &s, &q);
                        return case;
                    }
                    (s, query::query(r, None))
                }
                _ => {
                    let p = pack::pack(r);
                    (sheet_of(&p.bytes()), query::query(r, Some(&p)))
                }
            };
            let mut q = q.bytes();
            match r.below(12) {
                0..=3 => {
                    damage::disordered(r, &mut s);
                    if r.chance(1, 5) {
                        damage::disordered(r, &mut s);
                    }
                }
                4..=6 => damage::mistailed(r, &mut s),
                _ => damage::damage(r, &mut s),
            }
            if r.chance(1, 4) {
                damage::damage(r, &mut q);
            }
            case.call(CHECK_SHEET, &s, &[]);
            case.call(JUDGE_SHEET, &s, &q);
        }
        6 => {
            let s = sheet::sheet(r, false);
            let (accents, tones) = sheet::held(&s);
            let mut q = query::query(r, None);
            if r.chance(9, 10) {
                q.accent = r.pick(&accents);
                q.tone = r.pick(&tones);
                q.prev = if r.chance(1, 2) { 0 } else { r.pick(&tones) };
                for v in &mut q.variants {
                    v.0 = r.pick(&tones);
                }
            }
            case.call(CHECK_SHEET, &s, &[]);
            case.call(JUDGE_SHEET, &s, &q.bytes());
            for look in looks(r, &accents, &tones) {
                case.call(LOOK_SHEET, &s, &look);
            }
        }
        7 => {
            let p = pack::pack(r);
            let mut other = pack::twin(r, &p);
            if r.chance(1, 2) {
                pack::nudge(r, &mut other);
            }
            case.call(WRITE_SHEET, &p.bytes(), &[]);
            case.call(WRITE_SHEET, &other.bytes(), &[]);
        }
        9 => {
            let (one, two, _) = tails::pair(r);
            case.call(WRITE_SHEET, &one, &[]);
            case.call(WRITE_SHEET, &two, &[]);
        }
        10 => {
            let p = pack::pack(r);
            let bytes = p.bytes();
            let q = cold::query(r, &p).bytes();
            case.call(CHECK_QUERY, &q, &[]);
            case.call(WRITE_SHAPE, &q, &[]);
            case.call(JUDGE, &bytes, &q);
            case.call(JUDGE_SHEET, &sheet_of(&bytes), &q);
        }
        11 => {
            let p = pack::pack(r);
            let mut q = cold::query(r, &p);
            if r.chance(1, 3) {
                q.frames.truncate(r.below(4));
            }
            let mut q = q.bytes();
            match r.below(4) {
                0 => damage::damage(r, &mut q),
                1 if r.chance(1, 4) => damage::crowded_query(r, &mut q),
                _ => cold::misplaced(r, &mut q),
            }
            let bytes = p.bytes();
            case.call(CHECK_QUERY, &q, &[]);
            case.call(WRITE_SHAPE, &q, &[]);
            case.call(JUDGE, &bytes, &q);
            case.call(JUDGE_SHEET, &sheet_of(&bytes), &q);
        }
        12 => registers(r, &mut case),
        _ => functions(r, &mut case),
    }
    case
}
