//! A register for a new speaker (change request 3): cold queries, good and damaged; frames that make a register, and ends to be
//! widened; and what the answers show, of which a run of many cases has to see everything.

use crate::ask::{floats, Answer};
use crate::bytes::{f32_at, put_u16, u16_at, u32_at};
use crate::case::{Call, CHECK_QUERY, COLD_REGISTER, JUDGE, JUDGE_SHEET, MIN_SPAN, WRITE_SHAPE};
use crate::pack::{Pack, LEAST, MAX, NORMAL};
use crate::pick;
use crate::query::{self, any_f32, Frame, Query};
use crate::rng::Rng;

/// Where a query's frames begin, without kind 55.
const FRAMES: usize = 46;
const FRAME: usize = 10;
/// ColdStartRegister.
const ISSUE: u16 = 1 << 4;

/// How many frames a register is made of.
pub fn count(r: &mut Rng) -> usize {
    match r.below(16) {
        0 => r.range(1, 3),
        1 => r.pick(&[1, 2, 3, 10, 19, 20, 22]),
        // Ranks of 5 and 95 in 100 that are whole.
        2 => 20 * r.range(1, 6) + 1,
        3 => r.range(100, 400),
        4 => r.pick(&[256, 257, 1001, 1023, 1024, 1024]),
        5 => r.range(400, 1024),
        _ => r.range(3, 60),
    }
}

/// The pitch so many semitones above 55 Hz.
fn hz(st: f64) -> f32 {
    (55.0 * 2f64.powf(st / 12.0)) as f32
}

/// The semitones of a pitch, as f32.
fn semitones(hz: f32) -> f32 {
    reference::narrow(12.0 * reference::log2(f64::from(hz) / 55.0))
}

/// A pitch so many f32 steps further on.
fn steps(hz: f32, by: i32) -> f32 {
    f32::from_bits(hz.to_bits().wrapping_add_signed(by))
}

/// A pitch of which a register is to be widened, mostly: 2 semitones above or below it the f32s lie twice as far apart.
fn tight(r: &mut Rng) -> f32 {
    let level = r.pick(&[
        0.0, 0.5, 2.0, 6.0, 14.0, 30.0, 62.0, -1.0, -4.0, -8.0, -16.0, -32.0,
    ]);
    match r.below(8) {
        0 => hz(f64::from(r.between(-60.0, 70.0))),
        1 => r.pick(&[55.0, 110.0, 220.0, 82.5, 100.0, 147.3]),
        _ => hz(level + 2.0 * r.unit()),
    }
}

/// Two pitches whose 5th percentile comes next to 2 semitones, or whose 95th next to −2: the floor, or the ceiling, is next to 0
/// then, and as an f32 shows the last bits of the f64s behind it.
fn next_to_zero(r: &mut Rng, n: usize) -> Vec<f32> {
    let below = r.chance(1, 2);
    let (level, rank) = if below { (2.0, 0.05) } else { (-2.0, 0.95) };
    let rank = rank * (n - 1) as f64;
    let (low, t) = (rank as usize, rank.fract());
    let base = hz(level);
    let mut best = (f64::INFINITY, base, base);
    for _ in 0..40 {
        // Up to so many steps on the nearer side, and on the other as many as come to nothing.
        let most = r.pick(&[3, 30, 400]);
        let near = r.range(1, most) as f64;
        let (down, up) = if t < 0.5 {
            (near, near * (1.0 - t) / t.max(1e-3))
        } else {
            (near * t / (1.0 - t).max(1e-3), near)
        };
        let one = steps(base, -(down as i32) + r.below(3) as i32 - 1);
        let two = steps(base, up as i32 + r.below(3) as i32 - 1);
        let (a, b) = (f64::from(semitones(one)), f64::from(semitones(two)));
        let rest = (a + t * (b - a) - level).abs();
        if rest != 0.0 && rest < best.0 {
            best = (rest, one, two);
        }
    }
    let mut all = vec![best.2; n];
    all[..=low.min(n - 1)].fill(best.1);
    all
}

/// Pitches of frames.
fn pitches(r: &mut Rng, n: usize) -> Vec<f32> {
    let mut all: Vec<f32> = match r.below(14) {
        0 | 1 => vec![tight(r); n],
        2..=4 => {
            let base = tight(r);
            let more = [1, 1, 2, 3, 5, 17, 100, 1000];
            let other = steps(base, r.pick(&more));
            let share = r.range(1, 7);
            let of = |_| if r.chance(share, 8) { base } else { other };
            (0..n).map(of).collect()
        }
        5 => {
            let few: Vec<f32> = (0..r.range(2, 5))
                .map(|_| r.pick(&[27.5, 41.25, 55.0, 82.5, 110.0, 220.0, 440.0]))
                .collect();
            (0..n).map(|_| r.pick(&few)).collect()
        }
        6 => {
            let some = [LEAST, NORMAL, 1.0e-40, 1.0e-20, 1.0e30, MAX, 55.0, 110.0];
            (0..n).map(|_| r.pick(&some)).collect()
        }
        7 => (0..n)
            .map(|_| match f32::from_bits(r.bits32() & 0x7FFF_FFFF) {
                v if v.is_finite() && v > 0.0 => v,
                _ => 55.0,
            })
            .collect(),
        // Both sides of 55 Hz.
        8 => (0..n).map(|_| r.between(30.0, 90.0)).collect(),
        9 => {
            let (from, to) = (r.between(40.0, 300.0), r.between(40.0, 300.0));
            let of = |i: usize| from + (to - from) * i as f32 / n as f32;
            (0..n).map(of).collect()
        }
        10 => next_to_zero(r, n),
        // A few far off, about as many as lie outside the percentiles.
        11 | 12 => {
            let level = r.between(80.0, 300.0);
            let share = r.range(5, 30);
            let of = |_| match r.below(share) {
                0 => level * r.between(0.2, 0.5),
                1 => level * r.between(2.0, 8.0),
                _ => level * r.between(0.95, 1.05),
            };
            (0..n).map(of).collect()
        }
        _ => (0..n).map(|_| r.between(60.0, 400.0)).collect(),
    };
    if r.chance(1, 2) {
        r.shuffle(&mut all);
    }
    all
}

/// Frames that make a register: some of them unvoiced, some voiced and without a pitch.
pub fn frames(r: &mut Rng, n: usize) -> Vec<Frame> {
    if n == 0 {
        return Vec::new();
    }
    let pitches = pitches(r, n);
    let gaps = r.pick(&[0, 0, 0, 1, 3, 8]);
    let spoiled = r.chance(1, 8);
    let none = r.chance(1, 40);
    let of = |&hz: &f32| {
        let voiced = u8::from(!none && !r.chance(gaps, 10));
        let hz = match voiced {
            0 if r.chance(1, 2) => any_f32(r),
            0 => hz * r.between(0.25, 4.0),
            _ if spoiled && r.chance(1, 6) => r.pick(&crate::query::NO_PITCH),
            _ => hz,
        };
        Frame {
            voiced,
            hz,
            p: r.pick(&[1.0, 0.9, 0.4, 0.0]),
        }
    };
    pitches.iter().map(of).collect()
}

/// A cold query that loads, about what the pack holds.
pub fn query(r: &mut Rng, pack: &Pack) -> Query {
    let mut q = query::query(r, Some(pack));
    q.cold = true;
    match r.below(4) {
        0 => {}
        // The same syllable with others about it, which the span leaves out.
        1 | 2 => {
            let most = 1024 - q.frames.len();
            let (before, behind) = (r.below(40.min(most) + 1), r.below(40));
            let behind = behind.min(most - before);
            let start = before as u32;
            q.span = (start, start + q.frames.len() as u32);
            q.frames = [frames(r, before), q.frames, frames(r, behind)].concat();
        }
        _ => {
            let n = count(r);
            q.frames = frames(r, n);
            let (n, a) = (n as u32, r.below(n) as u32);
            let b = r.range(a as usize, n as usize + 2) as u32;
            q.span = r.pick(&[(0, n), (0, n), (0, n), (a, n), (a, b), (0, b), (b, a)]);
        }
    }
    q
}

/// Kind 55 out of place: missing, doubled, before or behind any record, cut behind it, another kind in its place, a count that
/// says otherwise.
pub fn misplaced(r: &mut Rng, b: &mut Vec<u8>) {
    let counted = usize::from(u16_at(b, 44));
    let end = b.len();
    let frame = FRAMES + 1 + FRAME * r.below(counted + 1);
    match r.below(16) {
        0 => drop(b.splice(0..0, [55])),
        1 | 2 => b.insert(FRAMES, 55),
        3 | 4 => b.insert(frame, 55),
        // Moved there.
        5 => {
            b.insert(frame, 55);
            b.remove(FRAMES);
        }
        6 => b.push(r.pick(&[55, 55, 50, 48, 0])),
        7 => {
            let n = r.pick(&[FRAMES, FRAMES + 1, FRAMES + 2, end - 1]);
            b.truncate(n.min(end));
        }
        8 => b.truncate(frame + r.below(FRAME)),
        9 => b[FRAMES] = pick!(r, 50, 48, 53, 54, 56, 54, 0, r.byte()),
        // None counted, and what stands there.
        10 | 11 => {
            put_u16(b, 44, 0);
            b.truncate(FRAMES + r.below(2));
            let more: &[u8] = [&[][..], &[55], &[55, 55], &[50], &[48], &[53], &[0]][r.below(7)];
            b.extend(more);
        }
        12 => put_u16(
            b,
            44,
            r.pick(&[counted as u16 + 1, counted.saturating_sub(1) as u16]),
        ),
        // A frame's kind, and its flag.
        13 if counted > 0 => b[frame.min(end - FRAME)] = pick!(r, 55, 48, 49, 51, r.byte()),
        14 if counted > 0 => b[frame.min(end - FRAME) + 1] = r.pick(&[2, 55, 255]),
        _ => {
            // As many as there may be, and one more.
            let n = r.pick(&[1024, 1024, 1025]);
            let one = Frame {
                voiced: 1,
                hz: tight(r),
                p: 1.0,
            };
            let own = b.split_off(FRAMES + 1);
            b.extend(own.chunks_exact(FRAME).flatten());
            let have = (b.len() - FRAMES - 1) / FRAME;
            b.extend(query::frame_bytes(&vec![one; n - have.min(n)]));
            put_u16(b, 44, n as u16);
        }
    }
}

/// Two ends within ±2,002 semitones, mostly less than 4 apart; at times such as have to be pushed apart.
pub fn ends(r: &mut Rng) -> [f32; 2] {
    let pushed = r.chance(1, 2);
    let mut last = [0.0; 2];
    for _ in 0..400 {
        let most = r.pick(&[4.0, 20.0, 100.0, 2000.0]);
        let floor = r.between(-most, most);
        let ceil = match r.below(6) {
            0 => steps(floor, r.below(5) as i32),
            1 => floor + 4.0,
            2 => steps(floor + 4.0, r.below(7) as i32 - 3),
            3 => floor + r.between(-8.0, 8.0),
            _ => floor + r.between(0.0, 4.0),
        };
        last = [floor, ceil.clamp(-2000.0, 2000.0)];
        if !pushed || pushes(last) {
            return last;
        }
    }
    last
}

/// Whether the ends are pushed apart: 4 semitones about their middle are not 4 as an f32 difference.
fn pushes([floor, ceil]: [f32; 2]) -> bool {
    let middle = 0.5 * (f64::from(floor) + f64::from(ceil));
    ceil - floor < 4.0 && (middle + 2.0) as f32 - ((middle - 2.0) as f32) < 4.0
}

/// The pitches of voiced frames among these records.
fn voiced(frames: &[u8]) -> Vec<f32> {
    let all = frames.chunks_exact(FRAME).filter(|f| f[1] == 1);
    all.map(|f| f32_at(f, 2))
        .filter(|hz| hz.is_finite() && *hz > 0.0)
        .collect()
}

/// What is refused of a query: the number, and what stands about the place.
fn refused(b: &[u8], number: u8, place: usize, words: &mut Vec<&'static str>) {
    if number == 2 && place == FRAMES && b.len() == FRAMES {
        words.push("cold: 2, nothing behind the query record");
    }
    let kind = b.get(place).copied();
    let counted = if b.len() > 45 { u16_at(b, 44) } else { 0 };
    let cold = b.get(FRAMES) == Some(&55);
    let first = FRAMES + usize::from(cold);
    words.push(match (number, kind, place) {
        (1, Some(55), 0) => "cold: 1, kind 55 before the query record",
        (1, Some(55), _) if place == FRAMES + 1 && cold => "cold: 1, a second kind 55",
        (1, Some(55), _) => "cold: 1, kind 55 behind a frame",
        (1, _, _) if place == FRAMES + 1 && cold => "cold: 1, another kind behind kind 55",
        (1, _, _) if place == FRAMES => "cold: 1, another kind behind the query record",
        (1, _, _) if cold => "cold: 1, another kind behind a frame",
        (2, None, _) if place == FRAMES + 1 && cold => "cold: 2, nothing behind kind 55",
        (2, None, _) if cold => "cold: 2, nothing behind a frame",
        (2, Some(50), _) if cold && place > 0 => "cold: 2, a frame cut",
        (3, Some(55), _) if cold && counted == 0 => "cold: 3, a second kind 55, no frame counted",
        (3, Some(55), _) if place > first => "cold: 3, kind 55 behind the last frame",
        (3, Some(_), _) if counted == 0 && !cold => "cold: 3, another kind, no frame counted",
        (3, Some(_), _) if counted == 0 => "cold: 3, another kind behind kind 55, no frame counted",
        (3, Some(_), _) if cold => "cold: 3, another kind behind the last frame",
        (4, _, _) if cold => "cold: 4",
        (10, _, 0) if cold => "cold: 10, the query record",
        (10, _, _) if cold => "cold: 10, a frame",
        _ => return,
    });
}

/// Of a register alone.
fn register(frames: &[u8], told: &[u8], words: &mut Vec<&'static str>) {
    let mut pitches = voiced(frames);
    let all = frames.len() / FRAME;
    if pitches.len() < all {
        words.push("register: unvoiced frames, or such without a pitch");
    }
    if all == 1024 {
        words.push("register: of 1,024 frames");
    }
    if pitches.is_empty() {
        words.push("register: no voiced frame");
        return;
    }
    words.push(match pitches.len() {
        1 => "register: of one semitone",
        2 => "register: of two",
        n if n % 20 == 1 => "register: whole ranks",
        _ => "register: ranks between two",
    });
    if pitches.iter().any(|v| v.is_subnormal()) {
        words.push("register: subnormal hz");
    }
    if pitches.iter().any(|v| *v >= 1.0e30) {
        words.push("register: huge hz");
    }
    if pitches.iter().any(|v| *v < 55.0) && pitches.iter().any(|v| *v > 55.0) {
        words.push("register: semitones of both signs");
    }
    if pitches.windows(2).any(|p| p[0] > p[1]) {
        words.push("register: not in order");
    }
    let n = pitches.len();
    pitches.sort_by(f32::total_cmp);
    pitches.dedup();
    let (least, most) = (pitches[0], pitches[pitches.len() - 1]);
    words.push(match pitches.len() {
        1 => "register: one pitch",
        2 if most / least < 1.001 => "register: two near pitches",
        d if d < n => "register: ties",
        _ => "register: no ties",
    });
    let (floor, ceil) = (f32_at(told, 0), f32_at(told, 8));
    if floor.abs() < 1.0e-6 && floor != 0.0 || ceil.abs() < 1.0e-6 && ceil != 0.0 {
        words.push("register: an end next to 0");
    }
    // p5 − 2 and p95 + 2 of one pitch, narrowed.
    let st = f64::from(semitones(least));
    if pitches.len() == 1 && ((st + 2.0) as f32) - ((st - 2.0) as f32) < 4.0 {
        words.push("register: widened");
    }
}

fn widened(ends: [f32; 2], words: &mut Vec<&'static str>) {
    let [floor, ceil] = ends;
    words.push(match ceil - floor {
        _ if pushes(ends) => "ends: pushed apart",
        v if v < 0.0 => "ends: the ceiling below the floor",
        v if v < 4.0 => "ends: widened",
        4.0 if f64::from(ceil) - f64::from(floor) < 4.0 => "ends: 4 apart, as f32s alone",
        4.0 => "ends: 4 apart",
        _ => "ends: more than 4 apart",
    });
}

/// Of a cold query that is measured, or that has too few voiced frames.
fn measured(q: &[u8], answer: &Answer, words: &mut Vec<&'static str>) {
    let frames = &q[FRAMES + 1..];
    let count = frames.len() / FRAME;
    let (start, end) = (u32_at(q, 5) as usize, (u32_at(q, 9) as usize).min(count));
    let inside = if start < end {
        voiced(&frames[FRAME * start..FRAME * end]).len()
    } else {
        0
    };
    let outside = voiced(frames).len() - inside;
    match answer {
        Err((11, _)) if count == 0 => words.push("cold: 11, no frames"),
        Err((11, _)) if outside > 2 => words.push("cold: 11, voiced frames outside the span"),
        Err((11, _)) => words.push("cold: 11"),
        Err((12..=15, _)) => words.push("cold: 12 to 15"),
        Ok(_) => {
            if outside > 0 {
                words.push("cold: voiced frames outside the span");
            }
            if q.len() == 10_287 {
                words.push("cold: a query of 10,287 bytes");
            }
            let (floor, ceil) = (f32_at(q, 13), f32_at(q, 17));
            words.push(match (floor, ceil) {
                _ if floor.is_nan() || ceil.is_nan() => "cold: its own register NaN",
                _ if !(ceil - floor).is_finite() => "cold: its own register infinite",
                _ if ceil <= floor => "cold: its own register empty or inverted",
                _ => "cold: its own register usable",
            });
            words.push(match u16_at(q, 21) {
                0 => "cold: no issue of its own",
                own if own & ISSUE != 0 => "cold: ColdStartRegister among its own issues",
                _ => "cold: other issues of its own",
            });
            let pitches = voiced(frames);
            if pitches.iter().all(|v| v.to_bits() == pitches[0].to_bits()) {
                words.push("cold: one pitch");
            }
        }
        _ => {}
    }
}

/// In words, what a call and its answer show of cold queries and registers.
pub fn seen(c: &Call, answer: &Answer) -> Vec<&'static str> {
    let mut words = Vec::new();
    let query = if [JUDGE, JUDGE_SHEET].contains(&c.call) {
        &c.b
    } else {
        &c.a
    };
    let cold = query.get(FRAMES) == Some(&55);
    match (c.call, answer) {
        (CHECK_QUERY, Err((number, place))) => {
            refused(query, *number, *place as usize, &mut words);
        }
        (CHECK_QUERY, Ok(_)) if cold => words.push("cold: a query that loads"),
        (WRITE_SHAPE | JUDGE | JUDGE_SHEET, Ok(_) | Err((11..=15, _))) if cold => {
            measured(query, answer, &mut words);
            if answer.is_ok() {
                words.push(match c.call {
                    WRITE_SHAPE => "cold: a shape",
                    JUDGE => "cold: judged by a pack",
                    _ => "cold: judged by a sheet",
                });
            }
        }
        (COLD_REGISTER, Ok(told)) => register(&c.a, told, &mut words),
        (MIN_SPAN, Ok(_)) => {
            let both = floats(&c.a);
            widened([both[0], both[1]], &mut words);
        }
        _ => {}
    }
    words
}

/// All of these words: a run of many cases sees each.
pub const ALL: [&str; 59] = [
    "cold: a query that loads",
    "cold: 1, kind 55 before the query record",
    "cold: 1, a second kind 55",
    "cold: 1, kind 55 behind a frame",
    "cold: 1, another kind behind kind 55",
    "cold: 1, another kind behind the query record",
    "cold: 1, another kind behind a frame",
    "cold: 2, nothing behind the query record",
    "cold: 2, nothing behind kind 55",
    "cold: 2, nothing behind a frame",
    "cold: 2, a frame cut",
    "cold: 3, a second kind 55, no frame counted",
    "cold: 3, kind 55 behind the last frame",
    "cold: 3, another kind, no frame counted",
    "cold: 3, another kind behind kind 55, no frame counted",
    "cold: 3, another kind behind the last frame",
    "cold: 4",
    "cold: 10, the query record",
    "cold: 10, a frame",
    "cold: 11, no frames",
    "cold: 11, voiced frames outside the span",
    "cold: 11",
    "cold: 12 to 15",
    "cold: a shape",
    "cold: judged by a pack",
    "cold: judged by a sheet",
    "cold: voiced frames outside the span",
    "cold: a query of 10,287 bytes",
    "cold: its own register NaN",
    "cold: its own register infinite",
    "cold: its own register empty or inverted",
    "cold: its own register usable",
    "cold: no issue of its own",
    "cold: ColdStartRegister among its own issues",
    "cold: other issues of its own",
    "cold: one pitch",
    "register: unvoiced frames, or such without a pitch",
    "register: of 1,024 frames",
    "register: no voiced frame",
    "register: of one semitone",
    "register: of two",
    "register: whole ranks",
    "register: ranks between two",
    "register: subnormal hz",
    "register: huge hz",
    "register: semitones of both signs",
    "register: not in order",
    "register: one pitch",
    "register: two near pitches",
    "register: ties",
    "register: no ties",
    "register: an end next to 0",
    "register: widened",
    "ends: pushed apart",
    "ends: the ceiling below the floor",
    "ends: widened",
    "ends: 4 apart, as f32s alone",
    "ends: 4 apart",
    "ends: more than 4 apart",
];
