//! Creaky tails (change request 2): values, packs and judgements that show them, pairs of packs that differ in one bit of a tail,
//! and what the answers show, of which a run of many cases has to see everything.

use crate::ask::Answer;
use crate::bytes::{f32_at, starts, u16_at};
use crate::case::{Call, CHECK_PACK, CHECK_SHEET, JUDGE, JUDGE_SHEET, WRITE_SHEET};
use crate::exact::on_the_curve;
use crate::pack::{pack, Pack, LEAST, MAX, NORMAL};
use crate::query::Query;
use crate::rng::Rng;

/// The issue that lets tails count.
pub const CREAKY: u16 = 1 << 9;

/// A value that loads.
pub fn value(r: &mut Rng) -> f32 {
    match r.below(8) {
        0 => r.pick(&[0.0, -0.0]),
        1 => r.pick(&[50.0, -50.0, 49.999_996, -49.999_996]),
        2 => r.pick(&[LEAST, -LEAST, NORMAL, -NORMAL, 1.0e-40, -1.0e-40]),
        3 => r.pick(&[-0.5, -1.0, -2.0, 1.0, 0.25, -0.125]),
        4 => r.between(-50.0, 50.0),
        _ => r.between(-6.0, 0.0),
    }
}

/// Gives tones tails: all of them, some or none.
pub fn give(r: &mut Rng, p: &mut Pack) {
    let share = r.pick(&[0, 0, 0, 1, 2, 4, 4, 4]);
    let one = r.chance(1, 8).then(|| [value(r), value(r)]);
    for t in &mut p.tones {
        if r.chance(share, 4) {
            t.tail = Some(one.unwrap_or([value(r), value(r)]));
        }
    }
}

/// Variants whose weights come to 1, or nearly, of tones by turns from the target's on.
fn shared(r: &mut Rng, p: &Pack, q: &mut Query) {
    let from = r.below(p.tones.len());
    let number = |i: usize| p.tones[(from + i) % p.tones.len()].number;
    let (one, two) = (r.unit() as f32, r.unit() as f32);
    let weights = match r.below(4) {
        0 => vec![1.0],
        1 => vec![one, 1.0 - one],
        2 => vec![0.1; 4],
        _ => vec![one * two, one - one * two, 1.0 - one],
    };
    q.variants = weights
        .iter()
        .enumerate()
        .map(|(i, &w)| (number(i), w))
        .collect();
}

/// A judgement in which tails count, mostly.
pub fn creaky(r: &mut Rng, p: &mut Pack, q: &mut Query) {
    let held = |p: &Pack, r: &mut Rng| p.tones[r.below(p.tones.len())].number;
    for t in p.tones.iter_mut() {
        if r.chance(3, 4) {
            t.tail = Some([value(r), value(r)]);
        }
    }
    match r.below(8) {
        // Weights of ±0, and a main tone of weight 0.
        0 | 1 => {
            let some = [0.0, -0.0, 0.0, -0.0, 0.25, 1.0];
            let n = r.range(1, 4);
            q.variants = (0..n).map(|_| (held(p, r), r.pick(&some))).collect();
            if q.variants.iter().map(|v| v.1).sum::<f32>() > 1.0 {
                q.variants.truncate(1);
            }
        }
        // A main tone of next to no weight, whose tail counts e^100 times as much as the variants'.
        2 | 3 => {
            shared(r, p, q);
            for t in p.tones.iter_mut() {
                let most = if t.number == q.tone { 50.0 } else { -50.0 };
                t.tail = Some([most * r.between(0.9, 1.0), most]);
            }
        }
        // A log-likelihood of −0, or next to it, and tails of ±0.
        4 => {
            (*p, *q) = on_the_curve(r);
            p.temperature = MAX;
            p.accents[0].tolerances[0] = 1.0 + r.pick(&[1.0, 1.0, 4.0, 64.0]) * f32::EPSILON;
            p.tones[0].tail = r.pick(&[None, Some([0.0, -0.0]), Some([-0.0, 0.0])]);
        }
        // The clamps.
        5 => {
            if r.chance(1, 2) {
                (*p, *q) = on_the_curve(r);
                p.accents[0].tolerances[0] = r.pick(&[0.5, 0.25, 2.0]);
            }
            p.temperature = r.pick(&[LEAST, 1.0e-6, 1.0e-4]);
            p.tones
                .iter_mut()
                .for_each(|t| t.tail = Some([r.pick(&[50.0, -50.0]), value(r)]));
        }
        // A shape that is not usable.
        6 => q.floor = r.pick(&[f32::NAN, f32::NEG_INFINITY]),
        _ => shared(r, p, q),
    }
    if r.chance(7, 8) {
        q.issues |= CREAKY;
    }
}

/// Two packs that differ in one bit of one tail, both of which load; and the place of the bit.
pub fn pair(r: &mut Rng) -> (Vec<u8>, Vec<u8>, usize) {
    let mut p = pack(r);
    let at = r.below(p.tones.len());
    p.tones[at].tail = Some([value(r), value(r)]);
    let one = p.bytes();
    let tails: Vec<usize> = starts(&one)
        .into_iter()
        .filter(|&at| one.get(at) == Some(&7))
        .collect();
    let signs = r.chance(1, 4);
    loop {
        let bit = r.below(64);
        let bit = 8 * (r.pick(&tails) + 1) + if signs { bit | 31 } else { bit };
        let mut two = one.clone();
        two[bit / 8] ^= 1 << (bit % 8);
        if reference::check_pack(&two).is_none() {
            return (one, two, bit);
        }
    }
}

/// Whether two sheets differ in one bit, and that stands in a record of kind 24.
pub fn one_bit_apart(one: &[u8], two: &[u8]) -> bool {
    let apart: Vec<usize> = (0..one.len().min(two.len()))
        .filter(|&i| one[i] != two[i])
        .collect();
    let of_tail = |i: usize| {
        starts(one)
            .iter()
            .any(|&at| one.get(at) == Some(&24) && (at + 1..at + 9).contains(&i))
    };
    one.len() == two.len()
        && apart.len() == 1
        && (one[apart[0]] ^ two[apart[0]]).count_ones() == 1
        && of_tail(apart[0])
}

/// The kind of the record in front of a place, where records stand up to it.
fn before(b: &[u8], place: usize) -> Option<u8> {
    let all = starts(b);
    let i = all.iter().position(|&at| at == place)?;
    b.get(all[i.checked_sub(1)?]).copied()
}

/// The tones of a pack or a sheet that loads, each with its tail, and whether its record is there.
fn tones(b: &[u8]) -> Vec<(u8, [f32; 2], bool)> {
    let mut all: Vec<(u8, [f32; 2], bool)> = Vec::new();
    for at in starts(b) {
        match b.get(at) {
            Some(2 | 18) => all.push((b[at + 1], [0.0; 2], false)),
            Some(7 | 24) => {
                let tone = all.last_mut().expect("a tone");
                (tone.1, tone.2) = ([f32_at(b, at + 1), f32_at(b, at + 5)], true);
            }
            _ => {}
        }
    }
    all
}

fn loaded_pack(b: &[u8], words: &mut Vec<&'static str>) {
    let all = tones(b);
    let with = all.iter().filter(|t| t.2).count();
    words.push(match with {
        0 => "tails: a pack without",
        n if n < all.len() => "tails: a pack with some",
        _ => "tails: a pack with all",
    });
    if b.len() == 7_018 {
        words.push("tails: a pack of 7,018 bytes");
    }
    let bare = |at: &usize| b.get(*at) == Some(&2) && b[at + 6] == 0 && b[at + 56] == 7;
    if starts(b).iter().any(bare) {
        words.push("tails: one of a context only tone");
    }
    for v in all.iter().filter(|t| t.2).flat_map(|t| t.1) {
        words.push(match v {
            0.0 if v.is_sign_negative() => "tails: −0",
            0.0 => "tails: +0 written out",
            v if v.is_subnormal() => "tails: subnormal",
            50.0 => "tails: 50",
            -50.0 => "tails: −50",
            v if v > 0.0 => "tails: above 0",
            _ => "tails: below 0",
        });
    }
}

/// Why a tail is out of range.
fn out_of_range(b: &[u8], at: usize, words: &mut Vec<&'static str>) {
    let fine = |v: f32| v.abs() <= 50.0;
    let [one, two] = [f32_at(b, at + 1), f32_at(b, at + 5)];
    words.push(if !fine(one) {
        "tails: 5, the first value"
    } else {
        "tails: 5, the second value alone"
    });
    let v = if fine(one) { two } else { one };
    words.push(match v {
        v if v.is_nan() => "tails: 5, NaN",
        f32::INFINITY => "tails: 5, infinity",
        f32::NEG_INFINITY => "tails: 5, −infinity",
        v if v.abs().to_bits() == 50f32.to_bits() + 1 => "tails: 5, next to ±50",
        _ => "tails: 5, another size",
    });
}

/// What is refused of kinds 7 and 24: the number, the kind at the place, and the one before.
fn refused(b: &[u8], number: u8, place: usize, words: &mut Vec<&'static str>) {
    let (kind, last) = (b.get(place).copied(), before(b, place));
    match (number, last, kind) {
        (1, Some(7), Some(7)) => words.push("tails: 1, a second kind 7"),
        (1, Some(1), Some(7)) => words.push("tails: 1, kind 7 after the settings"),
        (1, Some(3), Some(7)) => words.push("tails: 1, kind 7 after an accent"),
        (1, Some(4), Some(7)) => words.push("tails: 1, kind 7 after a rule"),
        (1, Some(5), Some(7)) => words.push("tails: 1, kind 7 after a part"),
        (1, Some(18), Some(7)) => words.push("tails: 1, kind 7 in kind 24's place"),
        (1, Some(7), _) => words.push("tails: 1, another kind after kind 7"),
        (1, Some(18), Some(18)) => words.push("tails: 1, a tone in kind 24's place"),
        (1, Some(18), Some(19)) => words.push("tails: 1, an accent in kind 24's place"),
        (1, Some(18), Some(_)) => words.push("tails: 1, another kind in kind 24's place"),
        (1, Some(24), Some(24)) => words.push("tails: 1, a second kind 24"),
        (1, Some(24), _) => words.push("tails: 1, another kind after kind 24"),
        (1, Some(1..=6), Some(24)) => words.push("tails: 1, kind 24 in a pack"),
        (1, Some(17..=22), Some(24)) => words.push("tails: 1, kind 24 elsewhere"),
        (2, _, Some(7)) => words.push("tails: 2, kind 7 cut"),
        (2, _, Some(24)) => words.push("tails: 2, kind 24 cut"),
        (2, Some(7), None) => words.push("tails: 2, nothing after kind 7"),
        (2, Some(18), None) => words.push("tails: 2, nothing after kind 18"),
        (2, Some(24), None) => words.push("tails: 2, nothing after kind 24"),
        (4, Some(7), Some(2)) => words.push("tails: 4, a ninth tone after kind 7"),
        (4, Some(24), Some(18)) => words.push("tails: 4, a ninth tone after kind 24"),
        (5, _, Some(7)) => {
            words.push("tails: 5 in a pack");
            out_of_range(b, place, words);
        }
        (5, _, Some(24)) => {
            words.push("tails: 5 in a sheet");
            out_of_range(b, place, words);
        }
        _ => {}
    }
}

fn judged(pack: &[u8], query: &[u8], record: &[u8], words: &mut Vec<&'static str>) {
    if u16_at(query, 21) & CREAKY == 0 {
        return;
    }
    let (all, fin) = (tones(pack), usize::from(1 - query[4]));
    let values: Vec<f32> = all.iter().map(|t| t.1[fin]).collect();
    if record[61] == 2 {
        words.push("creaky: not measured");
        return;
    }
    words.push(match (all.iter().any(|t| t.2), fin) {
        (false, _) => "creaky: a pack without tails",
        (true, 0) => "creaky: at phrase end",
        (true, _) => "creaky: elsewhere",
    });
    for (i, v) in values.iter().enumerate() {
        let ll = f32_at(record, 3 + 4 * i);
        match ll {
            0.0 if ll.is_sign_negative() && *v == 0.0 => {
                words.push("creaky: a log-likelihood of −0, the tail 0");
            }
            1.0e6 if *v > 0.0 => words.push("creaky: clamped above"),
            -1.0e6 if *v < 0.0 => words.push("creaky: clamped below"),
            ll if ll < -9.0e5 && ll > -1.0e6 => {
                words.push("creaky: above the lower bound by a tail")
            }
            ll if ll > 9.0e5 && ll < 1.0e6 => words.push("creaky: under the upper bound by a tail"),
            _ => {}
        }
    }
    let weights: Vec<f32> = (0..usize::from(query[23]))
        .map(|i| f32_at(query, 25 + 5 * i))
        .collect();
    if weights.is_empty() {
        words.push("creaky: no variants");
        return;
    }
    words.push("creaky: variants");
    if weights.iter().any(|w| w.to_bits() == 0) {
        words.push("creaky: a variant of weight +0");
    }
    if weights.iter().any(|w| w.to_bits() == 1 << 31) {
        words.push("creaky: a variant of weight −0");
    }
    if 1.0 - weights.iter().fold(0.0, |sum, w| sum + w) <= 0.0 {
        words.push("creaky: the main tone's weight is 0");
    }
}

/// In words, what a call and its answer show of tails.
pub fn seen(c: &Call, answer: &Answer) -> Vec<&'static str> {
    let mut words = Vec::new();
    match (c.call, answer) {
        (CHECK_PACK | WRITE_SHEET, Ok(_)) => loaded_pack(&c.a, &mut words),
        (CHECK_PACK | CHECK_SHEET, Err((number, place))) => {
            refused(&c.a, *number, *place as usize, &mut words);
        }
        (JUDGE, Ok(record)) => {
            loaded_pack(&c.a, &mut words);
            judged(&c.a, &c.b, record, &mut words);
        }
        (JUDGE_SHEET, Ok(record)) => judged(&c.a, &c.b, record, &mut words),
        _ => {}
    }
    words.sort_unstable();
    words.dedup();
    words
}

/// All of these words: a run of many cases sees each.
pub const ALL: [&str; 57] = [
    "tails: a pack without",
    "tails: a pack with some",
    "tails: a pack with all",
    "tails: a pack of 7,018 bytes",
    "tails: one of a context only tone",
    "tails: −0",
    "tails: +0 written out",
    "tails: subnormal",
    "tails: 50",
    "tails: −50",
    "tails: above 0",
    "tails: below 0",
    "tails: 1, a second kind 7",
    "tails: 1, kind 7 after the settings",
    "tails: 1, kind 7 after an accent",
    "tails: 1, kind 7 after a rule",
    "tails: 1, kind 7 after a part",
    "tails: 1, another kind after kind 7",
    "tails: 1, kind 24 in a pack",
    "tails: 1, a tone in kind 24's place",
    "tails: 1, an accent in kind 24's place",
    "tails: 1, kind 7 in kind 24's place",
    "tails: 1, another kind in kind 24's place",
    "tails: 1, a second kind 24",
    "tails: 1, another kind after kind 24",
    "tails: 1, kind 24 elsewhere",
    "tails: 2, kind 7 cut",
    "tails: 2, kind 24 cut",
    "tails: 2, nothing after kind 7",
    "tails: 2, nothing after kind 18",
    "tails: 2, nothing after kind 24",
    "tails: 4, a ninth tone after kind 7",
    "tails: 4, a ninth tone after kind 24",
    "tails: 5 in a pack",
    "tails: 5 in a sheet",
    "tails: 5, the first value",
    "tails: 5, the second value alone",
    "tails: 5, NaN",
    "tails: 5, infinity",
    "tails: 5, −infinity",
    "tails: 5, next to ±50",
    "tails: 5, another size",
    "creaky: not measured",
    "creaky: a pack without tails",
    "creaky: at phrase end",
    "creaky: elsewhere",
    "creaky: a log-likelihood of −0, the tail 0",
    "creaky: clamped above",
    "creaky: clamped below",
    "creaky: above the lower bound by a tail",
    "creaky: under the upper bound by a tail",
    "creaky: no variants",
    "creaky: variants",
    "creaky: a variant of weight +0",
    "creaky: a variant of weight −0",
    "creaky: the main tone's weight is 0",
    "two packs apart in the sign of a tail of 0",
];

/// The word of a pair that is apart in a zero's sign alone.
pub fn sign_of_zero(pack: &[u8], bit: usize) -> Option<&'static str> {
    let values = starts(pack)
        .into_iter()
        .filter(|&at| pack.get(at) == Some(&7));
    let mut values = values.flat_map(|at| [at + 1, at + 5]);
    let own = values.find(|&at| bit == 8 * at + 31)?;
    (f32_at(pack, own) == 0.0).then_some(ALL[56])
}
