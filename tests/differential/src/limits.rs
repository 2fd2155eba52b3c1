//! Samples by hand: counts at their limits and past them, lent rooms around the needed length, refusals that meet in one call,
//! parents wherever they stand, exact scores, creaky tails, cold queries and registers, and single steps of the arithmetic.

use crate::bytes::{record_length, starts};
use crate::case::*;
use crate::exact::exact;
use crate::moved::BEFORE;
use crate::pack::{Accent, Pack, Part, Rule, Tone};
use crate::query::{frame_bytes, Frame, Query};
use crate::rng::Rng;
use crate::samples::told;
use crate::tails::CREAKY;

/// A call and the room it is lent, where that is not the longest.
pub type Asked = (Call, Option<usize>);

/// The calls, in order.
struct Asking(Vec<Asked>);

impl Asking {
    /// One call more, with the longest room; the number is the refusal's, or 0.
    fn ask(&mut self, number: u8, call: u8, a: &[u8], b: &[u8]) {
        self.lend(number, call, a, b, None);
    }

    /// One call more, with the room it is lent.
    fn lend(&mut self, number: u8, call: u8, a: &[u8], b: &[u8], room: Option<usize>) {
        let (a, b) = (a.to_vec(), b.to_vec());
        let c = Call { call, a, b };
        let told = told(&c, room).0;
        assert_eq!(
            told.map_or_else(|refused| refused.0, |_| 0),
            number,
            "{}",
            self.0.len()
        );
        self.0.push((c, room));
    }
}

/// Tones from 1 with a citation each, and accents from 1 without rules.
fn pack(tones: u8, accents: u8) -> Pack {
    let tone = |number: u8| Tone {
        number,
        prior: 0.125,
        knots: vec![f32::from(number), 3.0],
        region: None,
        tail: None,
    };
    let accent = |number: u8| Accent {
        number,
        parent: 0,
        tolerances: [1.0, 0.5, 0.5, 0.25],
        rules: Vec::new(),
    };
    Pack {
        temperature: 1.0,
        threshold: 0.25,
        tones: (1..=tones).map(tone).collect(),
        accents: (1..=accents).map(accent).collect(),
    }
}

/// The rule at a place: tone and prev of its own, so that among 64 each is looked up somewhere.
fn rule(place: usize, form: u8, parts: usize) -> Rule {
    let part = |k: usize| Part {
        weight: if form == 2 { 1.0 } else { 0.25 },
        knots: vec![1.0 + place as f32 / 16.0, 1.0 + k as f32],
    };
    Rule {
        label: place as u16,
        tone: (place / 8 % 8 + 1) as u8,
        prev: (place % 8 + 1) as u8,
        fin: 0,
        form,
        parts: (0..parts).map(part).collect(),
    }
}

/// Eight tones and one accent with rules of so many parts each.
fn ruled(parts: impl Iterator<Item = usize>) -> Pack {
    let mut p = pack(8, 1);
    p.accents[0].rules = parts.enumerate().map(|(i, n)| rule(i, 3, n)).collect();
    p
}

/// 128 lists and 192 components: every citation and, for two parts each, every rule is looked up.
fn fullest() -> Pack {
    let mut p = pack(8, 8);
    for (i, a) in p.accents.iter_mut().enumerate() {
        a.rules = (0..8).map(|t| rule(8 * t + i, 3, 2)).collect();
    }
    p
}

fn frames(n: usize) -> Vec<Frame> {
    let frame = |i: usize| Frame {
        voiced: 1,
        hz: 110.0 + i as f32 / 8.0,
        p: 0.75,
    };
    (0..n).map(frame).collect()
}

/// Accent 1, tone, prev and final as said, eight frames.
fn query(tone: u8, prev: u8) -> Query {
    Query {
        accent: 1,
        tone,
        prev,
        fin: 0,
        span: (0, 8),
        floor: 0.0,
        ceil: 16.0,
        issues: 0,
        variants: Vec::new(),
        cold: false,
        frames: frames(8),
    }
}

/// A count at its limit, and one past it, in a pack.
fn pack_limits(all: &mut Asking) {
    let four_in_32 = || std::iter::repeat_n(4, 32);
    let mut second = pack(8, 1);
    second.accents[0].rules = vec![rule(0, 2, 2)];
    for (within, past) in [
        (pack(8, 1), pack(9, 1)),
        (pack(1, 8), pack(1, 9)),
        (ruled((0..64).map(|_| 1)), ruled((0..65).map(|_| 1))),
        (ruled([4].into_iter()), ruled([5].into_iter())),
        (ruled(four_in_32()), ruled(four_in_32().chain([1]))),
        (ruled([1].into_iter()), second),
    ] {
        let (within, past) = (within.bytes(), past.bytes());
        all.ask(0, CHECK_PACK, &within, &[]);
        all.ask(0, WRITE_SHEET, &within, &[]);
        all.ask(4, CHECK_PACK, &past, &[]);
        all.ask(4, JUDGE, &past, &query(1, 0).bytes());
        // The record that goes past, cut: 2 comes before 4.
        let place = reference::check_pack(&past).expect("a refusal").place as usize;
        all.ask(2, CHECK_PACK, &past[..place + 2], &[]);
    }
    for (rules, tone, prev) in [
        (ruled((0..64).map(|_| 1)), 8, 8),
        (ruled(four_in_32()), 4, 8),
    ] {
        all.ask(0, JUDGE, &rules.bytes(), &query(tone, prev).bytes());
    }
}

/// The same in a sheet. A record past the limit is put in behind the last of its kind, a tone with its tail.
fn sheet_limits(all: &mut Asking) {
    let sheet = reference::write_sheet(&fullest().bytes()).expect("a pack that loads");
    all.ask(0, WRITE_SHEET, &fullest().bytes(), &[]);
    all.ask(0, CHECK_SHEET, &sheet, &[]);
    all.ask(0, JUDGE_SHEET, &sheet, &query(8, 8).bytes());
    let small = reference::write_sheet(&pack(8, 8).bytes()).expect("a pack that loads");
    for (kind, end_kind) in [(18, 24), (19, 19)] {
        let of_kind = |kind: u8| {
            let all = starts(&small);
            let last = all.into_iter().rfind(|&at| small.get(at) == Some(&kind));
            last.expect("a record of the kind")
        };
        let last = of_kind(kind);
        let end = of_kind(end_kind) + record_length(end_kind).expect("a kind");
        let mut more = small.clone();
        let mut ninth = small[last..end].to_vec();
        ninth[1] = 9;
        more.splice(end..end, ninth);
        all.ask(4, CHECK_SHEET, &more, &[]);
        all.ask(2, CHECK_SHEET, &more[..end + 2], &[]);
    }
    // The 129th list; and a third component for the last list, the 193rd of all.
    let (open, list) = (&sheet[..sheet.len() - 1], sheet.len() - 1 - 7 - 2 * 45);
    let component = &open[open.len() - 45..];
    let number = [21, 129, 1, 3, 0, 0, 1];
    all.ask(
        4,
        CHECK_SHEET,
        &[open, &number, component, &[23]].concat(),
        &[],
    );
    let mut three = [open, component, &[23]].concat();
    three[list + 6] = 3;
    all.ask(4, CHECK_SHEET, &three, &[]);
}

/// The same in a query: variants and frames.
fn query_limits(all: &mut Asking) {
    let mut q = query(1, 0);
    q.variants = vec![(1, 0.125), (2, 0.25), (1, 0.5), (2, 0.0625)];
    let mut b = q.bytes();
    all.ask(0, JUDGE, &pack(2, 1).bytes(), &b);
    b[23] = 5;
    all.ask(4, CHECK_QUERY, &b, &[]);
    for (n, number) in [(1024, 0), (1025, 4)] {
        q.frames = frames(n);
        q.span = (0, n as u32);
        all.ask(number, WRITE_SHAPE, &q.bytes(), &[]);
    }
}

/// Rooms: none, one byte too few, just enough, one to spare; and none for what is refused before 9.
fn rooms(all: &mut Asking) {
    let (p, q) = (pack(2, 1).bytes(), query(1, 2).bytes());
    let sheet = reference::write_sheet(&p).expect("a pack that loads");
    for (call, a, b, n) in [
        (WRITE_SHAPE, &q, &Vec::new(), 124),
        (WRITE_SHEET, &p, &Vec::new(), sheet.len()),
        (JUDGE, &p, &q, 64),
        (JUDGE_SHEET, &sheet, &q, 64),
    ] {
        for (room, number) in [(0, 9), (n - 1, 9), (n, 0), (n + 1, 0)] {
            all.lend(number, call, a, b, Some(room));
        }
        all.lend(2, call, &a[..a.len() - 1], b, Some(0));
    }
    all.lend(11, WRITE_SHAPE, &of(FAULTS[0].1), &[], Some(0));
    for (call, a) in [(JUDGE, &p), (JUDGE_SHEET, &sheet)] {
        all.lend(2, call, a, &q[..q.len() - 1], Some(0));
    }
}

/// The query about tone 1 after 2, changed.
fn of(change: impl FnOnce(&mut Query)) -> Vec<u8> {
    let mut q = query(1, 2);
    change(&mut q);
    q.bytes()
}

/// What brings each refusal from 11 to 15 about, in their order; the last 13 once by the target, once by a variant.
const FAULTS: [(u8, fn(&mut Query)); 7] = [
    (11, |q| q.frames.truncate(2)),
    (12, |q| q.accent = 9),
    (13, |q| q.prev = 9),
    (14, |q| q.fin = 1),
    (15, |q| q.variants = vec![(1, 2.0)]),
    (13, |q| q.tone = 9),
    (13, |q| q.variants = vec![(9, 0.5)]),
];

/// A pack of three tones, whose third has nothing at the end of a phrase.
fn gapped() -> Vec<u8> {
    let mut p = pack(3, 1);
    p.tones[2].knots.clear();
    p.accents[0].rules = vec![Rule {
        tone: 3,
        prev: 0,
        fin: 1,
        ..rule(0, 2, 1)
    }];
    p.bytes()
}

/// Each refusal from 11 to 15 alone, in a room of none, with every one behind it, and over a contour that is not finite.
fn meetings(all: &mut Asking) {
    let p = gapped();
    let sheet = reference::write_sheet(&p).expect("a pack that loads");
    let mut ask = |number: u8, room: Option<usize>, changes: &[&dyn Fn(&mut Query)]| {
        let query = of(|q| changes.iter().for_each(|change| change(q)));
        all.lend(number, JUDGE, &p, &query, room);
        all.lend(number, JUDGE_SHEET, &sheet, &query, room);
    };
    for (i, (number, fault)) in FAULTS.iter().enumerate() {
        ask(*number, None, &[fault]);
        ask(*number, Some(0), &[fault]);
        // The later one first: 15 and a variant's 13 are both in the variants, and 15 shall stay.
        for (_, later) in &FAULTS[i + 1..] {
            ask(*number, None, &[later, fault]);
        }
        for floor in [f32::NAN, f32::NEG_INFINITY] {
            ask(*number, None, &[fault, &move |q| q.floor = floor]);
        }
    }
    ask(0, None, &[&|q| q.floor = f32::NAN]);
}

/// One tone, and accents numbered from 1 with these parents.
fn family(parents: &[u8]) -> Pack {
    let mut p = pack(1, parents.len() as u8);
    for (accent, &parent) in p.accents.iter_mut().zip(parents) {
        accent.parent = parent;
    }
    p
}

/// The bytes, with others in the place of End.
fn ended(p: &Pack, with: &[u8]) -> Vec<u8> {
    let b = p.bytes();
    [&b[..b.len() - 1], with].concat()
}

/// From accent 1 up to 8, whose rule is for all, but at a phrase's end that of 4 for all behind it.
pub fn chain_of_eight() -> Pack {
    let mut p = family(&[2, 3, 4, 5, 6, 7, 8, 0]);
    for (at, fin) in [(7, 0), (3, 2)] {
        let rule = Rule {
            tone: 0,
            prev: 0,
            fin,
            ..rule(at, 2, 1)
        };
        p.accents[at].rules.push(rule);
    }
    p
}

/// Parents wherever they stand: chains of up to eight in several orders, of which each gives the same sheet; rings of each size
/// that matters, with chains that lead into them and beside chains that end; parents that no accent has; and what comes before
/// and after these are judged.
fn parents(all: &mut Asking) {
    let p = chain_of_eight();
    let query = query(1, 1);
    for order in [
        [0, 1, 2, 3, 4, 5, 6, 7],
        [7, 6, 5, 4, 3, 2, 1, 0],
        [2, 6, 0, 4, 7, 1, 5, 3],
    ] {
        let accents = order.map(|i: usize| p.accents[i].clone()).to_vec();
        let ordered = Pack {
            accents,
            ..p.clone()
        };
        all.ask(0, WRITE_SHEET, &ordered.bytes(), &[]);
        all.ask(0, JUDGE, &ordered.bytes(), &query.bytes());
    }
    for parents in [&[2, 0][..], &[0, 1], &[3, 1, 0], &[2, 0, 2]] {
        all.ask(0, CHECK_PACK, &family(parents).bytes(), &[]);
    }
    for parents in [
        &[1][..],
        &[0, 2],
        &[2, 2],
        &[2, 1],
        &[3, 1, 2],
        &[0, 3, 2],
        &[2, 1, 0],
        &[2, 4, 2, 3],
        &[2, 3, 4, 5, 6, 7, 8, 1],
        &[8, 1, 2, 3, 4, 5, 6, 7],
        &[2, 3, 4, 5, 6, 7, 8, 8],
    ] {
        all.ask(20, CHECK_PACK, &family(parents).bytes(), &[]);
    }
    for parents in [
        &[9][..],
        &[9, 0],
        &[0, 9],
        &[9, 2],
        &[2, 1, 9],
        &[9, 3, 2],
        &[2, 3, 4, 5, 6, 7, 8, 9],
    ] {
        all.ask(7, CHECK_PACK, &family(parents).bytes(), &[]);
    }
    let (ring, loose) = (family(&[2, 1]), family(&[9, 0]));
    let part = rule(0, 2, 1).parts[0].bytes();
    for (number, p) in [(20, &ring), (7, &loose), (3, &family(&[2, 0]))] {
        // Bytes behind End; no End; another kind in its place; an End that is not due.
        all.ask(number, CHECK_PACK, &ended(p, &[6, 6, 6]), &[]);
        all.ask(2, CHECK_PACK, &ended(p, &[]), &[]);
        all.ask(1, CHECK_PACK, &ended(p, &[2]), &[]);
        all.ask(1, CHECK_PACK, &ended(p, &[4, 0, 0, 0, 0, 0, 2, 6]), &[]);
        // A rule about a tone that is not held; an accent out of range; one a second time, with a parent that is not there.
        let unheld = [&[4, 0, 0, 3, 0, 0, 2][..], &part, &[6]].concat();
        all.ask(7, CHECK_PACK, &ended(p, &unheld), &[]);
        let mut third = family(&[0]).accents[0].bytes();
        third[2] = 8;
        all.ask(6, CHECK_PACK, &ended(p, &[&third[..], &[6]].concat()), &[]);
        third[7..11].fill(0);
        all.ask(5, CHECK_PACK, &ended(p, &[&third[..], &[6]].concat()), &[]);
    }
    // Whatever is lent, and whatever the query is.
    for (number, p) in [(20, &ring), (7, &loose)] {
        for room in [Some(0), None] {
            all.lend(number, WRITE_SHEET, &p.bytes(), &[], room);
            all.lend(number, JUDGE, &p.bytes(), &query.bytes()[..9], room);
        }
        all.ask(number, JUDGE, &p.bytes(), &query.bytes());
    }
}

/// Scores that are exact but for ln and exp: a target with a variant, with CreakyTail and without, and the
/// first of a seed that change request 10 moved.
fn exact_scores(all: &mut Asking) {
    let mut p = pack(1, 1);
    (p.threshold, p.tones[0].prior, p.tones[0].knots) = (0.5, 1.0, vec![3.0]);
    p.accents[0].tolerances = [1.0; 4];
    for issues in [1 << 9, 0] {
        let mut q = query(1, 0);
        (q.ceil, q.issues, q.variants) = (24.0, issues, vec![(1, 0.1)]);
        for f in &mut q.frames {
            (f.hz, f.p) = (110.0, 1.0);
        }
        all.ask(0, JUDGE, &p.bytes(), &q.bytes());
    }
    let made = (0..).map(|i| exact(&mut Rng::new(1, i)));
    let made = made.map(|(p, q)| (p.bytes(), q.bytes()));
    let moved = made.filter(|(p, q)| {
        reference::plant(BEFORE);
        let before = reference::judge(p, q);
        reference::plant(0);
        before != reference::judge(p, q)
    });
    for (p, q) in moved.take(12) {
        all.ask(0, JUDGE, &p, &q);
        all.ask(
            0,
            JUDGE_SHEET,
            &reference::write_sheet(&p).expect("a pack that loads"),
            &q,
        );
    }
}

/// Single steps: minimum and maximum of every pair of some numbers, and grids of small whole numbers, whose pivots are often
/// equal, and two whose first pivot is 1e−12 and the number before it.
fn steps(all: &mut Asking) {
    let tiny = 1.0e-60;
    let some = [
        0.0,
        -0.0,
        1.0,
        -1.0,
        f64::NAN,
        f64::INFINITY,
        -f64::INFINITY,
        tiny,
        -tiny,
        0.1,
    ];
    let bytes = |of: &[f64]| -> Vec<u8> { of.iter().flat_map(|v| v.to_le_bytes()).collect() };
    for (x, y) in some.iter().flat_map(|&x| some.map(|y| (x, y))) {
        all.ask(0, MIN_MAX, &bytes(&[x, y]), &[]);
    }
    let mut r = Rng::new(1, 0);
    for _ in 0..20 {
        let grid = [0; 12].map(|_| r.range(0, 6) as f64 - 3.0);
        all.ask(0, SOLVE, &bytes(&grid), &[]);
    }
    for pivot in [1e-12, f64::from_bits(1e-12f64.to_bits() - 1)] {
        let grid = [pivot, 0.0, 0.0, 1.0, 0.0, 1.0, 0.0, 1.0, 0.0, 0.0, 1.0, 1.0];
        all.ask(0, SOLVE, &bytes(&grid), &[]);
    }
}

/// Three tones, each with its tail, the last without curves but by a rule.
fn tailed(tails: [Option<[f32; 2]>; 3]) -> Pack {
    let mut p = pack(3, 1);
    for (t, tail) in p.tones.iter_mut().zip(tails) {
        t.tail = tail;
    }
    p.tones[2].knots.clear();
    let rule = rule(0, 2, 1);
    p.accents[0].rules = vec![Rule {
        tone: 3,
        prev: 0,
        ..rule
    }];
    p
}

/// A record of kind 7 or 24.
fn tail(kind: u8, values: [f32; 2]) -> Vec<u8> {
    let values = values.into_iter().flat_map(f32::to_le_bytes);
    std::iter::once(kind).chain(values).collect()
}

/// Kind 7 in packs and kind 24 in sheets: where each is due, its range, and that it is kept bit for bit.
fn tails(all: &mut Asking) {
    const LEFT: [f32; 2] = [-1.5, 0.25];
    let p = tailed([Some(LEFT), None, Some([-0.0, 50.0])]);
    let (b, sheet) = (
        p.bytes(),
        reference::write_sheet(&p.bytes()).expect("a pack that loads"),
    );
    all.ask(0, CHECK_PACK, &b, &[]);
    all.ask(0, WRITE_SHEET, &b, &[]);
    all.ask(0, CHECK_SHEET, &sheet, &[]);
    // Behind each record of the pack: a second one behind a tail, not due but behind a tone. In a sheet it is due nowhere.
    for (b, check, kinds) in [(&b, CHECK_PACK, [7, 24]), (&sheet, CHECK_SHEET, [24, 7])] {
        let (mut met, places) = (Vec::new(), starts(b));
        for &at in &places[..places.len() - 1] {
            let end = at + record_length(b[at]).expect("a kind");
            let pair = (b[at], b.get(end).copied());
            if met.contains(&pair) {
                continue;
            }
            met.push(pair);
            for kind in kinds {
                let with = [&b[..end], &tail(kind, LEFT), &b[end..]].concat();
                let number = match pair {
                    (2, Some(2 | 3)) if kind == 7 => 0,
                    (6 | 23, _) => 3,
                    _ => 1,
                };
                all.ask(number, check, &with, &[]);
            }
        }
        // Left out, cut, or the input's end behind it, or behind its tone; another kind behind it.
        let tails: Vec<usize> = places
            .iter()
            .copied()
            .filter(|&at| b.get(at) == Some(&kinds[0]))
            .collect();
        let number = if kinds[0] == 7 { 0 } else { 1 };
        for at in [tails[0], tails[tails.len() - 1]] {
            all.ask(number, check, &[&b[..at], &b[at + 9..]].concat(), &[]);
            for cut in [0, 1, 5, 8, 9] {
                all.ask(2, check, &b[..at + cut], &[]);
            }
            for kind in [6, 23, 4, 20] {
                all.ask(1, check, &[&b[..at + 9], &[kind]].concat(), &[]);
            }
            // Ranges.
            let above = f32::from_bits(50f32.to_bits() + 1);
            for (number, value) in [
                (0, 50.0),
                (0, -50.0),
                (0, 0.0),
                (0, -0.0),
                (0, 1.0e-45),
                (0, -1.0e-45),
                (5, above),
                (5, -above),
                (5, f32::MAX),
                (5, f32::NAN),
                (5, f32::INFINITY),
                (5, f32::NEG_INFINITY),
            ] {
                for values in [[value, 0.5], [0.5, value]] {
                    let with = [&b[..at], &tail(kinds[0], values), &b[at + 9..]].concat();
                    all.ask(number, check, &with, &[]);
                    if number == 0 && check == CHECK_PACK {
                        all.ask(0, WRITE_SHEET, &with, &[]);
                    }
                }
            }
        }
    }
    // One bit more or less.
    let open = b[..65].to_vec();
    for bit in [0, 22, 31, 32, 54, 63] {
        let mut with = b.clone();
        with[66 + bit / 8] ^= 1 << (bit % 8);
        assert_eq!(b[65], 7);
        all.ask(0, WRITE_SHEET, &with, &[]);
    }
    // Eight tones and eight tails; a ninth tone behind them.
    let mut eight = fullest();
    for t in &mut eight.tones {
        t.tail = Some([-f32::from(t.number), 0.5]);
    }
    let longest = eight.bytes();
    assert_eq!(longest.len(), 7_018);
    all.ask(0, WRITE_SHEET, &longest, &[]);
    let mut q = query(8, 8);
    q.issues = CREAKY;
    all.ask(0, JUDGE, &longest, &q.bytes());
    let mut nine = pack(9, 1);
    nine.tones.iter_mut().for_each(|t| t.tail = Some(LEFT));
    let nine = nine.bytes();
    all.ask(4, CHECK_PACK, &nine, &[]);
    all.ask(2, CHECK_PACK, &nine[..9 + 8 * 65 + 2], &[]);
    // Rooms of the sheet, and refusals before it.
    for (room, number) in [
        (0, 9),
        (sheet.len() - 1, 9),
        (sheet.len(), 0),
        (sheet.len() + 1, 0),
    ] {
        all.lend(number, WRITE_SHEET, &b, &[], Some(room));
    }
    all.lend(1, WRITE_SHEET, &[&open[..], &[24]].concat(), &[], Some(0));
}

/// Judgements with tails, from the pack and from its sheet: without the issue and with it, in both places of the phrase, after
/// another tone or none, with variants of many weights, clamped, and where the shape is not usable.
fn creaky_judgements(all: &mut Asking) {
    let mut both = |p: &Pack, q: &Query| {
        let (p, q) = (p.bytes(), q.bytes());
        all.ask(0, JUDGE, &p, &q);
        all.ask(
            0,
            JUDGE_SHEET,
            &reference::write_sheet(&p).expect("a pack that loads"),
            &q,
        );
    };
    let p = tailed([Some([-1.5, 0.25]), Some([-0.5, -3.0]), Some([2.0, 50.0])]);
    let few = tailed([Some([-1.5, 0.25]), None, Some([-0.0, 0.0])]);
    let none = tailed([None; 3]);
    for fin in [0, 1] {
        for (issues, prev) in [
            (0, 0),
            (CREAKY, 0),
            (CREAKY, 3),
            (CREAKY >> 1, 0),
            (0x3FF, 0),
        ] {
            let mut q = query(2, prev);
            (q.fin, q.issues) = (fin, issues);
            both(&p, &q);
            both(&few, &q);
        }
    }
    let one = 1.0f32;
    for variants in [
        vec![(1, 0.25)],
        vec![(1, 0.25), (3, 0.5)],
        vec![(2, 0.5)],
        vec![(1, 0.0)],
        vec![(1, -0.0)],
        vec![(3, one)],
        vec![(3, -0.0), (1, one)],
        vec![(3, one - f32::EPSILON / 2.0), (1, 1.0e-45)],
        vec![(1, 0.1), (2, 0.1), (3, 0.1), (1, 0.1)],
        // 1 in f32, less in f64.
        vec![(3, 0.7), (1, 0.3)],
    ] {
        for (p, issues) in [(&p, CREAKY), (&p, 0), (&few, CREAKY), (&none, CREAKY)] {
            let mut q = query(2, 0);
            (q.fin, q.issues, q.variants) = (1, issues, variants.clone());
            both(p, &q);
        }
    }
    // The least temperatures: next to the bounds, a tail that moves off them and one that does not.
    for (temperature, onset) in [(1.0e-6, 1.0), (1.0e-9, 0.0625)] {
        for tail in [50.0, -50.0, 0.0, -0.0] {
            let mut p = pack(1, 1);
            (p.temperature, p.tones[0].tail) = (temperature, Some([tail, 0.0]));
            p.tones[0].knots = vec![if onset < 1.0 { 4.0 } else { 60.0 }];
            p.accents[0].tolerances = [onset; 4];
            let mut q = query(1, 0);
            (q.ceil, q.fin, q.issues) = (16.0, 1, CREAKY);
            q.frames.iter_mut().for_each(|f| f.hz = 110.0);
            both(&p, &q);
        }
    }
    // A log-likelihood of −0, to which no tail is added.
    let mut least = pack(1, 1);
    (least.temperature, least.tones[0].knots) = (f32::MAX, vec![4.0]);
    least.accents[0].tolerances = [1.0 + f32::EPSILON, 1.0, 1.0, 1.0];
    for tail in [None, Some([-0.0, 0.0])] {
        least.tones[0].tail = tail;
        let mut q = query(1, 0);
        (q.fin, q.issues) = (1, CREAKY);
        q.frames.iter_mut().for_each(|f| f.hz = 110.0);
        both(&least, &q);
    }
    let mut q = query(2, 0);
    (q.floor, q.issues) = (f32::NEG_INFINITY, CREAKY);
    both(&p, &q);
}

/// A frame of a pitch, voiced or not.
fn at(voiced: u8, hz: f32) -> Frame {
    Frame { voiced, hz, p: 1.0 }
}

/// Frames of these pitches.
fn voices(pitches: &[f32]) -> Vec<Frame> {
    pitches.iter().map(|&hz| at(1, hz)).collect()
}

/// The cold query about tone 1 of these frames, of which the span has all.
fn cold(frames: Vec<Frame>) -> Query {
    let mut q = query(1, 0);
    (q.cold, q.span) = (true, (0, frames.len() as u32));
    q.frames = frames;
    q
}

/// Kind 55 in each place of a query of none, one or three frames, good or damaged, and what else may stand there.
fn cold_places(all: &mut Asking) {
    for n in [0usize, 1, 3] {
        let q = cold(frames(n));
        let b = q.bytes();
        let plain = [&b[..46], &b[47..]].concat();
        all.ask(0, CHECK_QUERY, &b, &[]);
        all.ask(0, CHECK_QUERY, &plain, &[]);
        all.ask(3, CHECK_QUERY, &[&b[..], &[0]].concat(), &[]);
        // Behind each record, the first with it and without; before all.
        for i in 0..=n {
            let end = 47 + 10 * i;
            let last = if i == n { 3 } else { 1 };
            all.ask(
                last,
                CHECK_QUERY,
                &[&b[..end], &[55], &b[end..]].concat(),
                &[],
            );
            if i > 0 {
                let moved = [&plain[..end - 1], &[55], &plain[end - 1..]].concat();
                all.ask(last, CHECK_QUERY, &moved, &[]);
            }
        }
        all.ask(1, CHECK_QUERY, &[&[55], &b[..]].concat(), &[]);
        // Another kind in its place and behind it.
        for kind in [0, 48, 50, 51, 53, 54, 56] {
            // A frame's kind where a frame is due makes one of it and of what stands behind, whose flag is a kind's.
            let number = match kind {
                _ if n == 0 => 3,
                50 => 10,
                _ => 1,
            };
            let there = [&b[..46], &[kind], &b[47..]].concat();
            all.ask(number, CHECK_QUERY, &there, &[]);
            let behind = [&b[..47], &[kind], &b[47..]].concat();
            all.ask(number, CHECK_QUERY, &behind, &[]);
        }
        // Cut, and counts that say otherwise.
        for cut in [1, 45, 46, 47, 48, 56, 57, 58, 66] {
            if cut < b.len() {
                let number = if cut == 46 && n == 0 { 0 } else { 2 };
                all.ask(number, CHECK_QUERY, &b[..cut], &[]);
            }
        }
        for (count, number) in [(n + 1, 2), (n.max(1) - 1, if n == 0 { 0 } else { 3 })] {
            let mut other = b.clone();
            other[44] = count as u8;
            all.ask(number, CHECK_QUERY, &other, &[]);
        }
        if n > 0 {
            let fault = 47 + 10 * (n - 1);
            for (place, byte, number) in [(fault, 55, 1), (fault, 51, 1), (fault + 1, 2, 10)] {
                let mut other = b.clone();
                other[place] = byte;
                all.ask(number, CHECK_QUERY, &other, &[]);
            }
        }
        // What is judged of the record comes first.
        for (place, byte, number) in [(4, 2, 10), (22, 4, 10), (23, 5, 4), (45, 5, 4)] {
            let mut other = [&b[..47], &[55], &b[47..]].concat();
            other[place] = byte;
            all.ask(number, CHECK_QUERY, &other, &[]);
        }
    }
    // The longest, and one frame more; its last frame, and some in its midst, are of another pitch.
    let mut long = frames(1024);
    (long[1023].hz, long[300].hz, long[700].hz) = (440.0, 55.0, 27.5);
    let q = cold(long);
    assert_eq!(q.bytes().len(), 10_287);
    all.ask(0, WRITE_SHAPE, &q.bytes(), &[]);
    all.ask(0, JUDGE, &pack(2, 1).bytes(), &q.bytes());
    all.ask(0, COLD_REGISTER, &frame_bytes(&q.frames), &[]);
    let past = cold(frames(1025)).bytes();
    all.ask(4, CHECK_QUERY, &past, &[]);
}

/// Cold queries measured: registers of their own that are none, spans that leave frames out, issues, rooms and refusals.
fn cold_measured(all: &mut Asking) {
    let p = tailed([Some([-1.5, 0.25]), None, Some([2.0, 1.0])]).bytes();
    let sheet = reference::write_sheet(&p).expect("a pack that loads");
    let mut each = |number: u8, q: &Query| {
        let b = q.bytes();
        all.ask(number, WRITE_SHAPE, &b, &[]);
        all.ask(number, JUDGE, &p, &b);
        all.ask(number, JUDGE_SHEET, &sheet, &b);
    };
    let level = [
        110.0, 110.0, 112.0, 115.0, 119.0, 124.0, 130.0, 137.0, 145.0, 154.0,
    ];
    let of = |change: &dyn Fn(&mut Query)| {
        let mut q = cold(voices(&level));
        change(&mut q);
        q
    };
    let inf = f32::INFINITY;
    for (floor, ceil) in [
        (0.0, 16.0),
        (f32::NAN, 16.0),
        (0.0, f32::NAN),
        (-inf, inf),
        (inf, -inf),
        (16.0, 0.0),
        (5.0, 5.0),
        (-0.0, 1.0e-45),
        (f32::MAX, -f32::MAX),
    ] {
        each(0, &of(&|q| (q.floor, q.ceil) = (floor, ceil)));
    }
    // All issues, each alone, and the same without kind 55.
    for issues in (0..10).map(|bit| 1 << bit).chain([0x3FF, 0x3EF, 6]) {
        for cold in [true, false] {
            each(0, &of(&|q| (q.issues, q.cold) = (issues, cold)));
        }
    }
    // Frames outside the span, before and behind, of pitches that move one end each; and a span too short.
    for (from, to, number) in [
        (0, 20, 0),
        (5, 15, 0),
        (0, 10, 0),
        (10, 20, 0),
        (5, 12, 0),
        (5, 8, 0),
        (5, 7, 11),
        (15, 5, 11),
        (20, 25, 11),
        (0, u32::MAX, 0),
        (17, u32::MAX, 0),
    ] {
        let others = [voices(&[70.0; 5]), voices(&level), voices(&[300.0; 5])].concat();
        each(
            number,
            &of(&|q| (q.span, q.frames) = ((from, to), others.clone())),
        );
    }
    // What is not voiced, or has no pitch.
    let (low, high) = (at(0, 30.0), at(0, 900.0));
    for odd in [
        low.clone(),
        high,
        at(1, 0.0),
        at(1, -110.0),
        at(1, inf),
        at(1, f32::NAN),
    ] {
        each(
            0,
            &of(&|q| {
                q.frames.splice(3..3, [odd.clone(), low.clone()]);
                q.span.1 = 12;
            }),
        );
    }
    each(11, &of(&|q| q.frames.iter_mut().for_each(|f| f.voiced = 0)));
    each(11, &of(&|q| q.frames.clear()));
    // Registers that are widened or just not: one pitch, and two that are nearly one.
    for hz in [
        79.0f32, 80.0, 81.5, 82.5, 84.0, 87.0, 124.5, 130.0, 133.0, 312.0, 330.0, 63.0, 34.0, 35.7,
        22.0,
    ] {
        let next = f32::from_bits(hz.to_bits() + 1);
        each(0, &of(&|q| q.frames = voices(&[hz; 10])));
        each(
            0,
            &of(&|q| q.frames = voices(&[hz, next, hz, hz, next, hz, hz, hz, next, hz])),
        );
    }
    // Refusals from 12 on, and one that comes before.
    let unheld: [(u8, &dyn Fn(&mut Query)); 5] = [
        (12, &|q| q.accent = 9),
        (13, &|q| q.prev = 9),
        (14, &|q| q.fin = 1),
        (15, &|q| q.variants = vec![(1, 2.0)]),
        (13, &|q| q.tone = 9),
    ];
    let gapped = gapped();
    let gapped_sheet = reference::write_sheet(&gapped).expect("a pack that loads");
    for (number, change) in unheld {
        let b = of(&|q| {
            q.prev = 2;
            change(q);
        })
        .bytes();
        all.ask(number, JUDGE, &gapped, &b);
        all.ask(number, JUDGE_SHEET, &gapped_sheet, &b);
    }
    // Rooms.
    let b = of(&|_| {}).bytes();
    for (call, a, query, n) in [
        (WRITE_SHAPE, &b, &Vec::new(), 124),
        (JUDGE, &p, &b, 64),
        (JUDGE_SHEET, &sheet, &b, 64),
    ] {
        for (room, number) in [(0, 9), (n - 1, 9), (n, 0), (n + 1, 0)] {
            all.lend(number, call, a, query, Some(room));
        }
    }
    let twice = [&b[..47], &[55], &b[47..]].concat();
    all.lend(1, WRITE_SHAPE, &twice, &[], Some(0));
    all.lend(1, JUDGE, &p, &twice, Some(0));
    all.lend(2, JUDGE, &p[..9], &twice, Some(0));
}

/// Registers alone, and ends to be widened.
fn registers(all: &mut Asking) {
    let mut of = |frames: &[Frame]| all.ask(0, COLD_REGISTER, &frame_bytes(frames), &[]);
    of(&[]);
    of(&[
        at(0, 110.0),
        at(1, 0.0),
        at(1, f32::NAN),
        at(1, f32::INFINITY),
    ]);
    let least = f32::from_bits(1);
    for hz in [
        55.0,
        110.0,
        27.5,
        80.0,
        82.5,
        84.0,
        133.0,
        330.0,
        least,
        f32::MAX,
    ] {
        for n in [1, 2, 3, 21] {
            of(&voices(&vec![hz; n]));
        }
    }
    // Ranks between two semitones and on one; ties; both signs; from the greatest down.
    for n in [2usize, 3, 10, 11, 19, 20, 21, 22, 41] {
        let up: Vec<f32> = (0..n).map(|i| 40.0 + 7.0 * i as f32).collect();
        let down: Vec<f32> = up.iter().rev().copied().collect();
        let ties: Vec<f32> = (0..n).map(|i| [55.0, 110.0, 41.25][i % 3]).collect();
        let ends: Vec<f32> = (0..n).map(|i| if i == 0 { 27.5 } else { 220.0 }).collect();
        [up, down, ties, ends].iter().for_each(|v| of(&voices(v)));
    }
    of(&voices(&[least, 1.0e-40, 1.0e-20, 55.0, 1.0e20, f32::MAX]));
    let mut many = frames(257);
    (many[256].hz, many[0].hz) = (880.0, 20.0);
    of(&many);
    let more = of_ends();
    for [floor, ceil] in more {
        let ends = [floor, ceil].map(f32::to_le_bytes).concat();
        all.ask(0, MIN_SPAN, &ends, &[]);
    }
}

/// Two ends that are pushed apart, and others.
fn of_ends() -> Vec<[f32; 2]> {
    let pushed = [0x3FE2_CA03, 0x4085_3CC2].map(f32::from_bits);
    let mut all = vec![
        pushed,
        [-pushed[1], -pushed[0]],
        [-2.0, f32::from_bits(0x3FFF_FFFE)],
        [10.0, 14.0],
        [5.0, 5.0],
        [7.0, 3.0],
        [0.0, 0.0],
        [-0.0, 0.0],
        [-1.0, 3.0],
        [-2000.0, 2000.0],
        [2000.0, 2000.0],
        [-2000.0, -1998.0],
        [13.9, 17.9],
        [6.1, 10.1],
    ];
    let mut r = Rng::new(1, 0);
    all.extend((0..24).map(|_| crate::cold::ends(&mut r)));
    all
}

/// All of them.
pub fn all() -> Vec<Asked> {
    let mut all = Asking(Vec::new());
    pack_limits(&mut all);
    sheet_limits(&mut all);
    query_limits(&mut all);
    rooms(&mut all);
    meetings(&mut all);
    parents(&mut all);
    exact_scores(&mut all);
    tails(&mut all);
    creaky_judgements(&mut all);
    cold_places(&mut all);
    cold_measured(&mut all);
    registers(&mut all);
    steps(&mut all);
    all.0
}
