//! Compares the oracle and the port with the reference, call by call.

use crate::ask::{bits_of, canonical, component, floats, reference_answer, values, Answer};
use crate::bytes::{f32_at, starts, u32_at};
use crate::case::*;
use crate::chains;
use crate::cold;
use crate::port;
use crate::rng::Rng;
use crate::samples::{told, Sample};
use crate::tails;
use crate::tally::Tally;

fn hex(b: &[u8]) -> String {
    b.iter()
        .map(|v| format!("{v:02X}"))
        .collect::<Vec<_>>()
        .join(" ")
}

pub fn words(c: &Call, want: &str, got: &str) -> String {
    format!(
        "{}\n  a ({}): {}\n  b ({}): {}\n  reference: {want}\n  other:     {got}",
        CALLS[usize::from(c.call)],
        c.a.len(),
        hex(&c.a),
        c.b.len(),
        hex(&c.b)
    )
}

pub fn say(answer: &Answer) -> String {
    match answer {
        Ok(b) => hex(b),
        Err((number, place)) => format!("refused {number} at {place}"),
    }
}

/// Whether both inputs load, as the answer shows.
fn loads(answer: &Answer) -> bool {
    !matches!(answer, Err((1..=10 | 20, _)))
}

const ZEROS: [(usize, &str); 5] = [
    (
        89,
        "shape: oracle's zero has another sign: mean (not compared)",
    ),
    (
        93,
        "shape: oracle's zero has another sign: slope (not compared)",
    ),
    (
        97,
        "shape: oracle's zero has another sign: curvature (not compared)",
    ),
    (
        106,
        "shape: oracle's zero has another sign: range (not compared)",
    ),
    (
        118,
        "shape: oracle's zero has another sign: f0_confidence (not compared)",
    ),
];

/// The oracle's shape with the named zero signs taken from the reference; counts them.
fn level_zeros(t: &mut Tally, mut theirs: Vec<u8>, ours: &[u8]) -> Vec<u8> {
    for (at, name) in ZEROS {
        if theirs[at..at + 4] != ours[at..at + 4]
            && f32_at(&theirs, at) == 0.0
            && f32_at(ours, at) == 0.0
        {
            theirs[at..at + 4].copy_from_slice(&ours[at..at + 4]);
            t.see(name);
        }
    }
    theirs
}

#[cfg(oracle)]
fn caught<T>(f: impl FnOnce() -> T) -> Option<T> {
    std::panic::catch_unwind(std::panic::AssertUnwindSafe(f)).ok()
}

#[cfg(oracle)]
fn from_oracle<const N: usize>(answer: Option<Result<[u8; N], u8>>) -> Answer {
    match answer {
        Some(Ok(b)) => Ok(b.to_vec()),
        Some(Err(number)) => Err((number, 0)),
        None => Err((255, 255)),
    }
}

/// Asks the oracle what it can answer.
#[cfg(oracle)]
pub fn with_oracle(t: &mut Tally, case: u64, kind: usize, c: &Call, ours: &Answer) {
    match c.call {
        WRITE_SHAPE if loads(ours) => {
            let mut theirs = from_oracle(caught(|| oracle::shape(&c.a)));
            if let (Ok(b), Ok(o)) = (&theirs, ours) {
                theirs = Ok(level_zeros(t, b.clone(), o));
            }
            t.same("oracle: shape", theirs == *ours, case, || {
                words(c, &say(ours), &say(&theirs))
            });
        }
        JUDGE if loads(ours) => {
            let theirs = from_oracle(caught(|| oracle::judge(&c.a, &c.b)));
            t.same("oracle: judge", theirs == *ours, case, || {
                words(c, &say(ours), &say(&theirs))
            });
        }
        WRITE_SHEET if ours.is_ok() && [0, 7, 9].contains(&kind) => {
            let theirs = caught(|| oracle::sheet(&c.a)).ok_or((255, 255));
            t.same(
                "oracle's lookups, all of a pack, put into a sheet: write_sheet",
                theirs == *ours,
                case,
                || words(c, &say(ours), &say(&theirs)),
            );
        }
        LOOK_PACK => {
            let found = caught(|| oracle::look(&c.a, c.b[0], c.b[1], c.b[2], c.b[3]));
            let theirs = match found {
                Some(Ok(found)) => {
                    let mut out = Vec::new();
                    for c in &found {
                        component(
                            c.owner, c.form, c.label, c.part, c.weight, &c.points, &mut out,
                        );
                    }
                    Ok(out)
                }
                Some(Err(number)) => Err((number, 0)),
                None => Err((255, 255)),
            };
            t.same("oracle: look", theirs == *ours, case, || {
                words(c, &say(ours), &say(&theirs))
            });
        }
        LN..=13 => {
            let f = [oracle::ln, oracle::log2, oracle::exp, oracle::root][usize::from(c.call - LN)];
            let name = ["oracle: ln", "oracle: log2", "oracle: exp", "oracle: root"]
                [usize::from(c.call - LN)];
            for (v, want) in values(&c.a).zip(values(ours.as_ref().expect("values"))) {
                let got = canonical(f(v));
                t.same(name, got == want.to_bits(), case, || {
                    format!(
                        "{:016X}: {:016X}, oracle {got:016X}",
                        v.to_bits(),
                        want.to_bits()
                    )
                });
            }
        }
        NARROW => {
            for (v, want) in values(&c.a).zip(ours.as_ref().expect("values").chunks_exact(4)) {
                let got = crate::ask::narrow_bits(v as f32);
                t.same(
                    "oracle: narrow (Rust's f64 as f32)",
                    got == u32_at(want, 0),
                    case,
                    || format!("{:016X}: {}, oracle {got:08X}", v.to_bits(), hex(want)),
                );
            }
        }
        COLD_REGISTER => {
            let theirs = caught(|| bits_of(&oracle::register_of(&c.a))).ok_or((255, 255));
            t.same("oracle: cold_register", theirs == *ours, case, || {
                words(c, &say(ours), &say(&theirs))
            });
        }
        MIN_SPAN => {
            let ends = floats(&c.a);
            let theirs = caught(|| bits_of(&oracle::at_least_min_span(ends[0], ends[1])));
            let theirs = theirs.ok_or((255, 255));
            t.same("oracle: at_least_min_span", theirs == *ours, case, || {
                words(c, &say(ours), &say(&theirs))
            });
        }
        _ => {}
    }
}

#[cfg(not(oracle))]
pub fn with_oracle(_: &mut Tally, _: u64, _: usize, _: &Call, _: &Answer) {}

const PORTED: [&str; 20] = [
    "",
    "port: check_pack",
    "port: check_query",
    "port: check_sheet",
    "port: write_shape, each room",
    "port: write_sheet, each room",
    "port: judge, each room",
    "port: judge_sheet, each room",
    "",
    "",
    "port: ln",
    "port: log2",
    "port: exp",
    "port: root",
    "port: narrow",
    "",
    "",
    "",
    "port: cold_register",
    "",
];

const GUARD: usize = 32;

/// Asks the port in rooms around each boundary; every byte of the room, and of a strip before and
/// after it, must be as document 01 says. The inputs must be what they were.
pub fn with_port(
    t: &mut Tally,
    r: &mut Rng,
    case: u64,
    c: &Call,
    ours: &Answer,
    own_room: Option<usize>,
) {
    if !port::has(c.call) {
        return;
    }
    let name = PORTED[usize::from(c.call)];
    if (LN..=NARROW).contains(&c.call) {
        let width = if c.call == NARROW { 4 } else { 8 };
        let wants = ours.as_ref().expect("values").chunks_exact(width);
        for (v, want) in values(&c.a).zip(wants) {
            let got = port::single(c.call, v.to_bits());
            let mut eight = [0; 8];
            eight[..width].copy_from_slice(want);
            let want = u64::from_le_bytes(eight);
            t.same(name, got == want, case, || {
                format!("{:016X}: {want:016X}, port {got:016X}", v.to_bits())
            });
        }
        return;
    }
    let (a, b) = (c.a.clone(), c.b.clone());
    if c.call == COLD_REGISTER {
        let got = Ok(bits_of(&port::register(&a)));
        t.same(name, got == *ours && a == c.a, case, || {
            words(c, &say(ours), &say(&got))
        });
        return;
    }
    let code = |number: u8, rest: u64| u64::from(number) << 32 | rest;
    if c.call <= CHECK_SHEET {
        let want = match ours {
            Ok(_) => 0,
            Err((number, place)) => code(*number, *place),
        };
        let got = port::ask(c.call, &a, &b, &mut []);
        let equal = got == want && a == c.a;
        t.same(name, equal, case, || {
            words(c, &say(ours), &format!("{got:016X}"))
        });
        return;
    }
    let rooms = match ours {
        Ok(written) => {
            let n = written.len();
            vec![n, n - 1, n + 1, 0, n + r.range(2, 200), r.below(n)]
        }
        Err(_) => vec![r.below(200), 0, r.pick(&[64, 124, 14000])],
    };
    let fill = r.byte();
    for room in rooms.into_iter().chain(own_room) {
        let before: Vec<u8> = (0..GUARD + room + GUARD)
            .map(|i| (i as u8).wrapping_mul(37).wrapping_add(fill))
            .collect();
        let mut after = before.clone();
        let mut expected = before.clone();
        let want = match ours {
            Err((number, place)) => code(*number, *place),
            Ok(written) if written.len() > room => code(9, written.len() as u64),
            Ok(written) => {
                expected[GUARD..GUARD + written.len()].copy_from_slice(written);
                written.len() as u64
            }
        };
        let got = port::ask(c.call, &a, &b, &mut after[GUARD..GUARD + room]);
        let equal = got == want && after == expected && a == c.a && b == c.b;
        t.same(name, equal, case, || {
            words(
                c,
                &format!("{want:016X}, {}", say(ours)),
                &format!("room {room}: {got:016X}, {}", hex(&after)),
            )
        });
    }
}

/// What `lend` does with an answer, held against the words of document 01.
fn lends(t: &mut Tally, r: &mut Rng, case: u64, c: &Call, ours: &Answer) {
    let room = match ours {
        Ok(written) => r.pick(&[
            0,
            written.len() - 1,
            written.len(),
            written.len() + 1,
            written.len() + 9,
        ]),
        Err(_) => r.below(100),
    };
    let mut out = vec![0xA5; room];
    let mut expected = out.clone();
    let result = match ours {
        Ok(written) => Ok(written.clone()),
        Err((number, place)) => Err(reference::Refusal {
            number: *number,
            place: *place,
        }),
    };
    let want = match ours {
        Err(refused) => Err(*refused),
        Ok(written) if written.len() > room => Err((9, written.len() as u64)),
        Ok(written) => {
            expected[..written.len()].copy_from_slice(written);
            Ok(written.len() as u64)
        }
    };
    let got = reference::lend(&result, &mut out).map_err(|e| (e.number, e.place));
    t.same(
        "reference: lend, by document 01's words",
        got == want && out == expected,
        case,
        || words(c, &format!("{want:?}"), &format!("{got:?}")),
    );
}

/// Minimum and maximum by document 01's words: of a NaN and a number the number, of two zeros the
/// earlier.
fn extremes(t: &mut Tally, case: u64, c: &Call, ours: &Answer) {
    let all: Vec<f64> = values(&c.a).collect();
    let mut want = Vec::new();
    for pair in all.chunks_exact(2) {
        for least in [true, false] {
            let (x, y) = (pair[0], pair[1]);
            let later = x.is_nan() || if least { y < x } else { y > x };
            want.extend(canonical(if later { y } else { x }).to_le_bytes());
        }
        for least in [true, false] {
            let (x, y) = (pair[0] as f32, pair[1] as f32);
            let later = x.is_nan() || if least { y < x } else { y > x };
            want.extend(crate::ask::narrow_bits(if later { y } else { x }).to_le_bytes());
        }
    }
    let want = Ok(want);
    t.same(
        "reference: min and max, by document 01's words",
        want == *ours,
        case,
        || words(c, &say(ours), &say(&want)),
    );
}

/// "A query with kind 55 that is judged is always measured": a register's ends are numbers, at least 4 semitones apart, the median
/// between them; and those of two ends that are widened.
pub fn wide_enough(t: &mut Tally, case: u64, c: &Call, ours: &Answer) {
    let told = floats(ours.as_ref().expect("a register"));
    let (floor, ceil) = (told[0], told[told.len() - 1]);
    let finite = told.iter().all(|v| v.is_finite());
    let between = told.windows(2).all(|pair| pair[0] < pair[1]);
    let name = if c.call == MIN_SPAN {
        "reference: at_least_min_span gives ends at least 4 semitones apart"
    } else {
        "reference: cold_register gives ends at least 4 semitones apart, the median between"
    };
    t.same(name, finite && between && ceil - floor >= 4.0, case, || {
        words(c, &say(ours), "")
    });
}

/// Counts what a record holds, to show which branches the cases reach; what parents a pack has; and what is seen of tails and of
/// cold queries.
fn look_at(t: &mut Tally, c: &Call, ours: &Answer) {
    if c.call == CHECK_PACK {
        for words in chains::seen(&c.a, ours) {
            t.see(words);
        }
    }
    for words in tails::seen(c, ours) {
        t.see(words);
    }
    for words in cold::seen(c, ours) {
        t.see(words);
    }
    let Ok(b) = ours else { return };
    match c.call {
        JUDGE => {
            t.see(["judged: full", "judged: partial", "judged: not measured"][usize::from(b[61])]);
            t.see(["judged: no deltas", "judged: 1 delta", "judged: 2 deltas"][usize::from(b[50])]);
            t.see(
                [
                    "judged: no component",
                    "judged: citation",
                    "judged: single",
                    "judged: mixture",
                ][usize::from(b[45])],
            );
            t.see(if b[49] == 0 {
                "judged: none heard"
            } else {
                "judged: a tone heard"
            });
            // Of shares that come to 1, or of weights that come to the tolerances' product, ln and exp's rounding is left.
            if (3..39)
                .step_by(4)
                .any(|k| f32_at(b, k) != 0.0 && f32_at(b, k).abs() < 1.0e-6)
            {
                t.see("judged: a log-likelihood or llr next to 0");
            }
            for k in [51, 56] {
                if b[k] > 0 {
                    t.see(
                        [
                            "delta: StartHigher",
                            "delta: StartLower",
                            "delta: EndHigher",
                            "delta: EndLower",
                            "delta: TurnEarlier",
                            "delta: TurnLater",
                            "delta: WiderRange",
                            "delta: NarrowerRange",
                        ][usize::from(b[k] - 1)],
                    );
                }
            }
        }
        WRITE_SHAPE => {
            t.see(if b[101] == 1 {
                "shape: turns"
            } else {
                "shape: does not turn"
            });
            if f32_at(b, 9).is_nan() {
                t.see("shape: contour NaN");
            }
        }
        WRITE_SHEET => {
            let n = starts(b)
                .iter()
                .filter(|&&at| b.get(at) == Some(&21))
                .count();
            if n == 128 {
                t.see("sheet: 128 lists");
            }
            if b.len() == 13_338 {
                t.see("sheet: 13,338 bytes");
            }
        }
        _ => {}
    }
}

/// Two packs that differ in one bit of one tail: so do their sheets.
fn apart(t: &mut Tally, case: u64, calls: [&Call; 2], answers: &[Answer]) {
    let [one, two] = calls;
    let differing =
        (0..8 * one.a.len()).find(|bit| (one.a[bit / 8] ^ two.a[bit / 8]) >> (bit % 8) & 1 == 1);
    if let Some(words) = tails::sign_of_zero(&one.a, differing.expect("a bit")) {
        t.see(words);
    }
    let good = match answers {
        [Ok(a), Ok(b)] => tails::one_bit_apart(a, b),
        _ => false,
    };
    t.same(
        "reference: packs apart in one bit of a tail, sheets too",
        good,
        case,
        || words(one, &say(&answers[0]), &say(&answers[1])) + "\n" + &words(two, "", ""),
    );
}

pub fn compare(t: &mut Tally, seed: u64, index: u64) {
    let case = case(seed, index);
    let mut r = Rng::new(seed ^ 0x5EED, index);
    t.kinds[case.kind] += 1;
    let mut answers: Vec<Answer> = Vec::new();
    for c in &case.calls {
        let ours = reference_answer(c);
        let number = match &ours {
            Ok(_) => 0,
            Err((number, _)) => *number,
        };
        *t.outcomes.entry((c.call, number)).or_default() += 1;
        look_at(t, c, &ours);
        with_oracle(t, index, case.kind, c, &ours);
        with_port(t, &mut r, index, c, &ours, None);
        if c.call == MIN_MAX {
            extremes(t, index, c, &ours);
        }
        if [COLD_REGISTER, MIN_SPAN].contains(&c.call) {
            wide_enough(t, index, c, &ours);
        }
        if (WRITE_SHAPE..=JUDGE_SHEET).contains(&c.call) {
            lends(t, &mut r, index, c, &ours);
        }
        answers.push(ours);
    }
    if let [one, two] = &case.calls[..] {
        if case.kind == APART {
            apart(t, index, [one, two], &answers);
        }
    }
    // Both stations agree; two packs have one sheet exactly when they agree; a sheet's lookups are its pack's.
    for i in 1..case.calls.len() {
        let (one, two) = (&case.calls[i - 1], &case.calls[i]);
        let (name, alike) = match (one.call, two.call) {
            (JUDGE, JUDGE_SHEET) => ("reference: judge = judge_sheet on the pack's sheet", true),
            (LOOK_PACK, LOOK_SHEET) => (
                "reference: look_pack = look_sheet on the pack's sheet",
                true,
            ),
            (WRITE_SHEET, WRITE_SHEET) => match reference::agree(&one.a, &two.a) {
                Ok(true) => ("reference: one sheet for two packs that agree", true),
                _ => (
                    "reference: two sheets for two packs that do not agree",
                    false,
                ),
            },
            _ => continue,
        };
        t.same(name, (answers[i - 1] == answers[i]) == alike, index, || {
            words(one, &say(&answers[i - 1]), &say(&answers[i]))
        });
    }
}

/// A fixed sample: reference, oracle and port must still give it, the port in the sample's own room and in others.
pub fn replayed(t: &mut Tally, index: u64, s: &Sample) {
    let (c, ours) = (&s.call, reference_answer(&s.call));
    let told = told(c, s.room).0;
    t.same("reference = sample", told == s.fixed, index, || {
        words(c, &say(&told), &say(&s.fixed))
    });
    with_oracle(t, index, 0, c, &ours);
    with_port(t, &mut Rng::new(0, index), index, c, &ours, s.room);
}
