//! Fixed samples: calls with their answers, written to files and replayed from them. A file is a row of samples:
//! u8 call (128 more where a room is given), u32 room if it is, u32 length and first input, u32 length and second input,
//! u8 number, u32 length of the answer or place of the refusal, and with number 0 the answer's bytes.

use std::collections::BTreeMap;
use std::path::Path;

use crate::ask::{reference_answer, Answer};
use crate::bytes::u32_at;
use crate::case::*;
use crate::compare;
use crate::tally::Tally;

/// A file's name, its calls, the longest input taken, and how many samples of one class.
const FILES: [(&str, &[u8], usize, usize); 5] = [
    ("checks.bin", &[CHECK_PACK, CHECK_QUERY], 1500, 40),
    ("shapes.bin", &[WRITE_SHAPE], 700, 25),
    ("judgements.bin", &[JUDGE, JUDGE_SHEET], 1500, 3),
    ("sheets.bin", &[WRITE_SHEET, CHECK_SHEET], 2500, 12),
    (
        "functions.bin",
        &[LN, 11, 12, 13, NARROW, EXPAND_KNOTS],
        512,
        40,
    ),
];
/// The files of samples chosen by limits and planted mistakes: those of whole calls and functions, which is full, those of single
/// steps, those of change request 2, and those of change request 3 and whatever is added.
pub const COVER: [&str; 4] = ["cover.bin", "steps.bin", "tails.bin", "cold.bin"];
/// The longest file that the program that replays reads.
pub const LONGEST: usize = 300_000;
/// How far the first files were filled.
const LIMIT: usize = 280_000;

/// A call, the room it is lent, and its answer.
pub struct Sample {
    pub call: Call,
    pub room: Option<usize>,
    pub fixed: Answer,
}

/// The room that a call is lent where a sample gives none: the longest that it writes.
fn longest(call: u8) -> usize {
    match call {
        WRITE_SHAPE => 124,
        JUDGE | JUDGE_SHEET => 64,
        WRITE_SHEET => 13_338,
        _ => 0,
    }
}

/// What a replay sees of the reference: its answer in the room lent, and every byte of that room, which was filled before.
pub fn told(c: &Call, room: Option<usize>) -> (Answer, Vec<u8>) {
    let answer = reference_answer(c);
    if !(WRITE_SHAPE..=JUDGE_SHEET).contains(&c.call) {
        return (answer, Vec::new());
    }
    let mut out = vec![0xA5; room.unwrap_or(longest(c.call))];
    let answer = answer.map_err(|(number, place)| reference::Refusal { number, place });
    let lent = match reference::lend(&answer, &mut out) {
        Ok(n) => Ok(out[..n as usize].to_vec()),
        Err(refused) => Err((refused.number, refused.place)),
    };
    (lent, out)
}

pub fn put(out: &mut Vec<u8>, s: &Sample) {
    match s.room {
        None => out.push(s.call.call),
        Some(room) => {
            out.push(128 + s.call.call);
            out.extend((room as u32).to_le_bytes());
        }
    }
    for input in [&s.call.a, &s.call.b] {
        out.extend((input.len() as u32).to_le_bytes());
        out.extend(input);
    }
    match &s.fixed {
        Ok(b) => {
            out.push(0);
            out.extend((b.len() as u32).to_le_bytes());
            out.extend(b);
        }
        Err((number, place)) => {
            out.push(*number);
            out.extend((*place as u32).to_le_bytes());
        }
    }
}

/// The bytes behind their u32 length; `at` moves past them.
fn run_of(bytes: &[u8], at: &mut usize) -> Vec<u8> {
    let n = u32_at(bytes, *at) as usize;
    *at += 4 + n;
    bytes[*at - n..*at].to_vec()
}

/// The samples of a file.
fn taken_apart(bytes: &[u8]) -> Vec<Sample> {
    let (mut at, mut all) = (0, Vec::new());
    while at < bytes.len() {
        let (call, roomy) = (bytes[at] & 127, bytes[at] >= 128);
        at += 1;
        let room = roomy.then(|| u32_at(bytes, at) as usize);
        at += if roomy { 4 } else { 0 };
        let (a, b) = (run_of(bytes, &mut at), run_of(bytes, &mut at));
        let number = bytes[at];
        at += 1;
        let fixed = if number == 0 {
            Ok(run_of(bytes, &mut at))
        } else {
            at += 4;
            Err((number, u64::from(u32_at(bytes, at - 4))))
        };
        let call = Call { call, a, b };
        all.push(Sample { call, room, fixed });
    }
    all
}

/// The files that are there, with their samples.
pub fn load(dir: &Path) -> Vec<(&'static str, Vec<Sample>)> {
    let names = FILES.iter().map(|f| f.0).chain(COVER);
    names
        .filter_map(|name| Some((name, taken_apart(&std::fs::read(dir.join(name)).ok()?))))
        .collect()
}

/// What a sample shows; each class gets its share of the file.
fn class(kind: usize, c: &Call, answer: &Answer) -> Vec<u8> {
    match (c.call, answer) {
        (WRITE_SHAPE, Ok(b)) => vec![
            c.call,
            0,
            b[101],
            b[122],
            u8::from(b[11..13] == [0xC0, 0x7F]),
        ],
        (JUDGE | JUDGE_SHEET, Ok(b)) => {
            vec![c.call, 0, b[61], b[45], b[50], b[51], u8::from(b[49] > 0)]
        }
        (call, Ok(_)) => vec![call, 0, kind as u8],
        (call, Err((number, _))) => vec![call, *number, kind as u8],
    }
}

/// A call with the reference's answer, after the oracle has given the same wherever it can.
pub fn agreed(call: Call, room: Option<usize>) -> Sample {
    let mut t = Tally::default();
    compare::with_oracle(&mut t, 0, 0, &call, &reference_answer(&call));
    assert_eq!(
        t.differing(),
        0,
        "oracle and reference differ: {:?}",
        t.words
    );
    let fixed = told(&call, room).0;
    Sample { call, room, fixed }
}

pub fn write(dir: &Path, seed: u64) {
    std::fs::create_dir_all(dir).expect("the samples' folder");
    for (name, calls, longest, share) in FILES {
        let mut out = Vec::new();
        let mut taken: BTreeMap<Vec<u8>, usize> = BTreeMap::new();
        let mut count = 0;
        for index in 0..60_000 {
            let case = case(seed, index);
            for c in case.calls {
                if !calls.contains(&c.call) || c.a.len() + c.b.len() > longest {
                    continue;
                }
                let n = taken
                    .entry(class(case.kind, &c, &reference_answer(&c)))
                    .or_default();
                if *n >= share {
                    continue;
                }
                let mut sample = Vec::new();
                put(&mut sample, &agreed(c, None));
                if out.len() + sample.len() > LIMIT {
                    continue;
                }
                *n += 1;
                count += 1;
                out.extend(sample);
            }
        }
        std::fs::write(dir.join(name), &out).expect("a samples' file");
        println!("{name}: {count} samples, {} bytes", out.len());
    }
}

/// Answers every sample anew, and prints which answers changed. What each was asked stays.
pub fn answer_anew(dir: &Path) {
    for (name, samples) in load(dir) {
        let (mut out, mut count) = (Vec::new(), 0);
        let mut changed: BTreeMap<u8, Vec<usize>> = BTreeMap::new();
        for (index, s) in samples.into_iter().enumerate() {
            let (before, now) = (s.fixed, agreed(s.call, s.room));
            if now.fixed != before {
                changed.entry(now.call.call).or_default().push(index);
            }
            put(&mut out, &now);
            count += 1;
        }
        std::fs::write(dir.join(name), &out).expect("a samples' file");
        println!("{name}: {count} samples answered anew");
        for (call, at) in changed {
            let call = CALLS[usize::from(call)];
            println!("  {} of {call} have another answer: {at:?}", at.len());
        }
    }
}

/// Replays every file on reference, oracle and port; how many answers differ.
pub fn replay(dir: &Path) -> u64 {
    let mut differ = 0;
    for (name, samples) in load(dir) {
        let mut t = Tally::default();
        for (index, s) in samples.iter().enumerate() {
            compare::replayed(&mut t, index as u64, s);
        }
        println!("{name}: {} samples", samples.len());
        for (what, (n, bad)) in &t.compared {
            println!("{n:>9} {bad:>9}  {what}");
        }
        for (at, words) in &t.words {
            println!("sample {at}: {words}");
        }
        differ += t.differing();
    }
    differ
}
