//! Planted mistakes of the reference: how many cases tell each apart, and which sample does.

use std::panic::{catch_unwind, AssertUnwindSafe};
use std::path::Path;

use crate::ask::{reference_answer, Answer};
use crate::case::{case, Call, CALLS, JUDGE_SHEET, KINDS, WRITE_SHAPE};
use crate::cover::{found, table, units, Unit};
use crate::samples::load;

/// A mistake that so many cases have seen is not asked again.
const ENOUGH: u64 = 50;

const THREADS: usize = 2;

/// The reference's answer, and what it leaves in rooms around the needed length.
fn told(c: &Call) -> (Answer, Vec<(Result<u64, (u8, u64)>, Vec<u8>)>) {
    let answer = reference_answer(c);
    let mut rooms = Vec::new();
    if (WRITE_SHAPE..=JUDGE_SHEET).contains(&c.call) {
        let n = answer.as_ref().map_or(64, Vec::len);
        let lent = answer
            .clone()
            .map_err(|(number, place)| reference::Refusal { number, place });
        for room in [0, n - 1, n, n + 1] {
            let mut out = vec![0xA5; room];
            let result = reference::lend(&lent, &mut out).map_err(|e| (e.number, e.place));
            rooms.push((result, out));
        }
    }
    (answer, rooms)
}

/// How many cases saw a unit, and the first of them in words.
#[derive(Clone, Default)]
struct Seen {
    cases: u64,
    first: String,
}

/// Asks the cases about every `THREADS`-th unit from `part`, in order.
fn asked(all: &[Unit], cases: u64, seed: u64, part: usize) -> Vec<Seen> {
    let mine: Vec<&Unit> = all.iter().skip(part).step_by(THREADS).collect();
    let mut seen = vec![Seen::default(); mine.len()];
    for index in 0..cases {
        if seen.iter().all(|s| s.cases >= ENOUGH) {
            break;
        }
        reference::plant(0);
        let case = case(seed, index);
        let right: Vec<_> = case.calls.iter().map(told).collect();
        for (unit, s) in mine.iter().zip(&mut seen).filter(|(_, s)| s.cases < ENOUGH) {
            reference::plant(unit.number);
            let differs = case.calls.iter().zip(&right).find(|(c, right)| {
                unit.takes(c.call)
                    && match catch_unwind(AssertUnwindSafe(|| told(c))) {
                        Ok(answer) => answer != **right,
                        Err(_) => true,
                    }
            });
            if let Some((c, _)) = differs {
                s.cases += 1;
                if s.cases == 1 {
                    let call = CALLS[usize::from(c.call)];
                    s.first = format!("case {index}, {}, {call}", KINDS[case.kind]);
                }
            }
        }
    }
    reference::plant(0);
    seen
}

/// The cases that saw each unit, asked by several threads.
fn seen_by(all: &[Unit], cases: u64, seed: u64) -> Vec<Seen> {
    let mut seen = vec![Seen::default(); all.len()];
    std::thread::scope(|s| {
        let asking = |part| s.spawn(move || asked(all, cases, seed, part));
        let threads: Vec<_> = (0..THREADS).map(asking).collect();
        for (part, thread) in threads.into_iter().enumerate() {
            for (i, one) in thread.join().expect("a thread").into_iter().enumerate() {
                seen[part + THREADS * i] = one;
            }
        }
    });
    seen
}

/// Prints a unit: the cases that saw it, its words, the first case, and the sample. Whether a case tells it apart and no sample.
fn print(unit: &Unit, seen: &Seen, sample: &Option<String>) -> bool {
    let more = if seen.cases >= ENOUGH { "+" } else { "" };
    let (first, absent) = match seen.cases {
        0 => ("no case saw it", "none"),
        _ => (&seen.first[..], "NO SAMPLE"),
    };
    let at = sample.as_deref().unwrap_or(absent);
    let (number, words) = (unit.number, unit.name());
    println!(
        "{number:>4} {:>5}{more:1} {words} ({first}): {at}",
        seen.cases
    );
    sample.is_none() && seen.cases > 0
}

/// How many mistakes have a unit for which the test holds.
fn mistakes(all: &[Unit], test: impl Fn(usize) -> bool) -> usize {
    let held = all.iter().enumerate().filter(|(i, _)| test(*i));
    let mut numbers: Vec<u32> = held.map(|(_, unit)| unit.number).collect();
    numbers.dedup();
    numbers.len()
}

/// Prints every unit. Whether all is as it should be: every mistake seen, each unit that a case saw told apart by a sample, and
/// the table as it would be written.
pub fn coverage(dir: &Path, words: &Path, cases: u64, seed: u64) -> bool {
    std::panic::set_hook(Box::new(|_| {}));
    let all = units();
    let samples = found(&load(dir), &all);
    let seen = seen_by(&all, cases, seed);
    let mut missing = 0;
    for ((unit, seen), sample) in all.iter().zip(&seen).zip(&samples) {
        missing += u64::from(print(unit, seen, sample));
    }
    let total = mistakes(&all, |_| true);
    let by_cases = mistakes(&all, |i| seen[i].cases > 0);
    let by_samples = mistakes(&all, |i| samples[i].is_some());
    println!("{by_cases} of {total} planted mistakes told apart in {cases} cases of seed {seed}");
    println!("{by_samples} of {total} told apart by a sample");
    println!("{missing} lines where a case tells apart and no sample does");
    let kept = std::fs::read_to_string(words).unwrap_or_default() == table(&all, &samples);
    if !kept {
        println!("{} is not as `run cover` would write it", words.display());
    }
    by_cases == total && missing == 0 && kept
}
