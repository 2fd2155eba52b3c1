//! A cover: few samples, such that every planted mistake that some case tells apart is told apart by a sample.

use std::panic::{catch_unwind, AssertUnwindSafe};
use std::path::Path;

use crate::ask::Answer;
use crate::case::*;
use crate::limits::{self, Asked};
use crate::samples::{agreed, answer_anew, load, put, told, Sample, COVER, LONGEST};

/// What samples are asked to tell apart: a mistake, where it matters by a call of one number.
pub struct Unit {
    pub number: u32,
    pub words: &'static str,
    pub reader: Option<u8>,
}

impl Unit {
    /// Whether a call of this number counts.
    pub fn takes(&self, call: u8) -> bool {
        self.reader.is_none_or(|reader| reader == call)
    }

    /// The words, with the reader.
    pub fn name(&self) -> String {
        match self.reader {
            None => self.words.to_string(),
            Some(reader) => format!("{} ({})", self.words, CALLS[usize::from(reader)]),
        }
    }
}

/// The calls that must tell a mistake apart each for itself: the readers, for what they share (ranges; places and order), a step
/// of the arithmetic alone, for what change request 10 split a function alone and a whole record, for how a lookup goes up the
/// parents a sheet and a record, for tails the records of a pack and of a sheet, and for the register of a cold query a shape and
/// both records, or a shape and the register alone. None stands for any call.
fn callers(number: u32) -> &'static [Option<u8>] {
    const PACK: Option<u8> = Some(CHECK_PACK);
    const QUERY: Option<u8> = Some(CHECK_QUERY);
    const SHEET: Option<u8> = Some(CHECK_SHEET);
    const RECORD: Option<u8> = Some(JUDGE);
    const SHEETS_RECORD: Option<u8> = Some(JUDGE_SHEET);
    const SHAPE: Option<u8> = Some(WRITE_SHAPE);
    const REGISTER: Option<u8> = Some(COLD_REGISTER);
    const ENDS: Option<u8> = Some(MIN_SPAN);
    match number {
        20 => &[None, Some(MIN_MAX)],
        21 => &[Some(MIN_MAX)],
        224 => &[Some(SOLVE)],
        225 | 226 => &[None, Some(SOLVE)],
        41 | 43 => &[PACK],
        42 => &[SHEET],
        31..=48 | 55 => &[PACK, SHEET],
        51..=56 => &[PACK, QUERY, SHEET],
        6 | 7 | 371..=379 => &[Some(LN), RECORD],
        380..=386 => &[Some(EXP), RECORD],
        14 | 387 | 388 => &[Some(EXP)],
        389 => &[Some(LOG2), RECORD],
        390 => &[Some(LN), Some(EXP), RECORD],
        430..=433 => &[Some(WRITE_SHEET), RECORD],
        434..=463 | 492..=495 => &[RECORD, SHEETS_RECORD],
        464..=473 => &[PACK, SHEET],
        480 => &[Some(WRITE_SHEET), RECORD],
        496..=512 => &[QUERY],
        521 | 527..=529 | 531 => &[RECORD, SHEETS_RECORD],
        523 => &[SHEETS_RECORD],
        524 => &[RECORD],
        525 | 530 => &[SHAPE],
        513..=538 => &[SHAPE, RECORD, SHEETS_RECORD],
        583 | 586..=589 => &[ENDS],
        576..=585 => &[SHAPE, REGISTER, ENDS],
        539..=575 => &[SHAPE, REGISTER],
        590..=593 => &[REGISTER],
        _ => &[None],
    }
}

/// Every unit, in the order of the mistakes.
pub fn units() -> Vec<Unit> {
    let of = |&(number, words): &(u32, &'static str)| {
        let all = callers(number).iter();
        all.map(move |&reader| Unit {
            number,
            words,
            reader,
        })
    };
    reference::PLANTED.iter().flat_map(of).collect()
}

/// The calls that the program `replay` makes.
fn replayed(call: u8) -> bool {
    matches!(call, CHECK_PACK..=JUDGE_SHEET | LN..=MIN_SPAN)
}

/// Whether a call's answer, or what it leaves in the room, is another with the mistake.
fn tells(unit: &Unit, c: &Call, room: Option<usize>, right: &(Answer, Vec<u8>)) -> bool {
    if !unit.takes(c.call) {
        return false;
    }
    reference::plant(unit.number);
    let wrong = catch_unwind(AssertUnwindSafe(|| told(c, room)));
    reference::plant(0);
    wrong.ok().as_ref() != Some(right)
}

/// For each unit the first sample that tells it apart: its file, its place there, and its call.
pub fn found(files: &[(&'static str, Vec<Sample>)], units: &[Unit]) -> Vec<Option<String>> {
    let mut all: Vec<Option<String>> = units.iter().map(|_| None).collect();
    for (name, samples) in files {
        for (index, s) in samples
            .iter()
            .enumerate()
            .filter(|(_, s)| replayed(s.call.call))
        {
            let right = told(&s.call, s.room);
            assert_eq!(
                right.0, s.fixed,
                "{name}, sample {index}: the reference gives another answer"
            );
            for (unit, at) in units.iter().zip(&mut all).filter(|(_, at)| at.is_none()) {
                if tells(unit, &s.call, s.room, &right) {
                    let call = CALLS[usize::from(s.call.call)];
                    *at = Some(format!("{name:<14} {index:>4}  {call}"));
                }
            }
        }
    }
    all
}

/// A mistake that so many calls tell apart is not asked further.
const ENOUGH: usize = 60;
/// Inputs up to this length are taken before any longer one.
const SHORT: usize = 1500;

/// Calls of generated cases, each with the units (by place) that it tells apart.
struct Candidates {
    calls: Vec<(Call, Vec<usize>)>,
    counts: Vec<usize>,
}

impl Candidates {
    /// Takes the case's calls that tell an open unit apart.
    fn take(&mut self, units: &[Unit], case: Case) {
        for c in case.calls.into_iter().filter(|c| replayed(c.call)) {
            let right = told(&c, None);
            let mut sees = Vec::new();
            for (i, unit) in units.iter().enumerate() {
                if self.counts[i] < ENOUGH && tells(unit, &c, None, &right) {
                    sees.push(i);
                }
            }
            if c.a.len() + c.b.len() <= SHORT {
                sees.iter().for_each(|&i| self.counts[i] += 1);
            }
            if !sees.is_empty() {
                self.calls.push((c, sees));
            }
        }
    }

    /// The call that tells most open units apart; of equals one that the oracle answers, then the shortest.
    fn best(&self, open: &[bool], most: usize) -> Option<usize> {
        let length = |i: usize| self.calls[i].0.a.len() + self.calls[i].0.b.len();
        let gain = |i: usize| self.calls[i].1.iter().filter(|&&u| open[u]).count();
        (0..self.calls.len())
            .filter(|&i| length(i) <= most && gain(i) > 0)
            .min_by_key(|&i| {
                (
                    -(gain(i) as i64),
                    self.calls[i].0.call == JUDGE_SHEET,
                    length(i),
                    i,
                )
            })
    }
}

/// Few generated calls that tell the units apart, and the units that none does.
fn chosen(units: &[Unit], cases: u64, seed: u64) -> (Vec<Call>, Vec<usize>) {
    let mut all = Candidates {
        calls: Vec::new(),
        counts: vec![0; units.len()],
    };
    for index in 0..cases {
        if all.counts.iter().all(|&n| n >= ENOUGH) {
            break;
        }
        all.take(units, case(seed, index));
    }
    // A unit that had enough was not asked of the calls behind.
    for (c, sees) in &mut all.calls {
        let right = told(c, None);
        *sees = (0..units.len())
            .filter(|&i| tells(&units[i], c, None, &right))
            .collect();
    }
    let mut open = vec![true; units.len()];
    let mut calls = Vec::new();
    for most in [SHORT, usize::MAX] {
        while let Some(i) = all.best(&open, most) {
            all.calls[i].1.iter().for_each(|&u| open[u] = false);
            let c = &all.calls[i].0;
            calls.push(Call {
                call: c.call,
                a: c.a.clone(),
                b: c.b.clone(),
            });
        }
    }
    (calls, (0..units.len()).filter(|&i| open[i]).collect())
}

/// The table: each unit and its sample.
pub fn table(units: &[Unit], found: &[Option<String>]) -> String {
    let mut out = String::from(
        "# The sample that tells each planted mistake apart; written by `tests/differential/run cover`.\n",
    );
    for (unit, at) in units.iter().zip(found) {
        let at = at.as_deref().unwrap_or("no generated case tells it apart");
        out += &format!("{:>4}  {at:<33}  {}\n", unit.number, unit.name());
    }
    out
}

/// Every file with its samples.
type Files = Vec<(&'static str, Vec<Sample>)>;

/// The file of `COVER` that takes a new sample: that of single steps, or the last.
fn home(files: &mut Files, call: u8) -> &mut Vec<Sample> {
    let single = [MIN_MAX, SOLVE].contains(&call);
    let name = COVER[if single { 1 } else { COVER.len() - 1 }];
    &mut files.iter_mut().find(|f| f.0 == name).expect("a file").1
}

/// The samples that are there and those by hand, and the mistakes that they don't tell apart.
fn begun(dir: &Path, by_hand: Vec<Asked>, all: &[Unit]) -> (Files, Vec<Unit>) {
    let mut files = load(dir);
    for name in COVER {
        if files.iter().all(|f| f.0 != name) {
            files.push((name, Vec::new()));
        }
    }
    let mut more = 0;
    for (call, room) in by_hand {
        let covers = files.iter().filter(|f| COVER.contains(&f.0));
        let known = covers
            .flat_map(|f| &f.1)
            .any(|s| s.call == call && s.room == room);
        if !known {
            home(&mut files, call.call).push(agreed(call, room));
            more += 1;
        }
    }
    println!("{more} more by hand");
    let open = found(&files, all);
    let open = units().into_iter().zip(open).filter(|(_, at)| at.is_none());
    let missed = open.map(|(unit, _)| unit).collect();
    (files, missed)
}

/// Answers the samples anew, adds those by hand that are not there and such as tell apart what no sample does, and writes the
/// table.
pub fn write(dir: &Path, words: &Path, cases: u64, seed: u64) {
    let by_hand = limits::all();
    std::panic::set_hook(Box::new(|_| {}));
    let all = units();
    answer_anew(dir);
    let (mut files, missed) = begun(dir, by_hand, &all);
    println!(
        "{} of {} lines not told apart by these and the other files",
        missed.len(),
        all.len()
    );
    let (calls, unseen) = chosen(&missed, cases, seed);
    println!(
        "{} samples chosen among {cases} cases of seed {seed}",
        calls.len()
    );
    for i in unseen {
        println!(
            "no case tells apart: {} {}",
            missed[i].number,
            missed[i].name()
        );
    }
    for c in calls {
        home(&mut files, c.call).push(agreed(c, None));
    }
    for (name, samples) in files.iter().filter(|f| COVER.contains(&f.0)) {
        let mut out = Vec::new();
        samples.iter().for_each(|s| put(&mut out, s));
        assert!(out.len() <= LONGEST, "{} bytes are too many", out.len());
        std::fs::write(dir.join(name), &out).expect("a samples' file");
        println!("{name}: {} samples, {} bytes", samples.len(), out.len());
    }
    std::fs::write(words, table(&all, &found(&load(dir), &all))).expect("the table");
}
