//! How far change request 10 moved what is written: every case's records and shapes by the reference as it is, and with LN2 in one
//! product, as before.

use crate::ask::{reference_answer, Answer};
use crate::bytes::f32_at;
use crate::case::{case, CALLS, JUDGE, WRITE_SHAPE};
use crate::THREADS;

/// The planted mistake that is ln and exp as before the request.
pub const BEFORE: u32 = 390;

/// The fields of a record that are named in what is printed; the log-likelihoods are one.
const FIELDS: [(&str, std::ops::Range<usize>); 5] = [
    ("a log-likelihood", 3..35),
    ("llr", 35..39),
    ("the component, or its distance", 39..49),
    ("the tone heard", 49..50),
    ("another field", 50..64),
];

/// A move of a field, with where it was seen.
#[derive(Clone, Copy, Default)]
struct Most {
    move_by: f64,
    case: u64,
    before: f32,
    after: f32,
}

#[derive(Default)]
struct Count {
    records: u64,
    moved: u64,
    shapes: u64,
    shapes_moved: u64,
    /// Answers of which one is a refusal, or that are refused otherwise.
    refusals: u64,
    fields: [u64; FIELDS.len()],
    /// Of the log-likelihoods, and of llr.
    most: [Most; 2],
}

impl Count {
    fn record(&mut self, case: u64, before: &[u8], after: &[u8]) {
        self.records += 1;
        self.moved += u64::from(before != after);
        for ((_, at), n) in FIELDS.iter().zip(&mut self.fields) {
            *n += u64::from(before[at.clone()] != after[at.clone()]);
        }
        for at in (3..39).step_by(4) {
            let most = &mut self.most[usize::from(at == 35)];
            let (before, after) = (f32_at(before, at), f32_at(after, at));
            let move_by = (f64::from(after) - f64::from(before)).abs();
            if move_by > most.move_by {
                *most = Most {
                    move_by,
                    case,
                    before,
                    after,
                };
            }
        }
    }

    fn add(&mut self, call: u8, case: u64, before: &Answer, after: &Answer) {
        match (before, after) {
            (Ok(before), Ok(after)) if call == JUDGE => self.record(case, before, after),
            (Ok(before), Ok(after)) => {
                self.shapes += 1;
                self.shapes_moved += u64::from(before != after);
            }
            _ => self.refusals += u64::from(before != after),
        }
    }

    fn join(&mut self, other: &Count) {
        self.records += other.records;
        self.moved += other.moved;
        self.shapes += other.shapes;
        self.shapes_moved += other.shapes_moved;
        self.refusals += other.refusals;
        for (n, more) in self.fields.iter_mut().zip(other.fields) {
            *n += more;
        }
        for (most, one) in self.most.iter_mut().zip(other.most) {
            let further = one.move_by > most.move_by;
            let earlier = one.move_by == most.move_by && one.case < most.case;
            if further || earlier {
                *most = one;
            }
        }
    }
}

/// The cases of one thread.
fn counted(first: u64, cases: u64, seed: u64) -> Count {
    let mut count = Count::default();
    for index in (first..cases).step_by(THREADS as usize) {
        let calls = case(seed, index).calls.into_iter();
        for c in calls.filter(|c| [JUDGE, WRITE_SHAPE].contains(&c.call)) {
            reference::plant(BEFORE);
            let before = reference_answer(&c);
            reference::plant(0);
            count.add(c.call, index, &before, &reference_answer(&c));
        }
    }
    count
}

/// Prints how many records moved, by field, and the greatest moves.
pub fn moved(cases: u64, seed: u64) {
    let mut all = Count::default();
    std::thread::scope(|s| {
        let counting = |first| s.spawn(move || counted(first, cases, seed));
        let threads: Vec<_> = (0..THREADS).map(counting).collect();
        for thread in threads {
            all.join(&thread.join().expect("a thread"));
        }
    });
    println!("{cases} cases, seed {seed}");
    println!("{} of {} records moved", all.moved, all.records);
    for ((name, _), n) in FIELDS.iter().zip(all.fields) {
        println!("{n:>9}  {name}");
    }
    for (name, most) in ["log-likelihood", "llr"].iter().zip(all.most) {
        println!(
            "greatest move of a {name}: {:e}, from {:e} to {:e} (case {})",
            most.move_by, most.before, most.after, most.case
        );
    }
    println!(
        "{} of {} answers of {} moved",
        all.shapes_moved,
        all.shapes,
        CALLS[usize::from(WRITE_SHAPE)]
    );
    println!("{} refusals moved", all.refusals);
}
