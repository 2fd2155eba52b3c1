//! What was compared and what came of it.

use std::collections::BTreeMap;

use crate::case::{CALLS, KINDS};

#[derive(Default)]
pub struct Tally {
    pub kinds: [u64; KINDS.len()],
    /// By call and number; number 0 is success.
    pub outcomes: BTreeMap<(u8, u8), u64>,
    /// By what is compared: how often, and how often it differs.
    pub compared: BTreeMap<&'static str, (u64, u64)>,
    /// Counts of what the answers held.
    pub seen: BTreeMap<&'static str, u64>,
    /// The first differences of each kind of comparison, in words.
    pub words: Vec<(u64, String)>,
}

impl Tally {
    pub fn see(&mut self, what: &'static str) {
        *self.seen.entry(what).or_default() += 1;
    }

    /// Counts one comparison; `say` gives the words if it differs.
    pub fn same(
        &mut self,
        what: &'static str,
        equal: bool,
        case: u64,
        say: impl FnOnce() -> String,
    ) {
        let entry = self.compared.entry(what).or_default();
        entry.0 += 1;
        if !equal {
            entry.1 += 1;
            if entry.1 <= 3 {
                self.words.push((case, format!("{what}: {}", say())));
            }
        }
    }

    pub fn join(&mut self, other: Tally) {
        for (a, b) in self.kinds.iter_mut().zip(other.kinds) {
            *a += b;
        }
        for (k, v) in other.outcomes {
            *self.outcomes.entry(k).or_default() += v;
        }
        for (k, v) in other.compared {
            let e = self.compared.entry(k).or_default();
            e.0 += v.0;
            e.1 += v.1;
        }
        for (k, v) in other.seen {
            *self.seen.entry(k).or_default() += v;
        }
        self.words.extend(other.words);
    }

    pub fn differing(&self) -> u64 {
        self.compared.values().map(|v| v.1).sum()
    }

    pub fn print(&mut self) {
        println!("\ncases by kind");
        for (name, n) in KINDS.iter().zip(self.kinds) {
            println!("  {n:>9}  {name}");
        }
        println!("\nthe reference's answers by call: written or passed, then refusals by number");
        for call in 1..CALLS.len() as u8 {
            let row: Vec<String> = self
                .outcomes
                .range((call, 0)..=(call, 255))
                .map(|((_, number), n)| match number {
                    0 => format!("ok {n}"),
                    _ => format!("{number}: {n}"),
                })
                .collect();
            println!("  {:<13} {}", CALLS[usize::from(call)], row.join("  "));
        }
        self.print_compared();
    }

    /// What was seen, what was compared, and the differences in words.
    pub fn print_compared(&mut self) {
        println!("\nwhat the answers held");
        for (what, n) in &self.seen {
            println!("  {n:>9}  {what}");
        }
        println!("\n compared    differ");
        for (what, (n, differ)) in &self.compared {
            println!("{n:>9} {differ:>9}  {what}");
        }
        self.words.sort();
        for (case, words) in self.words.iter() {
            println!("\ncase {case}: {words}");
        }
    }
}
