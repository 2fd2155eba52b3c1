//! What the accents of a pack show of parents that stand anywhere: for the counts that a run prints.

use crate::ask::Answer;
use crate::bytes::starts;

/// Number and parent of each accent, in file order.
fn accents(pack: &[u8]) -> Vec<(u8, u8)> {
    let kinds = starts(pack).into_iter();
    let at = kinds.filter(|&at| pack.get(at) == Some(&3) && at + 2 < pack.len());
    at.map(|at| (pack[at + 1], pack[at + 2])).collect()
}

/// The places of an accent's chain, each once, and the length of the ring at its end, 0 if it ends.
fn chain(all: &[(u8, u8)], start: usize) -> (usize, usize) {
    let mut met = Vec::new();
    let mut next = Some(start);
    while let Some(at) = next {
        if let Some(from) = met.iter().position(|&m| m == at) {
            return (met.len(), met.len() - from);
        }
        met.push(at);
        next = all.iter().position(|a| a.0 == all[at].1);
    }
    (met.len(), 0)
}

/// In words, by the answer to a check of the pack.
pub fn seen(pack: &[u8], answer: &Answer) -> Vec<&'static str> {
    let all = accents(pack);
    let chains: Vec<(usize, usize)> = (0..all.len()).map(|start| chain(&all, start)).collect();
    let ring = chains.iter().map(|c| c.1).max().unwrap_or(0);
    let behind = starts(pack).last().is_some_and(|&end| end < pack.len());
    let mut words = Vec::new();
    match answer {
        Ok(_) => {
            let later = |i: usize| all[i + 1..].iter().any(|a| a.0 == all[i].1);
            if (0..all.len()).any(later) {
                words.push("pack that loads: a parent stands later");
            }
            if chains.iter().any(|c| c.0 == 8) {
                words.push("pack that loads: a chain of eight accents");
            }
        }
        Err((20, _)) => {
            words.push(
                [
                    "",
                    "20: a ring of one accent",
                    "20: a ring of two",
                    "20: a ring of three",
                    "20: a ring of four",
                    "20: a ring of five",
                    "20: a ring of six",
                    "20: a ring of seven",
                    "20: a ring of eight",
                ][ring],
            );
            if chains.iter().any(|c| c.1 > 0 && c.0 > c.1) {
                words.push("20: a chain leads into a ring");
            }
            if chains.iter().any(|c| c.1 == 0) {
                words.push("20: beside a chain that ends");
            }
            if behind {
                words.push("20: bytes behind End");
            }
        }
        Err((7, place)) if pack.get(*place as usize) == Some(&6) => {
            words.push("7 at End");
            if ring > 0 {
                words.push("7 at End: with a chain that never ends");
            }
            if behind {
                words.push("7 at End: bytes behind End");
            }
        }
        Err((1 | 2, _)) if ring > 0 => words.push("1 or 2: with a chain that never ends"),
        _ => {}
    }
    words
}
