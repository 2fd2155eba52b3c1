//! "A pack whose accents, each with its rules, are written in any other order gives the same sheet" (change request 7). Pairs of
//! packs that differ in the order of their accents alone: both load, with the same sheet and the same answers to queries, or both
//! are refused with the same number and place. Then a chain of eight accents, and a ring of them, in every order of the file.

use crate::ask::{reference_answer, Answer};
use crate::case::*;
use crate::chains;
use crate::cold;
use crate::compare::{say, with_port, words};
use crate::damage::entangle;
use crate::limits::chain_of_eight;
use crate::pack::{pack, reordered, Pack};
use crate::pick;
use crate::query::query;
use crate::rng::Rng;
use crate::tally::Tally;
use crate::THREADS;

/// How many queries a pair is asked; the first is cold.
const QUERIES: usize = 4;

/// A pack, mostly one that loads. What is wrong with another stands before the accents, or is judged where none of them does:
/// at End, or in its place.
fn some_pack(r: &mut Rng) -> Pack {
    let mut p = pack(r);
    match r.below(20) {
        0..=5 => entangle(r, &mut p),
        6 => p.temperature = 0.0,
        7 => {
            let again = p.tones[0].clone();
            p.tones.push(again);
        }
        _ => {}
    }
    p
}

/// What stands in End's place: mostly End, and nothing behind. No kind that is due after a rule's part alone.
fn ending(r: &mut Rng) -> Vec<u8> {
    match r.below(24) {
        0 => Vec::new(),
        1 => vec![pick!(r, 0, 1, 2, 3, 4, 7, 48)],
        2 => vec![6, r.byte()],
        _ => vec![6],
    }
}

/// The same call of both packs: the answers are one, and the port gives each of them for the other.
fn alike(t: &mut Tally, r: &mut Rng, index: u64, one: &Call, two: &Call) -> Answer {
    const SAME: [(u8, &str); 3] = [
        (CHECK_PACK, "two orders: check_pack"),
        (WRITE_SHEET, "two orders: write_sheet"),
        (JUDGE, "two orders: judge"),
    ];
    let name = SAME.iter().find(|s| s.0 == one.call).expect("a call").1;
    let (a, b) = (reference_answer(one), reference_answer(two));
    t.same(name, a == b, index, || {
        words(one, &say(&a), &say(&b)) + "\n" + &words(two, &say(&b), &say(&a))
    });
    with_port(t, r, index, one, &b, None);
    with_port(t, r, index, two, &a, None);
    a
}

fn pair(t: &mut Tally, seed: u64, index: u64) {
    let mut rng = Rng::new(seed ^ 0x0DE5, index);
    let r = &mut rng;
    let first = some_pack(r);
    // Another order wherever there is one.
    let mut second = reordered(r, &first);
    while first.accents.len() > 1 && second.bytes() == first.bytes() {
        second = reordered(r, &first);
    }
    let end = ending(r);
    let [one, two] = [&first, &second].map(|p| {
        let mut b = p.bytes();
        b.pop();
        b.extend(&end);
        b
    });
    let call = |call: u8, a: &[u8], b: &[u8]| Call {
        call,
        a: a.to_vec(),
        b: b.to_vec(),
    };
    let of = |c: u8, b: &[u8]| [call(c, &one, b), call(c, &two, b)];
    let [a, b] = of(CHECK_PACK, &[]);
    let checked = alike(t, r, index, &a, &b);
    t.see(match checked {
        Ok(_) => "pairs that load",
        Err((7, _)) => "pairs refused with 7",
        Err((20, _)) => "pairs refused with 20",
        Err(_) => "pairs refused with another number",
    });
    t.see(if one == two {
        "pairs of one order"
    } else {
        "pairs of two orders"
    });
    for c in [&a, &b] {
        for words in chains::seen(&c.a, &checked) {
            t.see(words);
        }
    }
    let [a, b] = of(WRITE_SHEET, &[]);
    let _ = alike(t, r, index, &a, &b);
    for i in 0..QUERIES {
        let q = match i {
            0 => cold::query(r, &first),
            _ => query(r, Some(&first)),
        };
        let q = q.bytes();
        let [a, b] = of(JUDGE, &q);
        let judged = alike(t, r, index, &a, &b);
        t.see(if judged.is_ok() {
            "queries answered"
        } else {
            "queries refused"
        });
    }
}

/// In how many orders eight accents may stand.
const ORDERS: usize = 40_320;

/// In one order of so many the port writes the sheet too.
const SHEETS: usize = 16;

/// The accents in the order that stands at a place among all.
fn in_order(pack: &Pack, mut place: usize) -> Pack {
    let mut left = pack.accents.clone();
    let mut accents = Vec::new();
    while !left.is_empty() {
        accents.push(left.remove(place % left.len()));
        place /= left.len() + 1;
    }
    Pack {
        accents,
        ..pack.clone()
    }
}

/// A chain of eight loads in each order, with the sheet that it has in the first; closed to a ring it is 20 at End.
fn every_order(t: &mut Tally, seed: u64, first: usize) {
    let chain = chain_of_eight();
    let mut ring = chain.clone();
    ring.accents[7].parent = 1;
    let call = |call: u8, pack: &Pack| Call {
        call,
        a: pack.bytes(),
        b: Vec::new(),
    };
    let sheet = reference_answer(&call(WRITE_SHEET, &chain));
    let end = ring.bytes().len() - 1;
    for place in (first..ORDERS).step_by(THREADS as usize) {
        let index = place as u64;
        let r = &mut Rng::new(seed ^ 0x0DE6, index);
        let (chain, ring) = (in_order(&chain, place), in_order(&ring, place));
        let asks = [
            (
                "every order of eight: a chain loads",
                CHECK_PACK,
                &chain,
                Ok(Vec::new()),
            ),
            (
                "every order of eight: one sheet",
                WRITE_SHEET,
                &chain,
                sheet.clone(),
            ),
            (
                "every order of eight: a ring is 20 at End",
                CHECK_PACK,
                &ring,
                Err((20, end as u64)),
            ),
        ];
        for (words_of, number, pack, want) in asks {
            let c = call(number, pack);
            let got = reference_answer(&c);
            t.same(words_of, got == want, index, || {
                words(&c, &say(&want), &say(&got))
            });
            if number == CHECK_PACK || place % SHEETS == 0 {
                with_port(t, r, index, &c, &want, None);
            }
        }
    }
}

/// Whether no pair differs; with `plant` other than 0 the reference has that mistake.
pub fn orders(pairs: u64, seed: u64, plant: u32) -> bool {
    let mut all = Tally::default();
    std::thread::scope(|s| {
        let asking = |first| {
            s.spawn(move || {
                reference::plant(plant);
                let mut t = Tally::default();
                for index in (first..pairs).step_by(THREADS as usize) {
                    pair(&mut t, seed, index);
                }
                every_order(&mut t, seed, first as usize);
                t
            })
        };
        let threads: Vec<_> = (0..THREADS).map(asking).collect();
        for thread in threads {
            all.join(thread.join().expect("a thread"));
        }
    });
    println!("{pairs} pairs, seed {seed}; a chain of eight and a ring of eight in {ORDERS} orders");
    all.print_compared();
    println!("\n{} differ", all.differing());
    all.differing() == 0
}
