//! `cold_register` alone (change request 3): of generated frames by reference, oracle and port; of semitones that no frame need have,
//! by reference and oracle; and ends to be widened.

use crate::ask::{bits_of, reference_answer};
use crate::case::{Call, COLD_REGISTER, MIN_SPAN};
use crate::cold;
use crate::compare::{wide_enough, with_oracle, with_port};
use crate::query::frame_bytes;
use crate::rng::Rng;
use crate::tally::Tally;
use crate::THREADS;

/// Semitones within ±2,000, or such as are no numbers, which the Rust leaves out.
fn semitones(r: &mut Rng) -> Vec<f32> {
    let n = cold::count(r);
    let base = r.between(-2000.0, 2000.0);
    let style = r.below(6);
    let of = |_| match style {
        0 => base,
        1 => f32::from_bits(base.to_bits() + r.below(4) as u32),
        2 => r.pick(&[0.0, -0.0, 1.0e-45, -1.0e-45, 2.0, -2.0, 12.0]),
        3 => r.pick(&[
            2000.0,
            -2000.0,
            0.0,
            f32::NAN,
            f32::INFINITY,
            f32::NEG_INFINITY,
        ]),
        4 => r.between(-8.0, 8.0),
        _ => r.between(-2000.0, 2000.0),
    };
    (0..n).map(of).collect()
}

#[cfg(oracle)]
fn of_semitones(t: &mut Tally, index: u64, values: &[f32]) {
    let ours = bits_of(&reference::cold_register(values));
    let theirs = bits_of(&oracle::cold_register(values));
    t.same(
        "oracle: cold_register of semitones",
        ours == theirs,
        index,
        || format!("{values:?}\n  reference: {ours:02X?}\n  oracle:    {theirs:02X?}"),
    );
}

#[cfg(not(oracle))]
fn of_semitones(_: &mut Tally, _: u64, values: &[f32]) {
    let _ = bits_of(&reference::cold_register(values));
}

fn register(t: &mut Tally, seed: u64, index: u64) {
    let mut rng = Rng::new(seed ^ 0xC01D, index);
    let r = &mut rng;
    let n = cold::count(r);
    let frames = frame_bytes(&cold::frames(r, n));
    let ends: Vec<u8> = cold::ends(r)
        .into_iter()
        .flat_map(f32::to_le_bytes)
        .collect();
    for (call, a) in [(COLD_REGISTER, frames), (MIN_SPAN, ends)] {
        let c = Call {
            call,
            a,
            b: Vec::new(),
        };
        let ours = reference_answer(&c);
        for words in cold::seen(&c, &ours) {
            t.see(words);
        }
        wide_enough(t, index, &c, &ours);
        with_oracle(t, index, 0, &c, &ours);
        with_port(t, r, index, &c, &ours, None);
    }
    of_semitones(t, index, &semitones(r));
}

/// From so many registers on each sort of register and of ends has to be seen.
const ENOUGH: u64 = 20_000;

/// Whether none differs, and all is seen; with `plant` other than 0 the reference has that mistake.
pub fn registers(count: u64, seed: u64, plant: u32) -> bool {
    let mut all = Tally::default();
    std::thread::scope(|s| {
        let asking = |first| {
            s.spawn(move || {
                reference::plant(plant);
                let mut t = Tally::default();
                for index in (first..count).step_by(THREADS as usize) {
                    register(&mut t, seed, index);
                }
                t
            })
        };
        let threads: Vec<_> = (0..THREADS).map(asking).collect();
        for thread in threads {
            all.join(thread.join().expect("a thread"));
        }
    });
    println!("{count} registers, seed {seed}");
    all.print_compared();
    println!();
    let alone = |words: &&str| words.starts_with("register:") || words.starts_with("ends:");
    let unseen: Vec<&str> = cold::ALL
        .into_iter()
        .filter(alone)
        .filter(|words| !all.seen.contains_key(words))
        .collect();
    for words in &unseen {
        println!("never seen: {words}");
    }
    println!("{} differ", all.differing());
    all.differing() == 0 && (unseen.is_empty() || count < ENOUGH)
}
