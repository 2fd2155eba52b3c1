//! Compares port, oracle and reference on generated cases; see the README beside `src`.

mod ask;
mod bytes;
mod case;
mod chains;
mod cold;
mod compare;
mod cover;
mod coverage;
mod damage;
mod exact;
mod limits;
mod moved;
mod orders;
mod pack;
mod port;
mod query;
mod registers;
mod rng;
mod samples;
mod sheet;
mod tails;
mod tally;

use std::io::Write;
use std::path::Path;
use std::time::Instant;

use tally::Tally;

pub const THREADS: u64 = 2;

/// From so many cases on a run has to see everything of tails and of cold queries.
const ENOUGH: u64 = 50_000;

/// With `plant` other than 0 the reference has that mistake, and the run should fail.
fn run(cases: u64, seed: u64, plant: u32) -> bool {
    let begun = Instant::now();
    let mut total = Tally::default();
    std::thread::scope(|s| {
        let threads: Vec<_> = (0..THREADS)
            .map(|first| {
                s.spawn(move || {
                    reference::plant(plant);
                    let mut t = Tally::default();
                    let mut index = first;
                    while index < cases {
                        compare::compare(&mut t, seed, index);
                        index += THREADS;
                    }
                    t
                })
            })
            .collect();
        for thread in threads {
            total.join(thread.join().expect("a thread"));
        }
    });
    let time = begun.elapsed().as_secs_f64();
    println!(
        "{cases} cases, seed {seed}, {THREADS} threads, {time:.1} s ({:.0} s a million)",
        time * 1.0e6 / cases.max(1) as f64
    );
    total.print();
    println!();
    if !cfg!(oracle) {
        println!("not compared: the oracle, whose Rust was not given");
    }
    for call in port::ALL {
        if !port::has(call) {
            println!(
                "not compared, for the port does not have it: {}",
                case::CALLS[usize::from(call)]
            );
        }
    }
    let unseen: Vec<&str> = tails::ALL
        .into_iter()
        .chain(cold::ALL)
        .filter(|words| !total.seen.contains_key(words))
        .collect();
    for words in &unseen {
        println!("never seen: {words}");
    }
    println!("{} differ", total.differing());
    total.differing() == 0 && (unseen.is_empty() || cases < ENOUGH)
}

/// Prints one case and its answers.
fn show(seed: u64, index: u64) {
    let case = case::case(seed, index);
    println!("case {index} of seed {seed}: {}", case::KINDS[case.kind]);
    for c in &case.calls {
        println!(
            "{}\n  a {:02X?}\n  b {:02X?}",
            case::CALLS[usize::from(c.call)],
            c.a,
            c.b
        );
        match ask::reference_answer(c) {
            Ok(b) => println!("  {b:02X?}"),
            Err((number, place)) => println!("  refused {number} at {place}"),
        }
    }
}

/// Writes sheets that load, each behind its length as a u32: by turns one of a pack and one of no
/// pack.
fn write_sheets(count: u64, seed: u64) {
    let mut out = Vec::new();
    let mut written = 0;
    for index in 0.. {
        if written == count {
            break;
        }
        let mut r = rng::Rng::new(seed, index);
        let bytes = if written % 2 == 0 {
            reference::write_sheet(&pack::pack(&mut r).bytes()).expect("a pack that loads")
        } else {
            sheet::sheet(&mut r, false)
        };
        if reference::check_sheet(&bytes).is_none() {
            out.extend((bytes.len() as u32).to_le_bytes());
            out.extend(bytes);
            written += 1;
        }
    }
    std::io::stdout().write_all(&out).expect("standard output");
}

fn main() {
    let args: Vec<String> = std::env::args().skip(1).collect();
    let number = |i: usize, otherwise: u64| {
        args.get(i)
            .map_or(otherwise, |a| a.parse().expect("a number"))
    };
    let ok = match args[0].as_str() {
        "run" => run(number(1, 100_000), number(2, 1), number(3, 0) as u32),
        "coverage" => {
            let (dir, table) = (Path::new(&args[1]), Path::new(&args[2]));
            coverage::coverage(dir, table, number(3, 100_000), number(4, 1))
        }
        "cover" => {
            let (dir, table) = (Path::new(&args[1]), Path::new(&args[2]));
            cover::write(dir, table, number(4, 100_000), number(3, 1));
            true
        }
        "samples" => {
            samples::write(Path::new(&args[1]), number(2, 1));
            true
        }
        "replay" => samples::replay(Path::new(&args[1])) == 0,
        "moved" => {
            moved::moved(number(1, 100_000), number(2, 1));
            true
        }
        "registers" => registers::registers(number(1, 200_000), number(2, 1), number(3, 0) as u32),
        "orders" => orders::orders(number(1, 20_000), number(2, 1), number(3, 0) as u32),
        "sheets" => {
            write_sheets(number(1, 2_000), number(2, 1));
            true
        }
        "case" => {
            show(number(2, 1), number(1, 0));
            true
        }
        other => panic!("no such mode: {other}"),
    };
    std::process::exit(if ok { 0 } else { 1 });
}
