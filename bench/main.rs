//! The calls that are measured, each by the port and by another side on the same bytes.
//! - `bench`: for each line the call, what grows, its size, the units of work, the tries for each unit, the other side, and
//!   the port's time divided by the other's: of each the least of its rounds, which take turns.
//! - `bench count`: runs `counted` twice for each line, port then other, for callgrind.
//! Before a line is measured its two sides must give the same bytes.

use std::hint::black_box;
use std::rc::Rc;
use std::time::{Duration, Instant};

type In = *const u8;
type Out = *mut u8;
type Place = *mut u64;
type Check = unsafe extern "C" fn(In, u64, Place) -> u32;
type Write = unsafe extern "C" fn(In, u64, Out, u64, Place) -> u32;
type Judge = unsafe extern "C" fn(In, u64, In, u64, Out, u64, Place) -> u32;

extern "C" {
    fn tonekit_check_pack(pack: In, n: u64, place: Place) -> u32;
    fn tonekit_check_sheet(sheet: In, n: u64, place: Place) -> u32;
    fn tonekit_write_shape(query: In, n: u64, out: Out, m: u64, place: Place) -> u32;
    fn tonekit_write_sheet(pack: In, n: u64, out: Out, m: u64, place: Place) -> u32;
    fn tonekit_judge(p: In, l: u64, q: In, n: u64, out: Out, m: u64, place: Place) -> u32;
    fn tonekit_judge_sheet(s: In, l: u64, q: In, n: u64, out: Out, m: u64, place: Place) -> u32;
}

const FRAMES: [u16; 4] = [8, 30, 200, 1024];
const RULES: [u16; 5] = [0, 8, 16, 32, 64];
const STEPS: [u8; 4] = [1, 2, 4, 8];
const ROUNDS: usize = 25;
const COUNTED: usize = 10;
/// The longest output, a sheet.
const ROOM: usize = 13_338;

/// Bytes that last as long as the program.
type Bytes = &'static [u8];

fn keep(bytes: Vec<u8>) -> Bytes {
    bytes.leak()
}

/// A query for tone 1 of so many frames, every seventh unvoiced but for the first and the last.
fn query(frames: u16, accent: u8, prev: u8) -> Bytes {
    let mut q = vec![48, accent, 1, prev, 0];
    q.extend(0u32.to_le_bytes());
    q.extend(u32::from(frames).to_le_bytes());
    q.extend(0f32.to_le_bytes());
    q.extend(24f32.to_le_bytes());
    q.extend([0; 2 + 1 + 20]);
    q.extend(frames.to_le_bytes());
    for i in 0..frames {
        let t = f32::from(i) / f32::from(frames);
        let voiced = i % 7 != 3 || i == 0 || i + 1 == frames;
        q.extend([50, u8::from(voiced)]);
        q.extend((180.0 - 160.0 * t * (1.0 - t)).to_le_bytes());
        q.extend(0.9f32.to_le_bytes());
    }
    keep(q)
}

/// The query as a new speaker's: kind 55 behind its record, so that floor and ceiling are those of its frames.
fn cold(query: Bytes) -> Bytes {
    keep([&query[..46], &[55], &query[46..]].concat())
}

/// A knot count and so many knots, on a line that rises by step.
fn curve(p: &mut Vec<u8>, knots: u8, step: f32) {
    p.push(knots);
    for k in 0..10u8 {
        let knot = if k < knots { 1.0 + f32::from(k) * step } else { 0.0 };
        p.extend(knot.to_le_bytes());
    }
}

/// Settings, so many tones with a citation, and so many accents, each the parent of the next. The first has all the
/// rules, so that a lookup that finds no nearer one tries every rule. Rule r is for one tone after one other, a mixture
/// of two curves; its label is r, or 0 where labels are alike.
fn pack(tones: u8, knots: u8, accents: u8, rules: u16, alike: bool) -> Bytes {
    let mut p = vec![1];
    p.extend([1f32.to_le_bytes(), 0.5f32.to_le_bytes()].concat());
    for tone in 1..=tones {
        p.extend([2, tone]);
        p.extend((1.0 / f32::from(tones)).to_le_bytes());
        curve(&mut p, knots, f32::from(tone) / 4.0);
        p.extend([0; 9]);
    }
    for accent in 1..=accents {
        p.extend([3, accent, accent - 1]);
        p.extend([1f32.to_le_bytes(); 4].concat());
        for rule in (0..rules).filter(|_| accent == 1) {
            let (tone, prev) =
                (rule % u16::from(tones), rule / u16::from(tones) % u16::from(tones));
            p.push(4);
            p.extend(if alike { 0 } else { rule }.to_le_bytes());
            p.extend([tone as u8 + 1, prev as u8 + 1, 0, 3]);
            for part in 0..2u16 {
                p.push(5);
                p.extend(0.5f32.to_le_bytes());
                curve(&mut p, knots, f32::from(rule + part) / 64.0);
            }
        }
    }
    p.push(6);
    keep(p)
}

/// One side of a line: writes its output and says how long it is.
type Side = Rc<dyn Fn(&mut [u8]) -> usize>;

fn check(call: Check, input: Bytes) -> Side {
    Rc::new(move |_| {
        let mut place = 0;
        // The slice is live and its length is right; so below.
        assert_eq!(unsafe { call(input.as_ptr(), input.len() as u64, &mut place) }, 0);
        0
    })
}

fn write(call: Write, input: Bytes) -> Side {
    Rc::new(move |out| {
        let mut n = 0;
        let (from, to) = (input.as_ptr(), out.as_mut_ptr());
        assert_eq!(unsafe { call(from, input.len() as u64, to, out.len() as u64, &mut n) }, 0);
        n as usize
    })
}

fn judge(call: Judge, held: Bytes, query: Bytes) -> Side {
    Rc::new(move |out| {
        let mut n = 0;
        let (held, l) = (held.as_ptr(), held.len() as u64);
        let (from, to) = (query.as_ptr(), out.as_mut_ptr());
        let m = out.len() as u64;
        assert_eq!(unsafe { call(held, l, from, query.len() as u64, to, m, &mut n) }, 0);
        n as usize
    })
}

/// A side that answers with bytes.
fn answer<T: AsRef<[u8]>, E: std::fmt::Debug>(f: impl Fn() -> Result<T, E> + 'static) -> Side {
    Rc::new(move |out| {
        let bytes = f().expect("an answer");
        let n = bytes.as_ref().len();
        out[..n].copy_from_slice(bytes.as_ref());
        n
    })
}

/// A side that only reads.
fn read<T>(f: impl Fn() -> T + 'static) -> Side {
    Rc::new(move |_| {
        black_box(f());
        0
    })
}

/// What is called, what grows and how far; the units of work, and what is tried for each.
#[derive(Clone, Copy)]
struct Work {
    call: &'static str,
    grows: &'static str,
    size: u64,
    units: u64,
    tries: u64,
}

fn work(call: &'static str, grows: &'static str, size: impl Into<u64>, units: usize) -> Work {
    Work { call, grows, size: size.into(), units: units as u64, tries: 1 }
}

fn frames(call: &'static str, n: u16) -> Work {
    work(call, "frames", n, usize::from(n))
}

struct Line {
    work: Work,
    against: &'static str,
    port: Side,
    other: Side,
}

#[derive(Default)]
struct Table(Vec<Line>);

impl Table {
    /// A line for each other side.
    fn add<const N: usize>(&mut self, work: Work, port: Side, others: [(&'static str, Side); N]) {
        for (against, other) in others {
            let port = port.clone();
            self.0.push(Line { work, against, port, other });
        }
    }

    /// Judging with a pack: the Rust from bytes, and with its pack and query built before.
    fn judging(&mut self, work: Work, held: Bytes, q: Bytes) {
        let (pack, built) = (oracle::Pack::read(held), oracle::Query::read(q));
        self.add(
            work,
            judge(tonekit_judge, held, q),
            [
                ("Rust", answer(move || oracle::judge(held, q))),
                ("Rust-built", answer(move || pack.judge(&built))),
            ],
        );
    }

    /// Judging with a pack's sheet: the Rust with the pack, and the port with the pack.
    fn judging_sheet(&mut self, work: Work, held: Bytes, q: Bytes) {
        self.add(
            work,
            judge(tonekit_judge_sheet, sheet_of(held), q),
            [
                ("Rust", answer(move || oracle::judge(held, q))),
                ("port-pack", judge(tonekit_judge, held, q)),
            ],
        );
    }

    /// Reading a pack: units are bytes.
    fn reading(&mut self, work: Work, p: Bytes) {
        self.add(
            work,
            check(tonekit_check_pack, p),
            [
                ("Rust", read(move || oracle::Pack::read(p))),
                ("reference", read(move || reference::check_pack(p))),
            ],
        );
    }

    /// Writing a sheet: units are contexts, and for each the rules and the tones are tried.
    fn writing(&mut self, grows: &'static str, size: u64, [tones, accents]: [u8; 2], rules: u16) {
        let p = pack(tones, 5, accents, rules, grows == "alike");
        let [t, a] = [tones, accents].map(usize::from);
        let contexts = work("write-sheet", grows, size, a * t * (t + 1) * 2);
        self.add(
            Work { tries: u64::from(rules) + t as u64, ..contexts },
            write(tonekit_write_sheet, p),
            [
                ("Rust-lookups", answer(move || Ok::<_, u8>(oracle::sheet(p)))),
                ("reference", answer(move || reference::write_sheet(p))),
            ],
        );
    }
}

fn sheet_of(pack: Bytes) -> Bytes {
    let mut out = vec![0; ROOM];
    let n = write(tonekit_write_sheet, pack)(&mut out);
    out.truncate(n);
    keep(out)
}

fn table() -> Table {
    let mut t = Table::default();
    for n in FRAMES {
        let q = query(n, 1, 0);
        let built = oracle::Query::read(q);
        t.add(
            frames("shape", n),
            write(tonekit_write_shape, q),
            [
                ("Rust", answer(move || oracle::shape(q))),
                ("Rust-built", answer(move || built.shape())),
            ],
        );
    }
    let small = pack(5, 3, 1, 0, false);
    let large = pack(8, 5, 8, 64, false);
    for n in FRAMES {
        t.judging(frames("judge-5", n), small, query(n, 1, 0));
    }
    for n in FRAMES {
        t.judging(frames("judge-64", n), large, query(n, 8, 1));
    }
    for n in FRAMES {
        let q = cold(query(n, 1, 0));
        t.add(
            frames("shape-cold", n),
            write(tonekit_write_shape, q),
            [("Rust", answer(move || oracle::shape(q)))],
        );
    }
    for n in FRAMES {
        let q = cold(query(n, 1, 0));
        t.add(
            frames("judge-5-cold", n),
            judge(tonekit_judge, small, q),
            [("Rust", answer(move || oracle::judge(small, q)))],
        );
    }
    for rules in RULES {
        t.judging(work("judge", "rules", rules, 1), pack(8, 5, 8, rules, false), query(8, 8, 1));
    }
    for n in FRAMES {
        t.judging_sheet(frames("judge-5-sheet", n), small, query(n, 1, 0));
    }
    for n in FRAMES {
        t.judging_sheet(frames("judge-64-sheet", n), large, query(n, 8, 1));
    }
    t.reading(work("read-pack-5", "rules", 0u8, small.len()), small);
    for rules in RULES {
        let p = pack(8, 5, 8, rules, false);
        t.reading(work("read-pack", "rules", rules, p.len()), p);
    }
    for grows in ["rules", "alike"] {
        for rules in RULES {
            t.writing(grows, u64::from(rules), [8, 8], rules);
        }
    }
    for n in STEPS {
        t.writing("accents", u64::from(n), [8, n], 32);
    }
    for n in STEPS {
        t.writing("tones", u64::from(n), [n, 8], 32);
    }
    for rules in RULES {
        let s = sheet_of(pack(8, 5, 8, rules, false));
        t.add(
            work("read-sheet", "rules", rules, s.len()),
            check(tonekit_check_sheet, s),
            [("reference", read(move || reference::check_sheet(s)))],
        );
    }
    t
}

/// What callgrind counts: its name must stay.
#[no_mangle]
#[inline(never)]
fn counted(side: &Side, out: &mut [u8]) {
    for _ in 0..COUNTED {
        black_box(side(out));
    }
}

fn round(side: &Side, calls: u32, out: &mut [u8]) -> Duration {
    let start = Instant::now();
    for _ in 0..calls {
        black_box(side(out));
    }
    start.elapsed()
}

/// The port's time divided by the other side's.
fn time(line: &Line, out: &mut [u8]) -> f64 {
    let ten = round(&line.port, 10, out);
    let calls = (10_000_000 / ten.as_nanos() as u32).clamp(1, 2000);
    let mut least = [Duration::MAX; 2];
    for _ in 0..ROUNDS {
        for (side, least) in [&line.port, &line.other].into_iter().zip(&mut least) {
            *least = round(side, calls, out).min(*least);
        }
    }
    least[0].as_secs_f64() / least[1].as_secs_f64()
}

fn main() {
    let count = std::env::args().nth(1).as_deref() == Some("count");
    let (mut out, mut other) = (vec![0; ROOM], vec![0; ROOM]);
    for line in &table().0 {
        let (n, m) = ((line.port)(&mut out), (line.other)(&mut other));
        let Line { work: Work { call, grows, size, units, tries }, against, .. } = line;
        assert_eq!(out[..n], other[..m], "{call}, {size} {grows}: port and {against} differ");
        if count {
            counted(&line.port, &mut out);
            counted(&line.other, &mut out);
        } else {
            println!("{call} {grows} {size} {units} {tries} {against} {:.2}", time(line, &mut out));
        }
    }
}
