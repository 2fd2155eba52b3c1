//! Damage to the bytes of a pack, a sheet or a query: a byte changed, cut, extended, records
//! doubled, exchanged or dropped, counts past their limits, fields out of their ranges.

use crate::bytes::{
    boundaries, fields, put_u16, put_u32, record_length, starts, u16_at, u32_at, Class,
};
use crate::pack::{Accent, Pack, Part, Rule, Tone};
use crate::pick;
use crate::rng::Rng;
use crate::tails;

/// One field of one record, to a boundary of its class mostly.
fn field(r: &mut Rng, b: &mut [u8]) {
    let all = starts(b);
    // Kinds first, so that the few records of a kind count as much as the many of another.
    let mut kinds: Vec<u8> = all[..all.len() - 1].iter().map(|&at| b[at]).collect();
    kinds.sort_unstable();
    kinds.dedup();
    kinds.retain(|&k| record_length(k) != Some(1));
    if kinds.is_empty() {
        return;
    }
    let kind = r.pick(&kinds);
    let here: Vec<usize> = all[..all.len() - 1]
        .iter()
        .copied()
        .filter(|&at| b[at] == kind)
        .collect();
    let (at, other) = (r.pick(&here), r.pick(&here));
    let mut all = fields(kind);
    if r.chance(1, 2) {
        // Classes first, so that a weight counts as much as ten knots.
        let mut classes: Vec<Class> = Vec::new();
        for (_, c) in &all {
            if !classes.contains(c) {
                classes.push(*c);
            }
        }
        let class = r.pick(&classes);
        all.retain(|f| f.1 == class);
    }
    if kind == 21 && r.chance(1, 4) {
        // Form and count at once.
        (b[at + 3], b[at + 6]) = (r.pick(&[0, 1, 2, 4, 9]), r.pick(&[0, 1, 2, 5]));
        return;
    }
    let (o, class) = r.pick(&all);
    let (to, from) = (at + o, other + o);
    match class {
        Class::Number | Class::Byte => {
            b[to] = match r.below(6) {
                0 => b[to].wrapping_add(1),
                1 => b[to].wrapping_sub(1),
                2 => b[from],
                3 => r.byte(),
                _ => r.pick(&[0, 0, 1, 2, 129, 255]),
            }
        }
        Class::Small => b[to] = r.pick(&[0, 1, 2, 3, 4, 255]),
        Class::Count(most) => {
            let near = [
                0,
                1,
                most - 1,
                most,
                most + 1,
                most + 1,
                255,
                b[to].wrapping_add(1),
                b[to].wrapping_sub(1),
            ];
            b[to] = r.pick(&near);
            // A knot count of 0 with no knots behind it.
            if most == 10 && b[to] == 0 && r.chance(1, 2) {
                b[to + 1..to + 41].fill(0);
            }
        }
        Class::Label => put_u16(b, to, r.next() as u16),
        Class::Issues => put_u16(b, to, 1 << pick!(r, 9, 10, 10, 15, r.below(16))),
        Class::Frames => {
            let old = u16_at(b, to);
            let new = r.pick(&[
                old.wrapping_add(1),
                old.wrapping_sub(1),
                0,
                1023,
                1024,
                1025,
                0xFFFF,
            ]);
            put_u16(b, to, new);
        }
        Class::Long => put_u32(b, to, pick!(r, 0, 1, u32::MAX, r.bits32())),
        _ => {
            let old = u32_at(b, to);
            let new = match r.below(10) {
                0 => old.wrapping_add(1),
                1 => old ^ 0x8000_0000,
                2 => r.bits32(),
                3 => u32_at(b, from),
                _ => r.pick(boundaries(class)),
            };
            put_u32(b, to, new);
        }
    }
}

fn slice(b: &[u8], all: &[usize], i: usize) -> Vec<u8> {
    b[all[i]..all[i + 1]].to_vec()
}

/// A record, or a part of one, that may stand anywhere.
fn stray(r: &mut Rng, b: &[u8], all: &[usize]) -> Vec<u8> {
    if all.len() > 1 && r.chance(3, 4) {
        return slice(b, all, r.below(all.len() - 1));
    }
    let kind = pick!(
        r,
        1,
        2,
        3,
        4,
        5,
        6,
        17,
        18,
        19,
        20,
        21,
        22,
        23,
        48,
        50,
        0,
        7,
        24,
        49,
        55,
        r.byte()
    );
    let n = record_length(kind).unwrap_or(1);
    let mut out = vec![kind];
    let zero = r.chance(1, 2);
    out.extend((1..n).map(|_| if zero { 0 } else { r.byte() }));
    out
}

fn once(r: &mut Rng, b: &mut Vec<u8>) {
    let all = starts(b);
    let records = all.len() - 1;
    match r.below(20) {
        0 | 1 if !b.is_empty() => {
            let at = r.below(b.len());
            b[at] = match r.below(4) {
                0 => b[at].wrapping_add(1),
                1 => b[at].wrapping_sub(1),
                2 => b[at] ^ 1 << r.below(8),
                _ => r.byte(),
            };
        }
        2 if !b.is_empty() => {
            let n = r.below(b.len());
            b.truncate(n);
        }
        3 => {
            let n = all[r.below(all.len())] + r.below(3);
            b.truncate(n.min(b.len()));
        }
        4 => match r.below(3) {
            0 => b.push(r.byte()),
            1 => b.extend(std::iter::repeat_n(r.byte(), r.range(1, 60))),
            _ => b.extend(stray(r, b, &all)),
        },
        5 | 6 if records > 0 => {
            // Doubled: where it stands, or elsewhere.
            let i = r.below(records);
            let copy = slice(b, &all, i);
            let at = if r.chance(1, 2) {
                all[i]
            } else {
                all[r.below(all.len())]
            };
            b.splice(at..at, copy);
        }
        7 | 8 if records > 1 => {
            let i = r.below(records);
            let j = match r.below(3) {
                0 => (i + 1) % records,
                1 => {
                    let alike: Vec<usize> =
                        (0..records).filter(|&j| b[all[j]] == b[all[i]]).collect();
                    r.pick(&alike)
                }
                _ => r.below(records),
            };
            let (i, j) = (i.min(j), i.max(j));
            let (one, two) = (slice(b, &all, i), slice(b, &all, j));
            b.splice(all[j]..all[j + 1], one);
            b.splice(all[i]..all[i + 1], two);
        }
        9 if records > 0 => {
            let i = r.below(records);
            b.drain(all[i]..all[i + 1]);
        }
        10 => {
            let at = all[r.below(all.len())];
            let new = stray(r, b, &all);
            b.splice(at..at, new);
        }
        11 if records > 0 => {
            let at = all[r.below(records)];
            b[at] = pick!(r, b[at].wrapping_add(1), b[at].wrapping_sub(1), r.byte());
        }
        _ => field(r, b),
    }
}

/// One damage, at times two or three.
pub fn damage(r: &mut Rng, b: &mut Vec<u8>) {
    let times = r.pick(&[1, 1, 1, 1, 1, 2, 2, 3]);
    for _ in 0..times {
        once(r, b);
    }
}

/// Parents that no accent has, or chains that never end: a ring of one to eight accents, with
/// others that lead into it or not, in any order.
pub fn entangle(r: &mut Rng, p: &mut Pack) {
    let most = pick!(r, 1, 2, 3, r.range(4, 8));
    while p.accents.len() < most {
        let number = fresh_accent(p);
        p.accents.push(Accent {
            number,
            parent: pick!(r, 0, p.accents[0].number),
            tolerances: [1.0; 4],
            rules: Vec::new(),
        });
    }
    r.shuffle(&mut p.accents);
    let n = p.accents.len();
    let what = r.below(8);
    if what < 5 {
        let ring = pick!(r, 1, 2.min(n), n, r.range(1, n));
        let mut order: Vec<usize> = (0..n).collect();
        r.shuffle(&mut order);
        for i in 0..n {
            let to = match r.below(4) {
                _ if i < ring => order[(i + 1) % ring],
                0 | 1 => order[r.below(i)],
                2 => {
                    p.accents[order[i]].parent = 0;
                    continue;
                }
                _ => continue,
            };
            p.accents[order[i]].parent = p.accents[to].number;
        }
    }
    if what > 3 {
        let at = pick!(r, 0, n - 1, r.below(n));
        p.accents[at].parent = fresh_accent(p);
    }
}

/// Tails out of range, out of place, doubled, left out or cut: kind 7 of a pack, kind 24 of a sheet.
pub fn mistailed(r: &mut Rng, b: &mut Vec<u8>) {
    let (tone, tail) = if b[0] == 1 { (2, 7) } else { (18, 24) };
    let all = starts(b);
    let of = |b: &[u8], kind: u8| -> Vec<usize> {
        let here = all[..all.len() - 1].iter().copied();
        here.filter(|&at| b[at] == kind).collect()
    };
    let (tones, held) = (of(b, tone), of(b, tail));
    let record = |kind: u8, values: [f32; 2]| {
        let values = values.into_iter().flat_map(f32::to_le_bytes);
        std::iter::once(kind).chain(values).collect::<Vec<u8>>()
    };
    let new = record(tail, [tails::value(r), tails::value(r)]);
    let length = |at: usize, b: &[u8]| record_length(b[at]).expect("a kind");
    let what = if held.is_empty() {
        r.below(2)
    } else {
        r.below(13)
    };
    match what {
        // Behind a tone, whose own is then the second; behind a record of any kind.
        0 => {
            let at = r.pick(&tones);
            let at = at + length(at, b);
            drop(b.splice(at..at, new));
        }
        1 | 2 => {
            let mut kinds: Vec<u8> = all[..all.len() - 1].iter().map(|&at| b[at]).collect();
            kinds.sort_unstable();
            kinds.dedup();
            let here = of(b, r.pick(&kinds));
            let at = r.pick(&here);
            let at = at + length(at, b);
            drop(b.splice(at..at, new));
        }
        3 | 4 => {
            let at = pick!(r, held[0], held[held.len() - 1], r.pick(&held));
            b.drain(at..at + 9);
        }
        5 => {
            let at = r.pick(&held) + r.range(0, 9);
            b.truncate(at);
        }
        6 => {
            let at = r.pick(&tones);
            let at = at + length(at, b);
            b.truncate(at);
        }
        // Another record in its place: mostly that of the other format.
        7 | 8 => {
            let (at, kind) = (r.pick(&held), r.pick(&[7, 24, 7, 24, 1, 17, 4, 20]));
            let mut other = record(kind, [0.0; 2]);
            other.truncate(record_length(kind).expect("a kind"));
            drop(b.splice(at..at + 9, other));
        }
        9 => {
            // An End behind it.
            let at = r.pick(&held) + 9;
            b.truncate(at);
            b.push(if tail == 7 { 6 } else { 23 });
        }
        _ => {
            let at = r.pick(&held) + r.pick(&[1, 5]);
            let bits = match r.below(4) {
                0 => r.bits32(),
                _ => r.pick(boundaries(Class::Tail)),
            };
            put_u32(b, at, bits);
        }
    }
    if r.chance(1, 10) {
        damage(r, b);
    }
}

/// A number that no accent has.
fn fresh_accent(p: &Pack) -> u8 {
    let free = |&n: &u8| p.accents.iter().all(|a| a.number != n);
    (1..=255).find(free).expect("a number")
}

/// What stands in End's place, or behind it: nothing, another kind, more bytes.
fn misended(r: &mut Rng, b: &mut Vec<u8>) {
    let end = b.len() - 1;
    match r.below(4) {
        0 => b.truncate(end),
        1 => b[end] = pick!(r, 0, 1, 2, 5, 7, r.byte()),
        _ => b.extend((0..r.range(1, 3)).map(|_| r.pick(&[6, 0, 3]))),
    }
}

/// Such parents, with what is judged before them or after.
pub fn misparented_pack(r: &mut Rng, pack: &Pack) -> Vec<u8> {
    let mut p = pack.clone();
    entangle(r, &mut p);
    let mut b = p.bytes();
    let end = b.len() - 1;
    match r.below(10) {
        0 | 1 => misended(r, &mut b),
        2 => damage(r, &mut b),
        // A rule without parts, so that End is not due; one about a tone that is not held; an
        // accent a second time, with another parent that is not there.
        3 => drop(b.splice(end..end, [4, 0, 0, 0, 0, 0, 2])),
        4 => {
            let tone = (1..=255).find(|&n| p.tones.iter().all(|t| t.number != n));
            let at = r.below(p.accents.len());
            p.accents[at].rules.insert(
                0,
                Rule {
                    label: 1,
                    tone: tone.expect("a number"),
                    prev: 0,
                    fin: 0,
                    form: 2,
                    parts: vec![Part {
                        weight: 1.0,
                        knots: vec![1.0],
                    }],
                },
            );
            b = p.bytes();
        }
        5 => {
            let mut again = p.accents[r.below(p.accents.len())].clone();
            (again.parent, again.rules) = (fresh_accent(&p), Vec::new());
            drop(b.splice(end..end, again.bytes()));
        }
        _ => {}
    }
    b
}

/// An accent that is doubled and has no parent, both at once or one of them.
pub fn confused_pack(r: &mut Rng, pack: &Pack) -> Vec<u8> {
    let mut p = pack.clone();
    let i = r.below(p.accents.len());
    let j = r.below(p.accents.len());
    let stray = r.byte();
    p.accents[i].parent = pick!(
        r,
        p.accents[i].number,
        p.accents[p.accents.len() - 1].number,
        stray
    );
    if r.chance(2, 3) {
        p.accents[i].number = p.accents[j].number;
    }
    p.bytes()
}

/// The lists of a sheet disordered: one equal to another, one too many, exchanged, renumbered, or
/// rows that name others.
pub fn disordered(r: &mut Rng, b: &mut Vec<u8>) {
    let all = starts(b);
    let of = |b: &[u8], kind: u8| -> Vec<usize> {
        (0..all.len() - 1).filter(|&i| b[all[i]] == kind).collect()
    };
    let (lists, rows, accents) = (of(b, 21), of(b, 20), of(b, 19));
    if rows.is_empty() || lists.is_empty() {
        return;
    }
    // A list with its components: from its record to the next list or the end.
    let reach = |i: usize| {
        let last = (i + 1..all.len() - 1)
            .find(|&j| b[all[j]] != 22)
            .unwrap_or(all.len() - 1);
        (all[i], all[last])
    };
    let one = reach(r.pick(&lists));
    let two = reach(r.pick(&lists));
    let (earlier, later) = (one.min(two), one.max(two));
    let end = reach(lists[lists.len() - 1]).1;
    match r.below(9) {
        // Equal to an earlier one, under its own number.
        0 => {
            let copy = b[earlier.0 + 2..earlier.1].to_vec();
            b.splice(later.0 + 2..later.1, copy);
        }
        // One more: equal to another, or changed in a bit, and named by no row.
        1 | 2 => {
            let mut copy = b[one.0..one.1].to_vec();
            copy[1] = (lists.len() + 1) as u8;
            if r.chance(1, 2) && copy[3] != 1 {
                copy[4] ^= 1;
            } else if r.chance(1, 2) {
                let at = copy.len() - 4 * r.range(1, 10);
                copy[at] ^= 1;
            }
            b.splice(end..end, copy);
        }
        3 => {
            let (a, c) = (
                b[earlier.0..earlier.1].to_vec(),
                b[later.0..later.1].to_vec(),
            );
            b.splice(later.0..later.1, a);
            b.splice(earlier.0..earlier.1, c);
        }
        4 => b[one.0 + 1] = pick!(r, b[two.0 + 1], lists.len() as u8 + 1, r.byte()),
        5 | 6 => {
            let at = all[r.pick(&rows)] + r.range(4, 5);
            b[at] = pick!(
                r,
                0,
                b[at].wrapping_add(1),
                r.range(1, lists.len()) as u8,
                lists.len() as u8 + 1
            );
        }
        7 => {
            let (i, j) = (all[r.pick(&rows)], all[r.pick(&rows)]);
            for k in 0..6 {
                b.swap(i + k, j + k);
            }
        }
        _ => {
            let (i, j) = (all[r.pick(&accents)], all[r.pick(&accents)]);
            for k in 0..18 {
                b.swap(i + k, j + k);
            }
        }
    }
}

/// A pack with one count at its limit or past it.
pub fn crowded_pack(r: &mut Rng, pack: &Pack) -> Vec<u8> {
    let mut p = pack.clone();
    let past = r.range(0, 2);
    let fresh = |taken: &dyn Fn(u8) -> bool| (1..=255u8).find(|&n| !taken(n)).expect("a number");
    let plain = Part {
        weight: 1.0,
        knots: vec![3.0],
    };
    let rule = |form: u8, parts: usize| Rule {
        label: 7,
        tone: 0,
        prev: 0,
        fin: 0,
        form,
        parts: vec![plain.clone(); parts],
    };
    let last = p.accents.len() - 1;
    match r.below(6) {
        0 => {
            while p.tones.len() < 8 + past {
                let number = fresh(&|n| p.tones.iter().any(|t| t.number == n));
                let number = if r.chance(1, 8) {
                    p.tones[0].number
                } else {
                    number
                };
                p.tones.push(Tone {
                    number,
                    prior: r.pick(&[0.5, 0.5, 2.0]),
                    knots: vec![1.0],
                    region: None,
                    tail: r.chance(1, 2).then(|| [tails::value(r), tails::value(r)]),
                });
            }
        }
        1 => {
            while p.accents.len() < 8 + past {
                let number = fresh(&|n| p.accents.iter().any(|a| a.number == n));
                p.accents.push(Accent {
                    number,
                    parent: r.pick(&[0, 0, number, p.accents[0].number]),
                    tolerances: [1.0; 4],
                    rules: Vec::new(),
                });
            }
        }
        2 => {
            for a in &mut p.accents {
                a.rules.truncate(6);
                for x in &mut a.rules {
                    x.parts.truncate(1);
                }
            }
            while p.rules() < 64 + past {
                p.accents[last].rules.push(rule(2, 1));
            }
        }
        3 => p.accents[last].rules.push(rule(3, 4 + past)),
        4 => p.accents[last].rules.push(rule(2, 1 + past)),
        _ => {
            for a in &mut p.accents {
                a.rules.truncate(4);
            }
            while p.parts() < 128 + past {
                let n = (128 + past - p.parts()).min(4);
                p.accents[last].rules.push(rule(3, n));
            }
        }
    }
    let mut b = p.bytes();
    match r.below(6) {
        0 => damage(r, &mut b),
        1 => {
            let n = r.range(b.len() * 3 / 4, b.len() - 1);
            b.truncate(n);
        }
        _ => {}
    }
    b
}

/// A query whose variants or frames are at their limit or past it.
pub fn crowded_query(r: &mut Rng, b: &mut Vec<u8>) {
    match r.below(4) {
        0 => b[23] = r.pick(&[4, 5, 6, 255]),
        1 => put_u16(b, 44, r.pick(&[1024, 1025, 1026, 0xFFFF])),
        2 => {
            let n = r.pick(&[1024, 1025]);
            let mut frame = vec![50, 1];
            frame.extend(110f32.to_le_bytes());
            frame.extend(1f32.to_le_bytes());
            b.truncate(46);
            put_u16(b, 44, n);
            for _ in 0..n {
                b.extend(&frame);
            }
        }
        _ => {
            // More, or fewer, frames than counted.
            let n = u16_at(b, 44);
            let new = r.pick(&[n.wrapping_add(1), n.wrapping_sub(1)]);
            put_u16(b, 44, new);
        }
    }
    if r.chance(1, 4) {
        damage(r, b);
    }
}
