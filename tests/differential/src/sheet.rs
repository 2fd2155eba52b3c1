//! Sheets that load and that no pack need have given.

use crate::pack::{self, Style, MAX, NORMAL};
use crate::pick;
use crate::rng::Rng;
use crate::tails;

fn put(out: &mut Vec<u8>, v: f32) {
    out.extend(v.to_le_bytes());
}

fn point(r: &mut Rng, style: Style) -> f32 {
    match r.below(12) {
        0 if style == Style::Wild => r.pick(&[128.0, -128.0, 127.999_99, -0.0]),
        _ => pack::knot(r, style),
    }
}

/// One list without its number: owner, form, label, count and components.
fn list(r: &mut Rng, style: Style, owners: &[u8], most: usize) -> (usize, Vec<u8>) {
    let form = r.range(1, 3) as u8;
    let count = if form == 3 {
        r.range(1, 4.min(most))
    } else {
        1
    };
    let mut out = vec![r.pick(owners), form];
    out.extend(
        if form == 1 {
            0
        } else {
            r.pick(&[0u16, 1, 2, 0xFFFF])
        }
        .to_le_bytes(),
    );
    out.push(count as u8);
    for _ in 0..count {
        out.push(22);
        let weight = match (form, style) {
            (1 | 2, _) => 1.0,
            (_, Style::Wild) => r.pick(&[0.0, MAX, NORMAL, 1.0, 0.5, 1.0e38]),
            _ => r.pick(&[0.0, 0.5, 0.25, 1.0]),
        };
        put(&mut out, weight);
        let level = point(r, style);
        let flat = r.chance(1, 2);
        for _ in 0..10 {
            let v = if flat { level } else { point(r, style) };
            put(&mut out, v);
        }
    }
    (count, out)
}

/// A sheet; with `past` its tones, accents, lists or components may pass their limit.
pub fn sheet(r: &mut Rng, past: bool) -> Vec<u8> {
    let style = pack::style(r);
    let full = past || r.chance(1, 30);
    let more = if past { r.pick(&[0, 0, 0, 1, 2]) } else { 0 };
    let tones = if full { 8 + more % 2 } else { r.range(1, 4) };
    let accents = if full { 8 + more / 2 } else { r.range(1, 3) };
    let mut out = vec![17];
    put(&mut out, pack::tolerance(r, style));
    put(&mut out, r.pick(&[0.25, 0.5, 1.0, 1.0e-45]));
    let mut numbers: Vec<u8> = Vec::new();
    while numbers.len() < tones {
        let v = pick!(r, 1, 2, 3, 255, r.byte());
        if v != 0 && !numbers.contains(&v) {
            numbers.push(v);
        }
    }
    for &n in &numbers {
        out.extend([18, n]);
        put(&mut out, r.pick(&[0.25, 1.0, 0.5, 1.0e-45]));
        let region = r.below(3);
        out.push(u8::from(region > 0));
        let (from, to) = [(0.0, 0.0), (0.25, 0.75), (-0.0, 0.0)][region];
        put(&mut out, from);
        put(&mut out, to);
        out.push(24);
        for _ in 0..2 {
            put(&mut out, tails::value(r));
        }
    }
    let mut held: Vec<u8> = Vec::new();
    while held.len() < accents {
        let v = pick!(r, 1, 2, 255, r.byte());
        if v != 0 && !held.contains(&v) {
            held.push(v);
        }
    }
    held.sort_unstable();
    for &n in &held {
        out.extend([19, n]);
        for _ in 0..4 {
            put(&mut out, pack::tolerance(r, style));
        }
    }

    let mut owners = held.clone();
    if r.chance(1, 12) {
        owners.push(r.byte());
    }
    let most = if past {
        r.pick(&[128, 129, 130, 200])
    } else {
        128
    };
    let components = if past { r.pick(&[192, 193, 300]) } else { 192 };
    let mut lists: Vec<Vec<u8>> = Vec::new();
    let mut used = 0;
    let eager = full || r.chance(1, 4);
    let mut name = |r: &mut Rng, lists: &mut Vec<Vec<u8>>| -> u8 {
        let more = lists.len() < most && used < components;
        let first = r.chance(if eager { 2 } else { 1 }, 4);
        if more && (first || lists.is_empty()) {
            for _ in 0..20 {
                let (count, new) = list(r, style, &owners, components - used);
                if !lists.contains(&new) {
                    used += count;
                    lists.push(new);
                    return lists.len() as u8;
                }
            }
        }
        if r.chance(1, 12) {
            0
        } else {
            r.range(1, lists.len().max(1)).min(lists.len()) as u8
        }
    };
    for &a in &held {
        for &t in &numbers {
            for p in 0..=tones {
                let prev = if p == 0 { 0 } else { numbers[p - 1] };
                let one = name(r, &mut lists);
                let two = name(r, &mut lists);
                out.extend([20, a, t, prev, one, two]);
            }
        }
    }
    for (i, list) in lists.iter().enumerate() {
        out.extend([21, (i + 1) as u8]);
        out.extend(list);
    }
    out.push(23);
    out
}

/// The accents and tones that a sheet holds.
pub fn held(sheet: &[u8]) -> (Vec<u8>, Vec<u8>) {
    let (mut accents, mut tones) = (Vec::new(), Vec::new());
    for at in crate::bytes::starts(sheet) {
        match sheet.get(at) {
            Some(18) => tones.push(sheet[at + 1]),
            Some(19) => accents.push(sheet[at + 1]),
            _ => {}
        }
    }
    (accents, tones)
}
