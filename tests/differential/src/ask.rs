//! The reference's answer to a call, in one form for all: the bytes, or number and place.

use crate::case::*;

pub type Answer = Result<Vec<u8>, (u8, u64)>;

fn checked(refusal: Option<reference::Refusal>) -> Answer {
    match refusal {
        None => Ok(Vec::new()),
        Some(r) => Err((r.number, r.place)),
    }
}

fn written(result: Result<Vec<u8>, reference::Refusal>) -> Answer {
    result.map_err(|r| (r.number, r.place))
}

pub fn component(
    owner: u8,
    form: u8,
    label: u16,
    part: u8,
    weight: u32,
    points: &[u32; 10],
    out: &mut Vec<u8>,
) {
    out.extend([owner, form]);
    out.extend(label.to_le_bytes());
    out.extend([part, 0]);
    out.extend(weight.to_le_bytes());
    for p in points {
        out.extend(p.to_le_bytes());
    }
}

fn looked(found: Option<Vec<reference::Component>>) -> Answer {
    let Some(found) = found else {
        return Err((14, 0));
    };
    let mut out = Vec::new();
    for c in &found {
        component(
            c.owner, c.form, c.label, c.part, c.weight, &c.points, &mut out,
        );
    }
    Ok(out)
}

pub fn canonical(v: f64) -> u64 {
    if v.is_nan() {
        0x7FF8_0000_0000_0000
    } else {
        v.to_bits()
    }
}

pub fn values(a: &[u8]) -> impl Iterator<Item = f64> + '_ {
    a.chunks_exact(8)
        .map(|c| f64::from_bits(u64::from_le_bytes(c.try_into().expect("8 bytes"))))
}

fn each(a: &[u8], f: fn(f64) -> f64) -> Answer {
    Ok(values(a)
        .flat_map(|v| canonical(f(v)).to_le_bytes())
        .collect())
}

pub fn narrow_bits(v: f32) -> u32 {
    if v.is_nan() {
        0x7FC0_0000
    } else {
        v.to_bits()
    }
}

/// The f32s that bytes hold.
pub fn floats(a: &[u8]) -> Vec<f32> {
    a.chunks_exact(4)
        .map(|k| f32::from_le_bytes(k.try_into().expect("4 bytes")))
        .collect()
}

/// Their bits, NaN as it is written.
pub fn bits_of(values: &[f32]) -> Vec<u8> {
    values
        .iter()
        .flat_map(|v| narrow_bits(*v).to_le_bytes())
        .collect()
}

pub fn reference_answer(c: &Call) -> Answer {
    let (a, b) = (&c.a[..], &c.b[..]);
    match c.call {
        CHECK_PACK => checked(reference::check_pack(a)),
        CHECK_QUERY => checked(reference::check_query(a)),
        CHECK_SHEET => checked(reference::check_sheet(a)),
        WRITE_SHAPE => written(reference::write_shape(a)),
        WRITE_SHEET => written(reference::write_sheet(a)),
        JUDGE => written(reference::judge(a, b)),
        JUDGE_SHEET => written(reference::judge_sheet(a, b)),
        LOOK_PACK => looked(reference::look_pack(a, b[0], b[1], b[2], b[3])),
        LOOK_SHEET => looked(reference::look_sheet(a, b[0], b[1], b[2], b[3])),
        LN => each(a, reference::ln),
        11 => each(a, reference::log2),
        12 => each(a, reference::exp),
        13 => each(a, reference::root),
        NARROW => Ok(values(a)
            .flat_map(|v| narrow_bits(reference::narrow(v)).to_le_bytes())
            .collect()),
        EXPAND_KNOTS => {
            let points = reference::expand_knots(&floats(a));
            Ok(points.iter().flat_map(|p| p.to_le_bytes()).collect())
        }
        MIN_MAX => {
            let all: Vec<f64> = values(a).collect();
            let mut out = Vec::new();
            for pair in all.chunks_exact(2) {
                let (x, y) = (pair[0], pair[1]);
                out.extend(canonical(reference::min64(x, y)).to_le_bytes());
                out.extend(canonical(reference::max64(x, y)).to_le_bytes());
                let (x, y) = (x as f32, y as f32);
                out.extend(narrow_bits(reference::min32(x, y)).to_le_bytes());
                out.extend(narrow_bits(reference::max32(x, y)).to_le_bytes());
            }
            Ok(out)
        }
        COLD_REGISTER => Ok(bits_of(&reference::register_of(a))),
        MIN_SPAN => {
            let ends = floats(a);
            Ok(bits_of(&reference::at_least_min_span(ends[0], ends[1])))
        }
        SOLVE => {
            let all: Vec<f64> = values(a).collect();
            let grid = std::array::from_fn(|i| std::array::from_fn(|j| all[4 * i + j]));
            Ok(canonical(reference::solve(grid)).to_le_bytes().to_vec())
        }
        _ => unreachable!("a call"),
    }
}
