//! Change request 3 of document 02: the register of a new speaker. `cold_register` of the Rust's register.rs, its operations in
//! their order, over the frames of a query.

use crate::bytes::f32_at;
use crate::num::narrow;
use crate::plant::*;
use crate::query::{Query, FRAME};
use crate::shape::{semitones, COLD_START, INVALID_REGISTER};

/// Floor, median and ceiling, in semitones.
#[derive(Clone, Copy)]
pub struct Register {
    pub floor: f32,
    pub median: f32,
    pub ceil: f32,
}

/// Below the 5th percentile, and above the 95th.
const MARGIN: f64 = 2.0;
/// "at least 4 st wide"
const LEAST: f32 = 4.0;
/// No frame lies outside of it.
pub const ALL: (u32, u32) = (0, u32::MAX);

/// What a query is measured with: floor, ceiling and the issues. Under kind 55 it "takes floor and ceiling from `cold_register`" and
/// "sets ColdStartRegister among the issues".
pub struct Measure {
    pub floor: f32,
    pub ceil: f32,
    pub issues: u16,
}

pub fn measure(q: &Query) -> Measure {
    let own = Measure { floor: q.floor, ceil: q.ceil, issues: q.issues };
    let bit = q.issues & COLD_START != 0;
    let cold = match () {
        _ if planted(COLD_ALWAYS) => true,
        _ if planted(COLD_BY_ISSUE) => q.cold || bit,
        _ if planted(COLD_BY_BOTH) => q.cold && bit,
        _ => q.cold,
    };
    if !cold {
        return own;
    }
    let values = voiced(q.frames, (q.start, q.end));
    let register = if planted(COLD_FALLBACK) { fallback() } else { of_values(values) };
    let width = f64::from(q.ceil) - f64::from(q.floor);
    let (keeps_floor, keeps_ceil) = match () {
        _ if planted(COLD_OWN_REGISTER) => (true, true),
        _ if planted(COLD_OWN_FLOOR) => (true, false),
        _ if planted(COLD_OWN_CEIL) => (false, true),
        _ if planted(COLD_OWN_USABLE) && width > 0.0 && width.is_finite() => (true, true),
        _ => (false, false),
    };
    Measure {
        floor: if keeps_floor { q.floor } else { register.floor },
        ceil: if keeps_ceil { q.ceil } else { register.ceil },
        issues: issues(q, &register),
    }
}

fn issues(q: &Query, register: &Register) -> u16 {
    match () {
        _ if planted(COLD_NO_ISSUE) => q.issues,
        _ if planted(COLD_BIT_5) => q.issues | INVALID_REGISTER,
        _ if planted(COLD_OWN_DROPPED) => COLD_START,
        _ if planted(COLD_CANCELLED) => q.issues ^ COLD_START,
        _ if planted(COLD_IF_LEAST) && register.ceil - register.floor > LEAST => q.issues,
        _ => q.issues | COLD_START,
    }
}

/// "the semitones of all its voiced frames, whatever its span, narrowed to f32": each f32 as an f64.
pub fn voiced(frames: &[u8], span: (u32, u32)) -> Vec<f64> {
    let count = frames.len() / FRAME;
    let (start, end) = (span.0 as usize, (span.1 as usize).min(count));
    let (from, to) = match () {
        _ if planted(COLD_SPAN) => (start, end),
        _ if planted(COLD_FROM_SPAN) => (start, count),
        _ if planted(COLD_TO_SPAN) => (0, end),
        _ if planted(COLD_NOT_FIRST) => (1, count),
        _ if planted(COLD_NOT_LAST) => (0, count.saturating_sub(1)),
        _ if planted(COLD_FIRST_256) => (0, count.min(256)),
        _ if planted(COLD_1023) => (0, count.min(1023)),
        _ => (0, count),
    };
    let value = |st: f64| if planted(COLD_WIDE) { st } else { f64::from(narrow(st)) };
    let (flag_ignored, unvoiced_zero) = (planted(COLD_FLAG_IGNORED), planted(COLD_UNVOICED_ZERO));
    let (any_pitch, p_gates) = (planted(COLD_NO_PITCH), planted(COLD_VOICED_P));
    let mut found: Vec<(usize, f64)> = Vec::new();
    for at in from..to {
        let frame = &frames[FRAME * at..FRAME * at + FRAME];
        let (hz, p) = (f32_at(frame, 2), f32_at(frame, 6));
        let pitched = hz.is_finite() && hz > 0.0 || any_pitch;
        if (frame[1] == 1 || flag_ignored) && pitched && !(p_gates && p < 0.5) {
            found.push((at, value(semitones(hz))));
        } else if unvoiced_zero {
            found.push((at, 0.0));
        }
    }
    if planted(COLD_FILLED) {
        return filled(&found);
    }
    found.iter().map(|f| f.1).collect()
}

/// A planted mistake alone has it: what lies between two voiced frames, on the straight line.
fn filled(found: &[(usize, f64)]) -> Vec<f64> {
    let mut all = Vec::new();
    for pair in found.windows(2) {
        let ((i, a), (j, b)) = (pair[0], pair[1]);
        all.extend((i..j).map(|g| a + (g - i) as f64 / (j - i) as f64 * (b - a)));
    }
    all.extend(found.last().map(|f| f.1));
    all
}

/// Percentile p of values in order, between the closest ranks.
fn percentile(sorted: &[f64], p: f64) -> f64 {
    let (n, last) = (sorted.len() as f64, (sorted.len() - 1) as f64);
    let rank = match () {
        _ if planted(COLD_OVER_N) => (p * n).min(last),
        _ if planted(COLD_OVER_MORE) => (p * (n + 1.0) - 1.0).clamp(0.0, last),
        _ if planted(COLD_MIDDLES) => (p * n - 0.5).clamp(0.0, last),
        _ if planted(COLD_RANK_IN_F32) => f64::from(p as f32) * last,
        _ => p * last,
    };
    let rank = match () {
        _ if planted(COLD_NEAREST_RANK) => rank.round(),
        _ if planted(COLD_LOWER_RANK) => rank.floor(),
        _ if planted(COLD_UPPER_RANK) => rank.ceil(),
        _ if planted(COLD_MEDIAN_LOWER) && p == 0.5 => rank.floor(),
        _ if planted(COLD_BETWEEN) && rank.fract() > 0.0 => rank.floor() + 0.5,
        _ => rank,
    };
    let low = rank.floor() as usize;
    let high = (low + 1).min(sorted.len() - 1);
    let (t, a, b) = (rank - low as f64, sorted[low], sorted[high]);
    match () {
        _ if planted(COLD_PERCENTILE_GROUPED) => a * (1.0 - t) + b * t,
        _ if planted(COLD_PERCENTILE_IN_F32) => {
            let (t, a, b) = (t as f32, a as f32, b as f32);
            f64::from(a + t * (b - a))
        }
        _ => a + t * (b - a),
    }
}

/// "The 5th, 50th and 95th percentiles of the finite values", or nothing if there are none.
fn p5_p50_p95(mut values: Vec<f64>) -> Option<[f64; 3]> {
    if !planted(COLD_NO_PITCH) {
        values.retain(|v| v.is_finite());
    }
    if values.is_empty() {
        return None;
    }
    match () {
        _ if planted(COLD_UNSORTED) => {}
        _ if planted(COLD_DESCENDING) => values.sort_by(|a, b| b.total_cmp(a)),
        _ if planted(COLD_BY_SIZE) => values.sort_by(|a, b| a.abs().total_cmp(&b.abs())),
        _ if planted(COLD_BY_BITS) => values.sort_by_key(|v| v.to_bits()),
        _ => values.sort_by(f64::total_cmp),
    }
    if planted(COLD_DISTINCT) {
        values.dedup();
    }
    let (low, high) = match () {
        _ if planted(COLD_TENTHS) => (0.1, 0.9),
        _ if planted(COLD_EXTREMES) => (0.0, 1.0),
        _ => (0.05, 0.95),
    };
    Some([low, 0.5, high].map(|p| percentile(&values, p)))
}

/// `cold_register` of semitones.
pub fn of_values(values: Vec<f64>) -> Register {
    let few = planted(COLD_FALLBACK_FEW) && values.len() < 3;
    let Some([p5, p50, p95]) = p5_p50_p95(values).filter(|_| !few) else {
        return fallback();
    };
    let (low, high) = match () {
        _ if planted(COLD_MEDIAN_FLOOR) => (p50, p95),
        _ if planted(COLD_MEDIAN_CEIL) => (p5, p50),
        _ => (p5, p95),
    };
    let (below, above) = match () {
        _ if planted(COLD_NO_MARGIN) => (0.0, 0.0),
        _ if planted(COLD_NO_MARGIN_BELOW) => (0.0, MARGIN),
        _ if planted(COLD_NO_MARGIN_ABOVE) => (MARGIN, 0.0),
        _ if planted(COLD_FLOOR_UP) => (-MARGIN, MARGIN),
        _ if planted(COLD_CEIL_DOWN) => (MARGIN, -MARGIN),
        _ if planted(COLD_MARGINS_INWARD) => (-MARGIN, -MARGIN),
        _ if planted(COLD_MARGIN_1) => (1.0, 1.0),
        _ => (MARGIN, MARGIN),
    };
    let (floor, ceil) = if planted(COLD_MARGIN_IN_F32) {
        (narrow(low) - below as f32, narrow(high) + above as f32)
    } else {
        (narrow(low - below), narrow(high + above))
    };
    at_least_min_span(Register { floor, median: narrow(p50), ceil })
}

/// "Widens the register symmetrically about its midpoint if it is narrower than 4 st", as f32 subtraction sees it.
pub fn at_least_min_span(mut r: Register) -> Register {
    if planted(COLD_MEDIAN_MIDDLE) {
        r.median = 0.5 * (r.floor + r.ceil);
    }
    let width = r.ceil - r.floor;
    let enough = match () {
        _ if planted(COLD_NOT_WIDENED) => true,
        _ if planted(COLD_WIDENED_AT_4) => width > LEAST,
        _ if planted(COLD_WIDTH_IN_F64) => f64::from(r.ceil) - f64::from(r.floor) >= 4.0,
        _ => width >= LEAST,
    };
    if enough {
        return r;
    }
    let (floor, ceil) = (f64::from(r.floor), f64::from(r.ceil));
    let half = 2.0;
    let middle = match () {
        _ if planted(COLD_ABOUT_MEDIAN) => f64::from(r.median),
        _ if planted(COLD_UP_ALONE) => floor + half,
        _ if planted(COLD_DOWN_ALONE) => ceil - half,
        _ if planted(COLD_MIDDLE_IN_F32) => f64::from(0.5 * (r.floor + r.ceil)),
        _ => 0.5 * (floor + ceil),
    };
    (r.floor, r.ceil) = (narrow(middle - half), narrow(middle + half));
    let step = narrow(middle.abs() + half) * f32::EPSILON;
    let step = if planted(COLD_STEP_TWICE) { 2.0 * step } else { step };
    let push = |r: &mut Register| match () {
        _ if planted(COLD_FLOOR_PUSHED) => r.floor -= step,
        _ if planted(COLD_CEIL_PUSHED) => r.ceil += step,
        _ if planted(COLD_STEP_NEXT) => (r.floor, r.ceil) = (r.floor.next_down(), r.ceil.next_up()),
        _ => (r.floor, r.ceil) = (r.floor - step, r.ceil + step),
    };
    let narrow_still = |r: &Register| match () {
        _ if planted(COLD_NOT_PUSHED) => false,
        _ if planted(COLD_PUSHED_AT_4) => r.ceil - r.floor <= LEAST,
        _ => r.ceil - r.floor < LEAST,
    };
    while narrow_still(&r) {
        push(&mut r);
    }
    if planted(COLD_PUSHED_ONCE_MORE) {
        push(&mut r);
    }
    r
}

/// "the fixed 90 / 150 / 250 Hz register"
fn fallback() -> Register {
    if planted(COLD_FALLBACK_ZERO) {
        return Register { floor: -2.0, median: 0.0, ceil: 2.0 };
    }
    let [floor, median, ceil] = [90.0, 150.0, 250.0].map(|hz| narrow(semitones(hz)));
    Register { floor, median, ceil }
}
