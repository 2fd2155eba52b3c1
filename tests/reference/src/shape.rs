//! Document 01, "Shape" and "Shape record": `extract`, its operations in its order; with the register and the issue of change
//! request 3.

use crate::bytes::*;
use crate::num::*;
use crate::plant::*;
use crate::query::{Query, FRAME};
use crate::register::measure;
use crate::Refusal;

/// "Issue bits follow `MeasureIssue` from bit 0"
pub const LOW_SNR: u16 = 1 << 1;
pub const CLIPPED: u16 = 1 << 2;
pub const TOO_SHORT: u16 = 1 << 3;
pub const COLD_START: u16 = 1 << 4;
pub const INVALID_REGISTER: u16 = 1 << 5;
pub const INVALID_EVIDENCE: u16 = 1 << 6;
pub const CREAKY_TAIL: u16 = 1 << 9;

pub struct Shape {
    pub start: u32,
    pub end: u32,
    pub contour: [f32; 10],
    pub weights: [f32; 10],
    pub mean: f32,
    pub slope: f32,
    pub curvature: f32,
    pub turning: Option<f32>,
    pub range: f32,
    pub duration_ms: f32,
    pub voiced_fraction: f32,
    pub f0_confidence: f32,
    pub issues: u16,
    /// Whether ColdStartRegister is kind 55's and not the query's own, for planted mistakes.
    pub set_cold: bool,
}

/// A voiced frame: its place in the track, semitones, voiced_p.
struct Voiced {
    at: usize,
    st: f64,
    p: f32,
}

/// Semitones over 55 Hz.
pub fn semitones(hz: f32) -> f64 {
    let st = 12.0 * log2(f64::from(hz) / 55.0);
    if planted(ST_NARROWED) {
        return f64::from(st as f32);
    }
    st
}

/// "frames with non-finite or non-positive hz are unvoiced"; "Where the voiced flag (0 or 1) is 0,
/// hz is ignored."
fn voiced_frames(q: &Query) -> Vec<Voiced> {
    let count = q.frames.len() / FRAME;
    let start = q.start as usize;
    let mut end = (q.end as usize).min(count);
    if planted(SPAN_END_INCLUDED) {
        end = (q.end as usize).saturating_add(1).min(count);
    }
    let (flag_ignored, zero_voiced) = (planted(FLAG_IGNORED), planted(HZ_ZERO_VOICED));
    let infinite_voiced = planted(HZ_INFINITE_VOICED);
    let p_gates = planted(VOICED_P_GATES);
    let mut voiced = Vec::with_capacity(end.saturating_sub(start));
    for at in start..end {
        let frame = &q.frames[FRAME * at..FRAME * at + FRAME];
        let hz = f32_at(frame, 2);
        let p = f32_at(frame, 6);
        let pitched = hz.is_finite() && hz > 0.0
            || zero_voiced && hz == 0.0
            || infinite_voiced && hz == f32::INFINITY;
        if (frame[1] == 1 || flag_ignored) && pitched && !(p_gates && p < 0.5) {
            voiced.push(Voiced { at, st: semitones(hz), p });
        }
    }
    voiced
}

/// The Chao value 1 + 4·(st − floor)/(ceil − floor); a width that is not finite or not above 0 is
/// read as 4.
fn chao(st: f64, floor: f32, ceil: f32) -> f64 {
    let floor = f64::from(floor);
    let width = if planted(WIDTH_IN_F32) {
        f64::from(ceil - floor as f32)
    } else {
        f64::from(ceil) - floor
    };
    let usable = if planted(WIDTH_NEGATIVE) {
        width.is_finite() && width != 0.0
    } else if planted(WIDTH_ZERO) {
        width.is_finite() && width >= 0.0
    } else if planted(WIDTH_INFINITE) {
        width > 0.0
    } else {
        width.is_finite() && width > 0.0
    };
    let width = if usable { width } else { 4.0 };
    if planted(CHAO_GROUPED) {
        return 1.0 + 4.0 / width * (st - floor);
    }
    1.0 + 4.0 * (st - floor) / width
}

/// The curve's value at t, on the straight lines between frames.
fn curve_at(curve: &[f64], t: f64) -> f64 {
    let i = (t.floor() as usize).min(curve.len() - 2);
    let f = t - i as f64;
    if planted(CURVE_GROUPED) {
        return curve[i] + f * (curve[i + 1] - curve[i]);
    }
    curve[i] * (1.0 - f) + curve[i + 1] * f
}

/// Mean of the curve over [a, b]; its value at a where b and a are less than 1e−9 apart.
fn window_mean(curve: &[f64], a: f64, b: f64) -> f64 {
    if b - a < 1e-9 {
        return curve_at(curve, a);
    }
    let grouped = planted(AREA_GROUPED);
    let (mut t0, mut v0) = (a, curve_at(curve, a));
    let mut next = a.floor() + 1.0;
    let mut area = 0.0;
    while t0 < b {
        let t1 = min64(next, b);
        let v1 = curve_at(curve, t1);
        if grouped {
            area += 0.5 * v0 * (t1 - t0) + 0.5 * v1 * (t1 - t0);
        } else {
            area += 0.5 * (v0 + v1) * (t1 - t0);
        }
        (t0, v0) = (t1, v1);
        next += 1.0;
    }
    area / (b - a)
}

/// Contour and weights of the ten points.
fn contour(curve: &[f64], is_voiced: &[bool]) -> ([f32; 10], [f32; 10]) {
    let n = curve.len();
    let last = (n - 1) as f64;
    let half = if planted(WINDOW_BY_LAST) {
        max64(0.05 * last, 0.5)
    } else if planted(WINDOW_NO_LEAST) {
        0.05 * n as f64
    } else {
        max64(0.05 * n as f64, 0.5)
    };
    let mut points = [0.0; 10];
    let mut weights = [0.0; 10];
    for k in 0..10 {
        let x =
            if planted(WINDOW_POSITION) { k as f64 * last / 9.0 } else { k as f64 / 9.0 * last };
        // Narrowing at the ends, symmetric about x.
        let w = min64(min64(half, x), last - x);
        let (a, b) = if planted(WINDOW_NOT_NARROWED) {
            (max64(x - half, 0.0), min64(x + half, last))
        } else {
            (x - w, x + w)
        };
        points[k] = if planted(CONTOUR_POINTWISE) {
            narrow(curve_at(curve, x))
        } else {
            narrow(window_mean(curve, a, b))
        };
        let low = if planted(WINDOW_FRAMES_ROUNDED) {
            a.round() as usize
        } else {
            max64((a - 1e-9).ceil(), 0.0) as usize
        };
        let high = min64((b + 1e-9).floor(), last) as usize;
        let (low, high) = if low <= high {
            (low, high)
        } else {
            let nearest = (x.round() as usize).min(n - 1);
            (nearest, nearest)
        };
        let count = is_voiced[low..=high].iter().filter(|&&v| v).count();
        weights[k] = narrow(count as f64 / (high - low + 1) as f64);
        if planted(WEIGHTS_ONE) {
            weights[k] = 1.0;
        }
    }
    (points, weights)
}

/// Slope of the least-squares line.
fn line_slope(points: &[(f64, f64)]) -> f64 {
    let n = points.len() as f64;
    let start = zero();
    let mx = points.iter().fold(start, |sum, p| sum + p.0) / n;
    let my = points.iter().fold(start, |sum, p| sum + p.1) / n;
    let sxx = points.iter().fold(start, |sum, p| sum + (p.0 - mx) * (p.0 - mx));
    let sxy = if planted(SLOPE_Y_UNCENTRED) {
        points.iter().fold(start, |sum, p| sum + (p.0 - mx) * p.1)
    } else {
        points.iter().fold(start, |sum, p| sum + (p.0 - mx) * (p.1 - my))
    };
    if sxx > 0.0 {
        sxy / sxx
    } else {
        0.0
    }
}

/// "sums here begin at +0"
fn zero() -> f64 {
    if planted(SUMS_FROM_MINUS_ZERO) {
        -0.0
    } else {
        0.0
    }
}

/// The leading coefficient of the least-squares quadratic.
fn quadratic(points: &[(f64, f64)]) -> f64 {
    let n = points.len() as f64;
    let mx = points.iter().fold(zero(), |sum, p| sum + p.0) / n;
    let mx = if planted(CURVATURE_UNCENTRED) { 0.0 } else { mx };
    let mut s = [0.0f64; 5];
    let mut t = [0.0f64; 3];
    for &(x, y) in points {
        let x = x - mx;
        let mut pow = 1.0;
        for k in 0..5 {
            s[k] += pow;
            if k < 3 {
                t[k] += pow * y;
            }
            pow *= x;
        }
    }
    solve([[s[4], s[3], s[2], t[2]], [s[3], s[2], s[1], t[1]], [s[2], s[1], s[0], t[0]]])
}

/// "The fit is a 3 by 4 grid of numbers whose rows change places": elimination with pivoting, the
/// last of equal pivots, and the first unknown by back-substitution; 0 where a pivot is below
/// 1e−12.
pub fn solve(mut m: [[f64; 4]; 3]) -> f64 {
    for col in 0..3 {
        let mut pivot = col;
        for row in col + 1..3 {
            let order = m[row][col].abs().total_cmp(&m[pivot][col].abs());
            if order.is_gt() || order.is_eq() && !planted(PIVOT_FIRST) {
                pivot = row;
            }
        }
        if planted(PIVOT_NONE) {
            pivot = col;
        }
        if m[pivot][col].abs() < 1e-12 {
            return 0.0;
        }
        m.swap(col, pivot);
        for row in col + 1..3 {
            let f = m[row][col] / m[col][col];
            for cell in col..4 {
                m[row][cell] -= f * m[col][cell];
            }
        }
    }
    let c = m[2][3] / m[2][2];
    let b = (m[1][3] - m[1][2] * c) / m[1][1];
    if planted(SOLVE_GROUPED) {
        return (m[0][3] - (m[0][2] * c + m[0][1] * b)) / m[0][0];
    }
    (m[0][3] - m[0][2] * c - m[0][1] * b) / m[0][0]
}

/// The extreme value (greatest for sign 1, least for −1) and the centre of its plateau.
fn extremum(curve: &[f64], sign: f64) -> (f64, f64) {
    let best = curve.iter().fold(f64::NEG_INFINITY, |best, &v| max64(best, sign * v));
    let eps = if planted(PLATEAU_EXACT) { 0.0 } else { 1e-9 };
    let near = |&v: &f64| sign * v >= best - eps;
    let first = curve.iter().position(near).unwrap_or(0);
    let last = curve.iter().rposition(near).unwrap_or(first);
    if planted(PLATEAU_FIRST) {
        return (sign * best, first as f64);
    }
    if planted(PLATEAU_LAST) {
        return (sign * best, last as f64);
    }
    (sign * best, 0.5 * (first + last) as f64)
}

/// Where the curve turns: its least or greatest value, if that lies inside (0.1, 0.9) and at least
/// 0.5 beyond both ends; of both, the larger excursion, of equal ones the last ("`max_by` keeps
/// the last").
pub fn turning_point(curve: &[f64]) -> Option<f64> {
    let n = curve.len();
    if n < 3 {
        return None;
    }
    let (first, last) = (curve[0], curve[n - 1]);
    let (least, low) = extremum(curve, -1.0);
    let (greatest, high) = extremum(curve, 1.0);
    let candidates = [
        (min64(first - least, last - least), low / (n - 1) as f64),
        (min64(greatest - first, greatest - last), high / (n - 1) as f64),
    ];
    let mut best: Option<(f64, f64)> = None;
    for (excursion, u) in candidates {
        let enough = if planted(TURN_ABOVE_HALF) { excursion > 0.5 } else { excursion >= 0.5 };
        let inside = u > 0.1 && u < 0.9
            || u == 0.1 && (planted(TURN_AT_BORDER) || planted(TURN_AT_FIRST_TENTH))
            || u == 0.9 && (planted(TURN_AT_BORDER) || planted(TURN_AT_LAST_TENTH));
        if !enough || !inside {
            continue;
        }
        let wins = match best {
            None => true,
            Some((most, _)) if planted(TURN_FIRST_OF_EQUAL) => excursion > most,
            Some(_) if planted(TURN_MINIMUM_FIRST) => false,
            Some((most, _)) => excursion >= most,
        };
        if wins {
            best = Some((excursion, u));
        }
    }
    best.map(|(_, u)| u)
}

/// The curve smoothed over three frames, two at the ends.
fn smoothed(curve: &[f64]) -> Vec<f64> {
    let n = curve.len();
    let start = zero();
    let by_three = planted(SMOOTH_BY_THREE);
    (0..n)
        .map(|j| {
            let window = &curve[j.saturating_sub(1)..=(j + 1).min(n - 1)];
            let count = if by_three { 3.0 } else { window.len() as f64 };
            window.iter().fold(start, |sum, v| sum + v) / count
        })
        .collect()
}

pub fn extract(q: &Query) -> Result<Shape, Refusal> {
    let voiced = voiced_frames(q);
    // "Fewer than 3 voiced frames: 11."
    let least = if planted(VOICED_2) {
        2
    } else if planted(VOICED_4) {
        4
    } else {
        3
    };
    if voiced.len() < least {
        return refuse(11, 0);
    }
    let with = measure(q);

    // The voiced part, its holes filled in semitones.
    let first = voiced[0].at;
    let n = voiced[voiced.len() - 1].at - first + 1;
    let mut st = vec![0.0f64; n];
    let mut is_voiced = vec![false; n];
    for v in &voiced {
        st[v.at - first] = v.st;
        is_voiced[v.at - first] = true;
    }
    let in_chao = planted(FILL_IN_CHAO);
    if in_chao {
        for s in &mut st {
            *s = chao(*s, with.floor, with.ceil);
        }
    }
    let (fill_grouped, fill_nearest) = (planted(FILL_GROUPED), planted(FILL_HELD));
    let mut prev = 0;
    for v in &voiced[1..] {
        let j = v.at - first;
        for g in prev + 1..j {
            let t = (g - prev) as f64 / (j - prev) as f64;
            st[g] = if fill_grouped {
                st[prev] * (1.0 - t) + st[j] * t
            } else if fill_nearest {
                st[prev]
            } else {
                st[prev] + t * (st[j] - st[prev])
            };
        }
        prev = j;
    }
    let mut curve = st;
    if !in_chao {
        for s in &mut curve {
            *s = chao(*s, with.floor, with.ceil);
        }
    }

    let (points, weights) = contour(&curve, &is_voiced);

    // Slope over seconds and curvature over the voiced part's time, on voiced frames only.
    let all = planted(FIT_FILLED_TOO);
    let place = |at: usize| at - first;
    let fitted: Vec<usize> =
        if all { (0..n).collect() } else { voiced.iter().map(|v| place(v.at)).collect() };
    let last = (n - 1) as f64;
    let by_hundred = planted(SLOPE_BY_HUNDRED);
    let seconds = |i: usize| if by_hundred { i as f64 / 100.0 } else { i as f64 * 0.01 };
    let by_seconds: Vec<(f64, f64)> = fitted.iter().map(|&i| (seconds(i), curve[i])).collect();
    let by_n = planted(CURVATURE_BY_N);
    let fraction = |i: usize| i as f64 / if by_n { n as f64 } else { last };
    let by_fraction: Vec<(f64, f64)> = fitted.iter().map(|&i| (fraction(i), curve[i])).collect();

    let turning = if planted(TURN_UNSMOOTHED) {
        turning_point(&curve)
    } else {
        turning_point(&smoothed(&curve))
    };

    let (low, high) = points.iter().fold((f32::INFINITY, f32::NEG_INFINITY), |(low, high), &c| {
        (min32(low, c), max32(high, c))
    });
    let span = if planted(SPAN_CLAMPED) {
        let count = (q.frames.len() / FRAME) as u32;
        q.end.min(count).saturating_sub(q.start)
    } else {
        q.end.saturating_sub(q.start)
    } as f32;
    let count = voiced.len() as f32;
    let mean = if planted(MEAN_IN_F64) {
        (points.iter().fold(0.0, |sum, &c| sum + f64::from(c)) / 10.0) as f32
    } else if planted(MEAN_TIMES_TENTH) {
        points.iter().fold(0.0f32, |sum, &c| sum + c) * 0.1
    } else {
        points.iter().fold(zero() as f32, |sum, &c| sum + c) / 10.0
    };
    let f0_confidence = if planted(CONFIDENCE_IN_F64) {
        (voiced.iter().fold(0.0, |sum, v| sum + f64::from(v.p)) / f64::from(count)) as f32
    } else {
        voiced.iter().fold(zero() as f32, |sum, v| sum + v.p) / count
    };

    // "First to last voiced count n < 8 adds TooShort to the issues."
    let measured = if planted(SHORT_BY_VOICED) { voiced.len() } else { n };
    let enough = if planted(SHORT_UNDER_7) {
        7
    } else if planted(SHORT_UNDER_9) {
        9
    } else {
        8
    };
    let mut issues = if planted(ISSUES_OWN_ONLY) { 0 } else { with.issues };
    if measured < enough && !planted(ISSUES_NO_SHORT) {
        issues |= TOO_SHORT;
    }
    Ok(Shape {
        start: q.start,
        end: q.end,
        contour: points,
        weights,
        mean,
        slope: narrow(line_slope(&by_seconds)),
        curvature: narrow(quadratic(&by_fraction)),
        turning: turning.map(narrow),
        range: if planted(RANGE_ENDS) { (points[9] - points[0]).abs() } else { high - low },
        duration_ms: if planted(DURATION_VOICED) { n as f32 } else { span } * 10.0,
        voiced_fraction: count / if planted(FRACTION_OF_N) { n as f32 } else { span },
        f0_confidence,
        issues,
        set_cold: q.cold && q.issues & COLD_START == 0,
    })
}

impl Shape {
    /// "Kind 51: span start, end u32; contour, weights 10 f32 each; mean, slope, curvature f32;
    /// turning flag u8 and f32; range, duration_ms, voiced_fraction, f0_confidence f32; issues u16"
    pub fn record(&self) -> Vec<u8> {
        let mut out = Vec::with_capacity(124);
        out.push(51);
        out.extend_from_slice(&self.start.to_le_bytes());
        out.extend_from_slice(&self.end.to_le_bytes());
        if planted(SHAPE_INTERLEAVED) {
            for k in 0..10 {
                put_f32(&mut out, self.contour[k]);
                put_f32(&mut out, self.weights[k]);
            }
        } else {
            for value in self.contour.iter().chain(&self.weights) {
                put_f32(&mut out, *value);
            }
        }
        for value in [self.mean, self.slope, self.curvature] {
            put_f32(&mut out, value);
        }
        out.push(u8::from(self.turning.is_some()));
        let absent = if planted(SHAPE_NO_TURN_NAN) { f32::NAN } else { 0.0 };
        put_f32(&mut out, self.turning.unwrap_or(absent));
        for value in [self.range, self.duration_ms, self.voiced_fraction, self.f0_confidence] {
            put_f32(&mut out, value);
        }
        let unset = planted(COLD_JUDGEMENT_ALONE) && self.set_cold;
        let issues = if unset {
            self.issues & !COLD_START
        } else if planted(SHAPE_INVALID_ONLY) && self.contour.iter().any(|c| !c.is_finite()) {
            INVALID_EVIDENCE
        } else {
            self.issues
        };
        out.extend_from_slice(&issues.to_le_bytes());
        out
    }
}
