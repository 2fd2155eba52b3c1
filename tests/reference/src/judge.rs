//! Document 01, "Judgement": `judge` after `extract`, in the order of refusals of "Turned back"; with change request 2 of
//! document 02, creaky tails.

use crate::bytes::*;
use crate::list::{List, Source, Tone};
use crate::num::*;
use crate::plant::*;
use crate::query::Query;
use crate::shape::*;
use crate::Refusal;

/// Log-likelihoods are within ±1,000,000.
const CLAMP: f64 = 1.0e6;

/// A log value within ±1,000,000 as f32; NaN is the lower bound.
fn clamp_log(v: f64) -> f32 {
    if v.is_nan() {
        return narrow(-CLAMP);
    }
    narrow(if v < -CLAMP {
        -CLAMP
    } else if v > CLAMP {
        CLAMP
    } else {
        v
    })
}

/// "the greatest score and the running sum"
#[derive(Clone, Copy)]
struct LogSumExp {
    greatest: f64,
    sum: f64,
}

impl LogSumExp {
    const EMPTY: LogSumExp = LogSumExp { greatest: f64::NEG_INFINITY, sum: 0.0 };

    fn with(self, v: f64) -> LogSumExp {
        if v == f64::NEG_INFINITY {
            return self;
        }
        if v > self.greatest {
            LogSumExp { greatest: v, sum: self.sum * exp(self.greatest - v) + 1.0 }
        } else {
            LogSumExp { greatest: self.greatest, sum: self.sum + exp(v - self.greatest) }
        }
    }

    fn value(self) -> f64 {
        if planted(SUM_NAN_GREATEST) && self.sum.is_nan() {
            return self.greatest;
        }
        if self.sum > 0.0 {
            self.greatest + ln(self.sum)
        } else {
            f64::NEG_INFINITY
        }
    }
}

/// A component to be scored, with the tone it realises.
#[derive(Clone, Copy)]
struct Candidate<'a> {
    tone: usize,
    list: &'a List,
    part: usize,
    weight: f32,
    /// The planted mistake alone uses it: the product in f64.
    wide: f64,
}

/// "either a scored mixture with its distance, or nothing to score"
enum Mixture {
    Scored { ll: f64, best: usize, d2: f64 },
    Nothing,
}

struct Judge<'a, S: Source> {
    source: &'a S,
    accent: usize,
    shape: &'a Shape,
    /// The tone of the target, for a planted mistake.
    target: usize,
}

impl<S: Source> Judge<'_, S> {
    /// "b … is 1 if any of LowSnr, Clipped or ColdStartRegister is set and 0 otherwise"
    fn poor(&self) -> u16 {
        let late = planted(COLD_AFTER_SCORING) && self.shape.set_cold;
        let issues = self.shape.issues & if late { !COLD_START } else { !0 };
        let set = |issue: u16| u16::from(issues & issue != 0);
        let (low, clipped, cold) = (set(LOW_SNR), set(CLIPPED), set(COLD_START));
        match () {
            _ if planted(WIDEN_SHORT) => low | clipped | cold | set(TOO_SHORT),
            _ if planted(WIDEN_NOT_CLIPPED) => low | cold,
            _ if planted(WIDEN_NOT_COLD) => low | clipped,
            _ if planted(WIDEN_NOT_LOW_SNR) => clipped | cold,
            _ if planted(WIDEN_COUNTED) => low + clipped + cold,
            _ if planted(WIDEN_SHORT_FOR_COLD) => low | clipped | set(TOO_SHORT),
            _ if planted(WIDEN_CANCELLED) => low ^ clipped ^ cold,
            _ if planted(WIDEN_BY_ALL) => low & clipped & cold,
            _ if planted(WIDEN_BY_VALUE) => issues & (LOW_SNR | CLIPPED | COLD_START),
            _ if planted(WIDEN_BIT_EARLY) => {
                set(LOW_SNR >> 1) | set(CLIPPED >> 1) | set(COLD_START >> 1)
            }
            _ => low | clipped | cold,
        }
    }

    /// "1 + 0.5 × b", in f32.
    fn widen(&self) -> f64 {
        let more = if planted(WIDEN_TWICE) { 1.25 } else { 0.5 };
        f64::from(1.0 + more * f32::from(self.poor()))
    }

    fn too_short(&self) -> bool {
        self.shape.issues & TOO_SHORT != 0
    }

    /// "Tolerances are the graded accent's, also for inherited rules." Contour, onset, offset and
    /// turning, each widened.
    fn scales(&self, list: &List) -> [f64; 4] {
        let widen = self.widen();
        let accent = if planted(OWNER_TOLERANCES) {
            self.source.accent(list.owner).unwrap_or(self.accent)
        } else {
            self.accent
        };
        let t = self.source.tolerances(accent);
        let t = if planted(ONSET_OFFSET_SWAPPED) { [t[0], t[2], t[1], t[3]] } else { t };
        if planted(WIDEN_IN_F32) {
            return t.map(|v| f64::from(v * widen as f32));
        }
        t.map(|v| f64::from(v) * widen)
    }

    /// log p and d² of one component.
    fn component(&self, c: &Candidate) -> (f64, f64) {
        let x = self.shape;
        let points = &c.list.points[c.part];
        let [contour, onset, offset, _] = self.scales(c.list);
        let d_on = f64::from(x.contour[0]) - f64::from(points[0]);
        let d_off = f64::from(x.contour[9]) - f64::from(points[9]);
        let mut d2 = if planted(D2_RATIO_SQUARED) {
            0.5 * (d_on / onset) * (d_on / onset) + 0.5 * (d_off / offset) * (d_off / offset)
        } else if planted(D2_NO_HALF) {
            d_on * d_on / (onset * onset) + d_off * d_off / (offset * offset)
        } else if planted(D2_CONTOUR_WIDTH) {
            0.5 * d_on * d_on / (contour * contour) + 0.5 * d_off * d_off / (contour * contour)
        } else {
            0.5 * d_on * d_on / (onset * onset) + 0.5 * d_off * d_off / (offset * offset)
        };
        if !self.too_short() || planted(SHORT_CONTOUR_TERM) {
            if let Some(mean) = self.weighted_mean_square(c, points) {
                d2 += mean / (contour * contour);
            }
        }
        let log = if planted(LOG_SUMMED) {
            ln(contour) + ln(onset) + ln(offset)
        } else if planted(LOG_UNWIDENED) {
            let w = self.widen();
            ln(contour / w * (onset / w) * (offset / w))
        } else {
            ln(contour * onset * offset)
        };
        (-0.5 * d2 - log, d2)
    }

    /// Σ w r² / Σ w over the contour, w = max(v, 0.25); points voiced below 0.5 inside the region
    /// of the component's own tone carry no weight.
    fn weighted_mean_square(&self, c: &Candidate, points: &[f32; 10]) -> Option<f64> {
        let x = self.shape;
        let tone = if planted(REGION_OF_TARGET) { self.target } else { c.tone };
        let tone: Tone = self.source.tones()[tone];
        let (mut weighted, mut total) = (0.0f64, 0.0f64);
        for k in 0..10 {
            let voiced = x.weights[k];
            let u = k as f32 / 9.0;
            let inside = if planted(REGION_OPEN) {
                tone.from < u && u < tone.to
            } else if planted(REGION_IN_F64) {
                let u = k as f64 / 9.0;
                f64::from(tone.from) <= u && u <= f64::from(tone.to)
            } else if planted(REGION_BY_TENTHS) {
                let u = k as f32 / 10.0;
                tone.from <= u && u <= tone.to
            } else {
                tone.from <= u && u <= tone.to
            };
            let faint = if planted(FAINT_AT_HALF) { voiced <= 0.5 } else { voiced < 0.5 };
            let excused = faint && tone.flag == 1 && inside && !planted(REGION_UNUSED);
            let w = if excused {
                0.0
            } else if planted(WEIGHT_NO_LEAST) {
                f64::from(voiced)
            } else {
                f64::from(max32(voiced, 0.25))
            };
            let r = f64::from(x.contour[k]) - f64::from(points[k]);
            if planted(SQUARE_GROUPED) {
                weighted += w * (r * r);
            } else {
                weighted += w * r * r;
            }
            total += w;
        }
        (total > 0.0).then(|| weighted / total)
    }

    /// The log-sum over components with weight above 0, and the first of the best.
    fn mixture(&self, candidates: &[Candidate]) -> Mixture {
        let mut total = LogSumExp::EMPTY;
        let mut best: Option<(f64, usize, f64)> = None;
        for (index, c) in candidates.iter().enumerate() {
            if c.weight <= 0.0 && !planted(ZERO_WEIGHT_SCORED) {
                continue;
            }
            let (ll, d2) = self.component(c);
            let weight = if planted(PRODUCTS_IN_F64) { c.wide } else { f64::from(c.weight) };
            let score = if planted(BEST_UNWEIGHTED) { ll } else { ln(weight) + ll };
            total = total.with(ln(weight) + ll);
            let better = match best {
                None => true,
                Some((most, ..)) if planted(BEST_LAST_EQUAL) => score >= most,
                Some((.., least)) if planted(BEST_BY_DISTANCE) => d2 < least,
                Some((most, ..)) => score > most,
            };
            if better {
                best = Some((score, index, d2));
            }
        }
        let ll = if planted(MIXTURE_MAXIMUM) { total.greatest } else { total.value() };
        match best {
            Some((_, best, d2)) => Mixture::Scored { ll, best, d2 },
            None => Mixture::Nothing,
        }
    }

    /// Divided by the temperature, then clamped; nothing to score is −infinity.
    fn calibrated(&self, mixture: &Mixture) -> f64 {
        let temperature = f64::from(self.source.settings().0);
        match mixture {
            Mixture::Scored { ll, .. } if planted(CLAMP_BEFORE_TEMPERATURE) => {
                f64::from(clamp_log(*ll)) / temperature
            }
            Mixture::Scored { ll, .. } if planted(NO_TEMPERATURE) => *ll,
            Mixture::Scored { ll, .. } => ll / temperature,
            Mixture::Nothing => f64::NEG_INFINITY,
        }
    }

    /// At most two differences beyond one tolerance, the largest first; kinds in `DeltaKind` order
    /// from 1.
    fn deltas(&self, c: &Candidate) -> Vec<(u8, f32)> {
        let x = self.shape;
        let points = &c.list.points[c.part];
        let mut scales = self.scales(c.list);
        if planted(DELTAS_UNWIDENED) {
            let widen = self.widen();
            scales = scales.map(|s| s / widen);
        }
        let [contour, onset, offset, turning] = scales;
        let mut found: Vec<(f64, u8, f32)> = Vec::with_capacity(4);
        let mut offer = |z: f64, kind: u8, amount: f64| {
            let amount = narrow(amount);
            let beyond = if planted(DELTA_AT_ONE) { z.abs() >= 1.0 } else { z.abs() > 1.0 };
            if z.is_finite() && beyond && amount.is_finite() {
                found.push((z.abs(), kind, amount));
            }
        };
        let d_on = f64::from(x.contour[0]) - f64::from(points[0]);
        let start = if (d_on < 0.0) != planted(START_SWAPPED) { 1 } else { 2 };
        let amount = if planted(DELTA_IN_TOLERANCES) { d_on.abs() / onset } else { d_on.abs() };
        offer(d_on / onset, start, amount);
        let d_off = f64::from(x.contour[9]) - f64::from(points[9]);
        let end = if (d_off < 0.0) != planted(END_SWAPPED) { 3 } else { 4 };
        offer(d_off / offset, end, d_off.abs());
        // Under TooShort only the ends are compared.
        if !self.too_short() || planted(SHORT_ALL_DELTAS) {
            let curve = points.map(f64::from);
            if let (Some(xu), Some(mut cu)) = (x.turning, turning_point(&curve)) {
                if planted(TURN_NARROWED) {
                    cu = f64::from(cu as f32);
                }
                let du = f64::from(xu) - cu;
                let kind = if (du > 0.0) != planted(TURN_SWAPPED) { 5 } else { 6 };
                let amount = if planted(TURN_NOT_IN_MS) {
                    du.abs()
                } else {
                    du.abs() * f64::from(x.duration_ms)
                };
                offer(du / turning, kind, amount);
            }
            let (low, high) =
                curve.iter().fold((f64::INFINITY, f64::NEG_INFINITY), |(low, high), &v| {
                    (min64(low, v), max64(high, v))
                });
            let expected = if planted(RANGE_IN_F32) {
                f64::from(high as f32 - low as f32)
            } else {
                high - low
            };
            let d_range = f64::from(x.range) - expected;
            let kind = if (d_range < 0.0) != planted(RANGE_SWAPPED) { 7 } else { 8 };
            let scale = if planted(RANGE_BY_ONSET) { onset } else { contour };
            offer(d_range / scale, kind, d_range.abs());
        }
        // Stable: equal ones keep the order onset, offset, turning, range.
        if planted(DELTA_LAST_OF_EQUAL) {
            found.reverse();
        }
        if !planted(DELTAS_UNSORTED) {
            found.sort_by(|a, b| b.0.total_cmp(&a.0));
        }
        let keep = if planted(DELTA_ONE) { 1 } else { 2 };
        found.iter().take(keep).map(|&(_, kind, amount)| (kind, amount)).collect()
    }
}

/// "15 bad variant: weight below 0 or not finite (−0 passes), or 1 − sum < −1e−6, in f32".
/// The main tone's weight, at least 0, or none.
fn main_weight(q: &Query) -> Option<f32> {
    let variants = &q.variants[..q.variant_count];
    let mut sum = 0.0f32;
    for &(_, weight) in variants {
        let good = if planted(VARIANT_MINUS_ZERO) {
            weight.is_finite() && weight.is_sign_positive()
        } else if planted(VARIANT_NAN) {
            !(weight < 0.0) && weight != f32::INFINITY
        } else {
            weight.is_finite() && weight >= 0.0
        };
        if !good {
            return None;
        }
        sum += weight;
    }
    let mut main = 1.0 - sum;
    if planted(VARIANT_SUM_IN_F64) {
        main = (1.0 - variants.iter().fold(0.0, |s, v| s + f64::from(v.1))) as f32;
    }
    let over = if planted(VARIANT_NO_SLACK) {
        main < 0.0
    } else if planted(VARIANT_WIDE_SLACK) {
        main < -1e-5
    } else if planted(VARIANT_SLACK_HALF_MORE) {
        main < -1.5e-6
    } else {
        main < -1e-6
    };
    if over {
        return None;
    }
    if planted(MAIN_WEIGHT_ONE) {
        return Some(1.0);
    }
    Some(max32(main, 0.0))
}

/// "With the CreakyTail issue set, `tail_loglik`, `target_tail_loglik` and `with_tail` of `tail.rs` apply".
struct Tails<'a, S: Source> {
    source: &'a S,
    query: &'a Query<'a>,
    issues: u16,
}

impl<S: Source> Tails<'_, S> {
    fn count(&self) -> bool {
        match () {
            _ if planted(TAIL_ALWAYS) => true,
            _ if planted(TAIL_BIT_EARLY) => self.issues & CREAKY_TAIL >> 1 != 0,
            _ => self.issues & CREAKY_TAIL != 0,
        }
    }

    /// A tone's value for the query's place in the phrase, whatever the issues.
    fn listed(&self, tone: usize) -> f32 {
        let tone = match () {
            _ if planted(TAIL_OF_PREV) => self.source.tone(self.query.prev).unwrap_or(tone),
            _ if planted(TAIL_OF_FIRST) => 0,
            _ if planted(TAIL_OF_TARGET) => self.source.tone(self.query.tone).unwrap_or(tone),
            _ => tone,
        };
        let [last, elsewhere] = self.source.tones()[tone].tail;
        match () {
            _ if planted(TAIL_END_ALONE) && !self.query.fin => 0.0,
            _ if self.query.fin != planted(TAIL_PLACES_EXCHANGED) => last,
            _ => elsewhere,
        }
    }

    /// `tail_loglik`, of a tone by its place.
    fn of(&self, tone: usize) -> f64 {
        f64::from(if self.count() { self.listed(tone) } else { 0.0 })
    }

    /// `target_tail_loglik`, `main` the main tone's weight: without variants the tone's own, with them ln Σ w·exp(tail) as a
    /// log-sum of ln w + tail, the variants first.
    fn of_target(&self, main: f32) -> f64 {
        let q = self.query;
        let variants = &q.variants[..q.variant_count];
        let target = self.source.tone(q.tone).unwrap_or(0);
        let counts = self.count() || planted(TARGET_TAIL_ALWAYS);
        if variants.is_empty() || !counts || planted(TARGET_TAIL_MAIN_ONLY) {
            return if planted(TARGET_TAIL_NONE) { 0.0 } else { self.of(target) };
        }
        let sum = variants.iter().fold(0.0, |sum, v| sum + v.1);
        let main = match () {
            _ if planted(TARGET_TAIL_MAIN_WHOLE) => 1.0,
            _ if planted(TARGET_TAIL_MAIN_NEGATIVE) => 1.0 - sum,
            _ if planted(TARGET_TAIL_SUM_IN_F64) => {
                let sum = variants.iter().fold(0.0, |sum, v| sum + f64::from(v.1));
                max32((1.0 - sum) as f32, 0.0)
            }
            _ => main,
        };
        // Weight and tail of each tone.
        let of_variant = |&(number, weight): &(u8, f32)| {
            let tone = self.source.tone(number).unwrap_or(target);
            (weight, self.of(if planted(TARGET_TAIL_OF_MAIN) { target } else { tone }))
        };
        let mut parts: Vec<(f32, f64)> = variants.iter().map(of_variant).collect();
        if !planted(TARGET_TAIL_VARIANTS_ONLY) {
            parts.push((main, self.of(target)));
        }
        if planted(TARGET_TAIL_MAIN_FIRST) {
            parts.rotate_right(1);
        }
        let all_zero = match () {
            _ if planted(TARGET_TAIL_OF_ZEROS) => parts.iter().all(|p| p.1 == 0.0),
            _ if planted(TARGET_TAIL_NO_TABLE) => {
                self.source.tones().iter().all(|t| t.tail == [0.0; 2])
            }
            _ => false,
        };
        if all_zero {
            return 0.0;
        }
        let mut total = LogSumExp::EMPTY;
        let mut mean = 0.0;
        for (weight, tail) in parts {
            let ln = match () {
                _ if planted(TARGET_TAIL_UNWEIGHTED) => 0.0,
                _ if planted(TARGET_TAIL_MINUS_ZERO) && weight.to_bits() == 1 << 31 => f64::NAN,
                _ if planted(TARGET_TAIL_NORMALISED) => ln(f64::from(weight / (sum + main))),
                _ if planted(TARGET_TAIL_LN_NARROWED) => f64::from(narrow(ln(f64::from(weight)))),
                _ => ln(f64::from(weight)),
            };
            total = total.with(ln + tail);
            mean += f64::from(weight) * tail;
        }
        let tail = match () {
            _ if planted(TARGET_TAIL_MEAN) => mean,
            _ if planted(TARGET_TAIL_GREATEST) => total.greatest,
            _ => total.value(),
        };
        if planted(TARGET_TAIL_WIDE) {
            return tail;
        }
        f64::from(narrow(tail))
    }

    /// `with_tail` of a score that is divided by the temperature and clamped: "`ll` itself, bit for bit, when `tail` is 0", else
    /// clamped once more. An f32 in f64, or not for a planted mistake.
    fn with(&self, wide: f64, tail: f64) -> f32 {
        let ll = clamp_log(wide);
        let sum = f64::from(ll) + tail;
        match () {
            _ if planted(TAIL_BEFORE_CLAMP) => clamp_log(wide + tail),
            _ if planted(TAIL_OVER_TEMPERATURE) => {
                clamp_log(f64::from(ll) + tail / f64::from(self.source.settings().0))
            }
            _ if tail == 0.0 && !planted(TAIL_ZERO_ADDED) => ll,
            _ if planted(TAIL_UNCLAMPED) => narrow(sum),
            _ => clamp_log(sum),
        }
    }
}

/// Usable exactly when every contour point and weight is finite.
fn usable(shape: &Shape) -> bool {
    if planted(USABLE_BY_ENDS) {
        return shape.contour[0].is_finite() && shape.contour[9].is_finite();
    }
    shape.contour.iter().chain(&shape.weights).all(|v| v.is_finite())
}

/// "not measured puts InvalidEvidence only"; every log-likelihood is the lower bound, without a tail.
fn not_measured<S: Source>(tails: &Tails<S>) -> Record {
    let tones = tails.source.tones().len();
    let (expected, measured) = (tails.query.tone, 2);
    let mut record = Record { expected, tones: tones as u8, measured, ..Record::default() };
    for (tone, ll) in record.loglik.iter_mut().enumerate().take(tones) {
        let tail = if planted(TAIL_UNUSABLE) { tails.of(tone) } else { 0.0 };
        *ll = tails.with(-CLAMP, tail);
    }
    record.issues = if planted(NOT_MEASURED_UNION) {
        tails.issues | INVALID_EVIDENCE
    } else {
        INVALID_EVIDENCE
    };
    record
}

/// The answer to a query from a pack or from a sheet: 11, 12, 13 for prev, 14, 15, 13 for targets,
/// then 64 bytes.
pub fn judge<S: Source>(source: &S, q: &Query) -> Result<Vec<u8>, Refusal> {
    let shape = extract(q);
    let accent = source.accent(q.accent);
    if planted(ACCENT_BEFORE_UNVOICED) && accent.is_none() {
        return refuse(12, 0);
    }
    let mut shape = shape?;
    if planted(COLD_SHAPE_ALONE) && shape.set_cold {
        shape.issues &= !COLD_START;
    }
    let shape = shape;
    let own_finite = q.floor.is_finite() && q.ceil.is_finite();
    let usable = usable(&shape) && !(planted(COLD_OWN_FINITE) && q.cold && !own_finite);
    let tails = Tails { source, query: q, issues: shape.issues };
    if planted(NOT_FINITE_FIRST) && !usable {
        return Ok(not_measured(&tails).bytes());
    }
    if planted(PREV_BEFORE_ACCENT) && q.prev != 0 && source.tone(q.prev).is_none() {
        return refuse(13, 0);
    }
    let Some(accent) = accent else {
        return refuse(12, 0);
    };
    let targets =
        || std::iter::once(q.tone).chain(q.variants[..q.variant_count].iter().map(|v| v.0));
    let targets_held = targets().all(|tone| source.tone(tone).is_some());
    if planted(TARGET_BEFORE_NOTHING) && !targets_held {
        return refuse(13, 0);
    }
    if q.prev != 0 && source.tone(q.prev).is_none() && !planted(PREV_UNKNOWN_PASSES) {
        return refuse(13, 0);
    }
    let main = main_weight(q);
    if planted(VARIANT_BEFORE_NOTHING) && main.is_none() {
        return refuse(15, 0);
    }
    // "14 no realisation: some inventory tone has nothing here"
    let tones = source.tones();
    let mut lists: Vec<List> = Vec::with_capacity(8);
    for tone in 0..tones.len() {
        match source.look(accent, tone, q.prev, q.fin) {
            Some(list) => lists.push(list),
            None if planted(NOTHING_FOR_TARGET_ONLY) && tones[tone].number != q.tone => {
                lists.push(List::empty(0, 0, 0));
            }
            None => return refuse(14, 0),
        }
    }
    if planted(TARGET_BEFORE_VARIANT) && !targets_held {
        return refuse(13, 0);
    }
    let Some(main) = main else {
        return refuse(15, 0);
    };
    let held = if planted(ZERO_WEIGHT_TARGET_PASSES) {
        source.tone(q.tone).is_some()
            && q.variants[..q.variant_count]
                .iter()
                .all(|v| v.1 == 0.0 || source.tone(v.0).is_some())
    } else {
        targets_held
    };
    if !held {
        return refuse(13, 0);
    }

    if !usable {
        return Ok(not_measured(&tails).bytes());
    }
    let target = source.tone(q.tone).unwrap_or(0);
    let mut record = Record { expected: q.tone, tones: tones.len() as u8, ..Record::default() };
    let judge = Judge { source, accent, shape: &shape, target };

    // The log-likelihood of every inventory tone, the background and the best score.
    let mut background = LogSumExp::EMPTY;
    let mut plain_background = LogSumExp::EMPTY;
    let mut top: Option<(f64, usize)> = None;
    let mut target_alone = f64::NEG_INFINITY;
    for (tone, list) in lists.iter().enumerate() {
        let candidates: Vec<Candidate> = weighed(tone, list, 1.0).collect();
        let wide = judge.calibrated(&judge.mixture(&candidates));
        let (plain, tail) = (clamp_log(wide), tails.of(tone));
        let ll = tails.with(wide, tail);
        if tone == target {
            target_alone = wide;
        }
        if let Some(slot) = record.loglik.get_mut(tone) {
            *slot = if planted(TAIL_NOT_WRITTEN) { plain } else { ll };
        }
        let prior = if planted(PRIORS_EQUAL) { 0.0 } else { ln(f64::from(tones[tone].prior)) };
        let score = prior
            + if planted(BACKGROUND_UNROUNDED) {
                wide.clamp(-CLAMP, CLAMP) + tail
            } else {
                f64::from(ll)
            };
        let plain_score = prior + f64::from(plain);
        plain_background = plain_background.with(plain_score);
        background =
            background.with(if planted(BACKGROUND_NO_TAILS) { plain_score } else { score });
        let score = if planted(HEARD_NO_TAILS) { plain_score } else { score };
        let better = match top {
            None => true,
            Some((most, _)) if planted(HEARD_LAST_EQUAL) => score >= most,
            Some((most, _)) => score > most,
        };
        if better {
            top = Some((score, tone));
        }
    }
    let background = background.value();

    // The target: main tone and variants, "weighs variants in f32 and drops products not above 0".
    let weights = std::iter::once(main).chain(q.variants[..q.variant_count].iter().map(|v| v.1));
    let mut candidates: Vec<Candidate> = Vec::with_capacity(20);
    for (number, weight) in targets().zip(weights) {
        if let Some(tone) = source.tone(number) {
            let products = weighed(tone, &lists[tone], weight);
            candidates.extend(products.filter(|c| c.weight > 0.0 || planted(ZERO_WEIGHT_SCORED)));
        }
    }
    if planted(VARIANTS_FIRST) && q.variant_count > 0 {
        let main_parts = candidates.iter().filter(|c| c.tone == target).count();
        candidates.rotate_left(main_parts);
    }
    let mixture = judge.mixture(&candidates);
    let wide = judge.calibrated(&mixture);
    let target_tail = tails.of_target(main);
    let target_ll = tails.with(wide, target_tail);
    record.llr = if planted(LLR_UNROUNDED) {
        clamp_log(wide.clamp(-CLAMP, CLAMP) + target_tail - background)
    } else if planted(LLR_TAIL_LAST) {
        tails.with(f64::from(clamp_log(wide)) - background, target_tail)
    } else if planted(LLR_BACKGROUND_NARROWED) {
        target_ll - narrow(background)
    } else if planted(LLR_MAIN_TONE_ONLY) {
        clamp_log(f64::from(tails.with(target_alone, tails.of(target))) - background)
    } else {
        clamp_log(f64::from(target_ll) - background)
    };

    // "heard u8 (0 none)": the best tone, if its posterior reaches the threshold.
    if let Some((score, tone)) = top {
        let over = if planted(HEARD_NO_TAILS) { plain_background.value() } else { background };
        let posterior = exp(score - over);
        let threshold = f64::from(source.settings().1);
        let heard = if planted(HEARD_ABOVE) {
            posterior > threshold
        } else if planted(HEARD_IN_F32) {
            posterior as f32 >= source.settings().1
        } else {
            posterior >= threshold
        };
        if heard || planted(HEARD_ALWAYS) {
            record.heard = if planted(HEARD_PLACE) { tone as u8 + 1 } else { tones[tone].number };
        }
    }

    if let Mixture::Scored { best, d2, .. } = mixture {
        let c = &candidates[best];
        let distance = if planted(DISTANCE_SQUARED) { d2 } else { root(d2) };
        record.distance_flag = 1;
        record.distance = if planted(DISTANCE_INFINITE) {
            narrow(distance)
        } else {
            narrow(min64(distance, f64::from(f32::MAX)))
        };
        record.owner = if planted(RECORD_GRADED_OWNER) { q.accent } else { c.list.owner };
        record.form = c.list.form;
        record.label = c.list.label;
        record.part = if planted(PART_AFTER_DROPPING) {
            let kept = |p: &&Candidate| p.tone == c.tone && p.part < c.part;
            candidates.iter().filter(kept).count() as u8
        } else if planted(PART_FROM_1) {
            c.part as u8 + 1
        } else if planted(PART_OF_MIXTURE) {
            best as u8
        } else {
            c.part as u8
        };
        if shape.issues & LOW_SNR == 0 || planted(LOW_SNR_DELTAS) {
            let deltas = judge.deltas(c);
            record.delta_count = deltas.len() as u8;
            for (slot, delta) in record.deltas.iter_mut().zip(deltas) {
                *slot = delta;
            }
        }
    }

    // "measured u8 (0 full, 1 partial, 2 not), issues u16"
    record.issues = shape.issues;
    if planted(COLD_SCORING_ALONE) && shape.set_cold {
        record.issues &= !COLD_START;
    }
    let full = planted(COLD_FULL) && shape.set_cold && record.issues == COLD_START;
    record.measured = if planted(INVALID_IS_NOT_MEASURED) && shape.issues & INVALID_EVIDENCE != 0 {
        2
    } else {
        u8::from(record.issues != 0 && !full)
    };
    Ok(record.bytes())
}

/// A list's components, each weight times the given one.
fn weighed(tone: usize, list: &List, weight: f32) -> impl Iterator<Item = Candidate<'_>> {
    (0..list.count).map(move |part| Candidate {
        tone,
        list,
        part,
        weight: list.weights[part] * weight,
        wide: f64::from(list.weights[part]) * f64::from(weight),
    })
}

/// "Record kind 49"; "Absent fields are zero"; "64 bytes".
#[derive(Default)]
struct Record {
    expected: u8,
    tones: u8,
    loglik: [f32; 8],
    llr: f32,
    distance_flag: u8,
    distance: f32,
    owner: u8,
    form: u8,
    label: u16,
    part: u8,
    heard: u8,
    delta_count: u8,
    deltas: [(u8, f32); 2],
    measured: u8,
    issues: u16,
}

impl Record {
    fn bytes(&self) -> Vec<u8> {
        let mut out = Vec::with_capacity(64);
        out.extend_from_slice(&[49, self.expected, self.tones]);
        for ll in self.loglik {
            put_f32(&mut out, ll);
        }
        put_f32(&mut out, self.llr);
        out.push(self.distance_flag);
        put_f32(&mut out, self.distance);
        out.extend_from_slice(&[self.owner, self.form]);
        out.extend_from_slice(&self.label.to_le_bytes());
        out.extend_from_slice(&[self.part, self.heard, self.delta_count]);
        for (kind, amount) in self.deltas {
            out.push(kind);
            put_f32(&mut out, amount);
        }
        out.push(self.measured);
        out.extend_from_slice(&self.issues.to_le_bytes());
        out
    }
}
