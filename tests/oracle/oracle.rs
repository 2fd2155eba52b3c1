//! The Rust of djt358/tonalkit, asked with document 01's bytes and answering in them. Inputs are
//! packs that load, and queries that do; the numbers 11 to 15 are the Rust's own errors. The Rust
//! knows no kind 55: what is read here is whether it stands in a query, and then the register that
//! the Rust's functions are given is the Rust's `cold_register` of the query's frames.

use stand_ins::StandIns;
use tonekit_core::{
    AccentId, DeltaKind, F0Frame, F0Track, GradingTarget, LexicalVariant, MeasureIssue, Measured,
    Register, TbuSpan, ToneId, ToneTarget,
};
use tonekit_pack::{LanguagePack, PackError, TargetContext};
use tonekit_shape::{extract, voiced_semitones, Extracted};

const ISSUES: [MeasureIssue; 10] = [
    MeasureIssue::Unvoiced,
    MeasureIssue::LowSnr,
    MeasureIssue::Clipped,
    MeasureIssue::TooShort,
    MeasureIssue::ColdStartRegister,
    MeasureIssue::InvalidRegister,
    MeasureIssue::InvalidEvidence,
    MeasureIssue::NoNucleus,
    MeasureIssue::Unpitched,
    MeasureIssue::CreakyTail,
];

/// One component of a lookup, as document 01 numbers it; floats as bits.
#[derive(Clone, Debug, PartialEq, Eq)]
pub struct Component {
    pub owner: u8,
    pub form: u8,
    pub label: u16,
    pub part: u8,
    pub weight: u32,
    pub points: [u32; 10],
}

pub fn ln(x: f64) -> f64 {
    x.stand_in_ln()
}

pub fn log2(x: f64) -> f64 {
    x.stand_in_log2()
}

pub fn exp(x: f64) -> f64 {
    x.stand_in_exp()
}

pub fn root(x: f64) -> f64 {
    x.sqrt()
}

fn u16_at(b: &[u8], at: usize) -> u16 {
    u16::from_le_bytes([b[at], b[at + 1]])
}

fn u32_at(b: &[u8], at: usize) -> u32 {
    u32::from_le_bytes([b[at], b[at + 1], b[at + 2], b[at + 3]])
}

fn f32_at(b: &[u8], at: usize) -> f32 {
    f32::from_bits(u32_at(b, at))
}

fn tone(n: u8) -> ToneId {
    ToneId(n.to_string())
}

fn number(id: &str) -> u8 {
    id.parse().expect("a number of one byte")
}

fn issue_bits(issues: &[MeasureIssue]) -> u16 {
    issues.iter().fold(0, |bits, issue| {
        let bit = ISSUES
            .iter()
            .position(|i| i == issue)
            .expect("a listed issue");
        bits | 1 << bit
    })
}

fn f32_bits(v: f32) -> [u8; 4] {
    if v.is_nan() { 0x7FC0_0000 } else { v.to_bits() }.to_le_bytes()
}

/// A query that has been read, for many calls.
pub struct Query {
    grading: GradingTarget,
    target: ToneTarget,
    context: TargetContext,
    span: TbuSpan,
    register: Register,
    own: u16,
    track: F0Track,
}

/// Records of kind 50 as the Rust has them.
fn track(frames: &[u8]) -> F0Track {
    let frames = frames.chunks_exact(10).map(|f| F0Frame {
        hz: (f[1] == 1).then(|| f32_at(f, 2)),
        voiced_p: f32_at(f, 6),
    });
    F0Track {
        frames: frames.collect(),
        provider: String::new(),
    }
}

fn ends(floor: f32, ceil: f32) -> Register {
    Register {
        floor_st: floor,
        median_st: 0.0,
        ceil_st: ceil,
        n_syllables: 0,
    }
}

fn told(r: Register) -> [f32; 3] {
    [r.floor_st, r.median_st, r.ceil_st]
}

/// Floor, median and ceiling by `cold_register` of semitones.
pub fn cold_register(semitones: &[f32]) -> [f32; 3] {
    told(tonekit_shape::cold_register(semitones, 0))
}

/// The same of all voiced frames among these records of kind 50.
pub fn register_of(frames: &[u8]) -> [f32; 3] {
    cold_register(&voiced_semitones(&track(frames), None))
}

/// Floor and ceiling by `at_least_min_span`.
pub fn at_least_min_span(floor: f32, ceil: f32) -> [f32; 2] {
    let [floor, _, ceil] = told(tonekit_shape::at_least_min_span(ends(floor, ceil)));
    [floor, ceil]
}

/// Kind 55, straight behind the query record.
fn cold(q: &[u8]) -> bool {
    q.get(46) == Some(&55)
}

impl Query {
    pub fn read(q: &[u8]) -> Query {
        let variants = (0..usize::from(q[23])).map(|i| LexicalVariant {
            tone: tone(q[24 + 5 * i]),
            weight: f32_at(q, 25 + 5 * i),
        });
        let track = track(&q[if cold(q) { 47 } else { 46 }..]);
        let (register, set) = if cold(q) {
            let register = tonekit_shape::cold_register(&voiced_semitones(&track, None), 0);
            (register, issue_bits(&[MeasureIssue::ColdStartRegister]))
        } else {
            (ends(f32_at(q, 13), f32_at(q, 17)), 0)
        };
        Query {
            grading: grading(q[1]),
            target: ToneTarget {
                tone: tone(q[2]),
                lexical_variants: variants.collect(),
            },
            context: context(q[3], q[4]),
            span: TbuSpan {
                start_frame: u32_at(q, 5),
                end_frame: u32_at(q, 9),
            },
            register,
            own: u16_at(q, 21) | set,
            track,
        }
    }

    /// The shape, its issues united with the query's own; 11 where there is none.
    fn extract(&self) -> Result<Extracted, u8> {
        let mut found = extract(&self.track, &self.span, &self.register).map_err(|_| 11)?;
        for (bit, issue) in ISSUES.iter().enumerate() {
            if self.own >> bit & 1 == 1 && !found.issues.contains(issue) {
                found.issues.push(*issue);
            }
        }
        Ok(found)
    }

    pub fn shape(&self) -> Result<[u8; 124], u8> {
        let Extracted { shape: x, issues } = self.extract()?;
        assert_eq!(x.onset.to_bits(), x.contour[0].to_bits());
        assert_eq!(x.offset.to_bits(), x.contour[9].to_bits());
        let mut out = Vec::with_capacity(124);
        out.push(51);
        out.extend(x.span.start_frame.to_le_bytes());
        out.extend(x.span.end_frame.to_le_bytes());
        for v in x.contour.iter().chain(&x.voiced_weights) {
            out.extend(f32_bits(*v));
        }
        for v in [x.mean, x.slope, x.curvature] {
            out.extend(f32_bits(v));
        }
        out.push(u8::from(x.turning_point.is_some()));
        out.extend(f32_bits(x.turning_point.unwrap_or(0.0)));
        for v in [x.range, x.duration_ms, x.voiced_fraction, x.f0_confidence] {
            out.extend(f32_bits(v));
        }
        out.extend(issue_bits(&issues).to_le_bytes());
        Ok(out.try_into().expect("124 bytes"))
    }
}

pub fn shape(query: &[u8]) -> Result<[u8; 124], u8> {
    Query::read(query).shape()
}

fn grading(accent: u8) -> GradingTarget {
    GradingTarget {
        accent: AccentId(accent.to_string()),
        style: None,
        style_weight: 0.0,
    }
}

fn context(prev: u8, fin: u8) -> TargetContext {
    TargetContext {
        index: 0,
        count: 1,
        prev: (prev != 0).then(|| tone(prev)),
        phrase_final: fin == 1,
    }
}

fn refusal(e: PackError) -> u8 {
    match e {
        PackError::UnknownAccent(_) => 12,
        PackError::UnknownTone(_) => 13,
        PackError::MissingRealization { .. } => 14,
        PackError::Invalid(_) => 15,
        PackError::Parse(_) => unreachable!("nothing is parsed"),
    }
}

/// Owner, form, label and part from the Rust's label of a component: `owner/citation`,
/// `owner/2:label` or `owner/3:label#part`.
fn place(text: &str) -> (u8, u8, u16, u8) {
    let (owner, rule) = text.split_once('/').expect("an owner");
    let owner = number(owner);
    if rule == "citation" {
        return (owner, 1, 0, 0);
    }
    let (form, rest) = rule.split_once(':').expect("a form");
    let (label, part) = match (form, rest.split_once('#')) {
        ("2", None) => (rest, 0),
        ("3", Some((label, part))) => (label, number(part)),
        _ => panic!("a label of no form: {text}"),
    };
    (owner, number(form), label.parse().expect("a label"), part)
}

/// A pack that has been read, for many calls.
pub struct Pack(LanguagePack);

impl Pack {
    pub fn read(pack: &[u8]) -> Pack {
        Pack(LanguagePack::from_station_pack(pack))
    }

    /// What `expect_tone` finds; the error's number where it finds nothing.
    pub fn look(&self, accent: u8, of: u8, prev: u8, fin: u8) -> Result<Vec<Component>, u8> {
        let found = self
            .0
            .expect_tone(&grading(accent), &tone(of), &context(prev, fin))
            .map_err(refusal)?;
        Ok(found
            .components
            .iter()
            .map(|c| {
                let (owner, form, label, part) = place(&c.label);
                assert_eq!(c.tone, tone(of));
                assert_eq!(c.onset.to_bits(), c.contour[0].to_bits());
                assert_eq!(c.offset.to_bits(), c.contour[9].to_bits());
                let points: Vec<u32> = c.contour.iter().map(|v| v.to_bits()).collect();
                Component {
                    owner,
                    form,
                    label,
                    part,
                    weight: c.weight.to_bits(),
                    points: points.try_into().expect("ten points"),
                }
            })
            .collect())
    }

    pub fn judge(&self, query: &Query) -> Result<[u8; 64], u8> {
        let Extracted { shape: x, issues } = query.extract()?;
        let j = self
            .0
            .judge(&query.grading, &x, &query.target, &query.context, &issues)
            .map_err(refusal)?;

        let mut out = Vec::with_capacity(64);
        out.extend([49, number(&j.expected.0), j.loglik.len() as u8]);
        for i in 0..8 {
            out.extend(j.loglik.get(i).map_or([0; 4], |v| f32_bits(*v)));
        }
        out.extend(f32_bits(j.llr_target));
        out.push(u8::from(j.distance.is_some()));
        out.extend(f32_bits(j.distance.unwrap_or(0.0)));
        let (owner, form, label, part) = j.component.as_deref().map_or((0, 0, 0, 0), place);
        out.extend([owner, form]);
        out.extend(label.to_le_bytes());
        out.push(part);
        out.push(j.heard.map_or(0, |t| number(&t.0)));
        out.push(j.deltas.len() as u8);
        for i in 0..2 {
            let (kind, amount) = j
                .deltas
                .get(i)
                .map_or((0, 0.0), |d| (delta(d.kind), d.amount));
            out.push(kind);
            out.extend(f32_bits(amount));
        }
        let (measured, issues) = match &j.measured {
            Measured::Full => (0, 0),
            Measured::Partial { issues } => (1, issue_bits(issues)),
            Measured::NotMeasured { issue } => (2, issue_bits(&[*issue])),
        };
        out.push(measured);
        out.extend(issues.to_le_bytes());
        Ok(out.try_into().expect("64 bytes"))
    }
}

fn delta(kind: DeltaKind) -> u8 {
    match kind {
        DeltaKind::StartHigher => 1,
        DeltaKind::StartLower => 2,
        DeltaKind::EndHigher => 3,
        DeltaKind::EndLower => 4,
        DeltaKind::TurnEarlier => 5,
        DeltaKind::TurnLater => 6,
        DeltaKind::WiderRange => 7,
        DeltaKind::NarrowerRange => 8,
    }
}

pub fn judge(pack: &[u8], query: &[u8]) -> Result<[u8; 64], u8> {
    Pack::read(pack).judge(&Query::read(query))
}

pub fn look(pack: &[u8], accent: u8, of: u8, prev: u8, fin: u8) -> Result<Vec<Component>, u8> {
    Pack::read(pack).look(accent, of, prev, fin)
}

/// The length of a pack's record.
fn length(kind: u8) -> usize {
    [9, 56, 19, 7, 46, 1, 9][usize::from(kind) - 1]
}

/// The sheet that document 01 fixes for a pack, with every lookup the Rust's.
pub fn sheet(pack: &[u8]) -> Vec<u8> {
    let read = Pack::read(pack);
    let mut out = vec![17];
    out.extend(&pack[1..9]);
    let (mut tones, mut accents) = (Vec::new(), Vec::new());
    let mut at = 0;
    while at < pack.len() {
        match pack[at] {
            2 => {
                tones.push(pack[at + 1]);
                out.extend([18, pack[at + 1]]);
                out.extend(&pack[at + 2..at + 6]);
                out.extend(&pack[at + 47..at + 56]);
                // The two values as kind 7 has them, or zeros.
                out.push(24);
                match pack[at + 56] {
                    7 => out.extend(&pack[at + 57..at + 65]),
                    _ => out.extend([0; 8]),
                }
            }
            3 => accents.push((pack[at + 1], &pack[at + 3..at + 19])),
            _ => {}
        }
        at += length(pack[at]);
    }
    accents.sort();
    for (number, tolerances) in &accents {
        out.extend([19, *number]);
        out.extend(*tolerances);
    }
    let mut lists: Vec<Vec<Component>> = Vec::new();
    let mut number = |found: Vec<Component>| {
        let at = lists.iter().position(|l| *l == found).unwrap_or_else(|| {
            lists.push(found);
            lists.len() - 1
        });
        (at + 1) as u8
    };
    for (accent, _) in &accents {
        for &tone in &tones {
            for prev in std::iter::once(0).chain(tones.iter().copied()) {
                out.extend([20, *accent, tone, prev]);
                for fin in 0..2 {
                    out.push(read.look(*accent, tone, prev, fin).map_or(0, &mut number));
                }
            }
        }
    }
    for (i, list) in lists.iter().enumerate() {
        let first = &list[0];
        out.extend([21, (i + 1) as u8, first.owner, first.form]);
        out.extend(first.label.to_le_bytes());
        out.push(list.len() as u8);
        for c in list {
            out.push(22);
            out.extend(c.weight.to_le_bytes());
            out.extend(c.points.iter().flat_map(|p| p.to_le_bytes()));
        }
    }
    out.push(23);
    out
}
