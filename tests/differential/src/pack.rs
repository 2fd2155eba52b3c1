//! Packs that load.

use crate::pick;
use crate::rng::Rng;
use crate::tails;

pub const MAX: f32 = f32::MAX;
/// The least f32 above 0.
pub const LEAST: f32 = 1.0e-45;
/// The least normal f32.
pub const NORMAL: f32 = f32::MIN_POSITIVE;

#[derive(Clone)]
pub struct Tone {
    pub number: u8,
    pub prior: f32,
    /// Empty where the tone is context only.
    pub knots: Vec<f32>,
    pub region: Option<(f32, f32)>,
    /// At phrase end and elsewhere; none where no kind 7 stands.
    pub tail: Option<[f32; 2]>,
}

#[derive(Clone)]
pub struct Part {
    pub weight: f32,
    pub knots: Vec<f32>,
}

#[derive(Clone)]
pub struct Rule {
    pub label: u16,
    pub tone: u8,
    pub prev: u8,
    pub fin: u8,
    pub form: u8,
    pub parts: Vec<Part>,
}

#[derive(Clone)]
pub struct Accent {
    pub number: u8,
    pub parent: u8,
    pub tolerances: [f32; 4],
    pub rules: Vec<Rule>,
}

#[derive(Clone)]
pub struct Pack {
    pub temperature: f32,
    pub threshold: f32,
    pub tones: Vec<Tone>,
    pub accents: Vec<Accent>,
}

fn put_knots(out: &mut Vec<u8>, knots: &[f32]) {
    out.push(knots.len() as u8);
    for k in 0..10 {
        out.extend(knots.get(k).copied().unwrap_or(0.0).to_le_bytes());
    }
}

impl Tone {
    pub fn bytes(&self) -> Vec<u8> {
        let mut out = vec![2, self.number];
        out.extend(self.prior.to_le_bytes());
        put_knots(&mut out, &self.knots);
        out.push(u8::from(self.region.is_some()));
        let (from, to) = self.region.unwrap_or((0.0, 0.0));
        out.extend(from.to_le_bytes());
        out.extend(to.to_le_bytes());
        if let Some(tail) = self.tail {
            out.push(7);
            out.extend(tail.into_iter().flat_map(f32::to_le_bytes));
        }
        out
    }
}

impl Part {
    pub fn bytes(&self) -> Vec<u8> {
        let mut out = vec![5];
        out.extend(self.weight.to_le_bytes());
        put_knots(&mut out, &self.knots);
        out
    }
}

impl Rule {
    pub fn bytes(&self) -> Vec<u8> {
        let mut out = vec![4];
        out.extend(self.label.to_le_bytes());
        out.extend([self.tone, self.prev, self.fin, self.form]);
        for part in &self.parts {
            out.extend(part.bytes());
        }
        out
    }
}

impl Accent {
    pub fn bytes(&self) -> Vec<u8> {
        let mut out = vec![3, self.number, self.parent];
        for t in self.tolerances {
            out.extend(t.to_le_bytes());
        }
        for rule in &self.rules {
            out.extend(rule.bytes());
        }
        out
    }
}

impl Pack {
    pub fn bytes(&self) -> Vec<u8> {
        let mut out = vec![1];
        out.extend(self.temperature.to_le_bytes());
        out.extend(self.threshold.to_le_bytes());
        for tone in &self.tones {
            out.extend(tone.bytes());
        }
        for accent in &self.accents {
            out.extend(accent.bytes());
        }
        out.push(6);
        out
    }

    pub fn rules(&self) -> usize {
        self.accents.iter().map(|a| a.rules.len()).sum()
    }

    pub fn parts(&self) -> usize {
        self.accents
            .iter()
            .flat_map(|a| &a.rules)
            .map(|r| r.parts.len())
            .sum()
    }

    /// Whether the chain of an accent, by its number, comes to another; every chain ends.
    fn comes_to(&self, mut accent: u8, other: u8) -> bool {
        while accent != other && accent != 0 {
            let at = self.accents.iter().find(|a| a.number == accent);
            accent = at.expect("an accent").parent;
        }
        accent == other
    }
}

/// How far a pack goes from the ordinary.
#[derive(Clone, Copy, PartialEq)]
pub enum Style {
    /// Curves on the scale, tolerances about 1.
    Plain,
    /// Every range to its ends.
    Wild,
    /// Few values, powers of two: scores and excursions that are equal bit for bit.
    Exact,
}

/// A positive finite f32 of any size.
fn any_positive(r: &mut Rng) -> f32 {
    loop {
        let v = f32::from_bits(r.bits32() & 0x7FFF_FFFF);
        if v.is_finite() && v > 0.0 {
            return v;
        }
    }
}

pub fn tolerance(r: &mut Rng, style: Style) -> f32 {
    match style {
        Style::Plain => r.between(0.2, 2.0),
        Style::Exact => r.pick(&[0.25, 0.5, 1.0, 2.0, 0.5, 1.0]),
        Style::Wild => match r.below(6) {
            0 => any_positive(r),
            1 => r.pick(&[LEAST, NORMAL, 1.0e-20, 1.0e-6]),
            2 => r.pick(&[MAX, 1.0e30, 1.0e10, 1000.0]),
            _ => r.between(0.05, 4.0),
        },
    }
}

fn fraction(r: &mut Rng, style: Style) -> f32 {
    match style {
        Style::Plain => r.between(0.01, 1.0),
        Style::Exact => r.pick(&[1.0, 0.5, 0.25, 0.25, 0.125]),
        Style::Wild => r.pick(&[1.0, 0.5, 0.25, LEAST, NORMAL, 1.0e-20, 0.999_999_94, 0.3]),
    }
}

pub fn knot(r: &mut Rng, style: Style) -> f32 {
    match style {
        Style::Plain => match r.below(12) {
            0 => r.pick(&[0.0, -0.0]),
            1..=6 => r.range(1, 5) as f32,
            _ => r.between(0.5, 5.5),
        },
        Style::Exact => r.range(1, 5) as f32,
        Style::Wild => match r.below(10) {
            0 => -0.0,
            1 => 0.0,
            2 => 100.0,
            3 => -100.0,
            4 => r.between(-100.0, 100.0),
            5 => r.pick(&[
                LEAST, -LEAST, NORMAL, -NORMAL, 1.0e-20, 99.999_99, -99.999_99,
            ]),
            _ => r.between(-1.0, 7.0),
        },
    }
}

pub fn knots(r: &mut Rng, style: Style) -> Vec<f32> {
    let n = r.pick(&[1, 1, 2, 2, 3, 3, 4, 5, 6, 7, 8, 9, 10, 10]);
    match r.below(8) {
        // Curves that turn, some both ways by the same excursion.
        0 => vec![3.0, 1.0, 3.0, 5.0, 3.0],
        1 => {
            let (a, b) = (
                r.pick(&[1.0, 2.0, 2.5, 2.75]),
                r.pick(&[5.0, 4.0, 3.5, 3.25]),
            );
            let mut all = vec![3.0; 10];
            let (i, j) = (r.range(0, 9), r.range(0, 9));
            all[i] = a;
            all[j] = b;
            all
        }
        2 => {
            let k = knot(r, style);
            vec![k; n]
        }
        3 if n > 2 => {
            let (edge, middle) = (knot(r, style), knot(r, style));
            let mut all = vec![middle; n];
            all[0] = edge;
            all[n - 1] = edge;
            all
        }
        _ => (0..n).map(|_| knot(r, style)).collect(),
    }
}

fn region(r: &mut Rng, style: Style) -> (f32, f32) {
    let end = |r: &mut Rng| match r.below(if style == Style::Wild { 6 } else { 4 }) {
        0 => r.pick(&[0.0, -0.0, 1.0]),
        1 | 2 => r.range(0, 9) as f32 / 9.0,
        3 => r.between(0.0, 1.0),
        4 => r.pick(&[-1.0, 2.0, LEAST, -LEAST, MAX, -MAX, 1.000_000_1, -NORMAL]),
        _ => {
            // Next to a point's place.
            let u = r.range(1, 8) as f32 / 9.0;
            f32::from_bits(u.to_bits().wrapping_add(r.below(3) as u32).wrapping_sub(1))
        }
    };
    let (a, b) = (end(r), end(r));
    match r.below(6) {
        0 => (a, a),
        _ if a <= b => (a, b),
        _ => (b, a),
    }
}

fn weight(r: &mut Rng, style: Style) -> f32 {
    match style {
        Style::Plain => r.pick(&[0.5, 0.25, 0.1, 0.9, 0.0, 1.0]),
        Style::Exact => r.pick(&[0.5, 0.5, 0.25, 1.0, 0.0]),
        Style::Wild => match r.below(4) {
            0 => 0.0,
            1 => r.pick(&[MAX, 1.0e38, 1.0e30, 1000.0]),
            2 => r.pick(&[LEAST, NORMAL, 1.0e-30]),
            _ => r.between(0.0, 2.0),
        },
    }
}

fn distinct(r: &mut Rng, n: usize) -> Vec<u8> {
    let mut all: Vec<u8> = Vec::new();
    let small = r.chance(1, 2);
    while all.len() < n {
        let v = if small {
            r.range(1, 12) as u8
        } else {
            pick!(r, 1, 255, r.byte(), r.byte())
        };
        if v != 0 && !all.contains(&v) {
            all.push(v);
        }
    }
    all
}

pub fn style(r: &mut Rng) -> Style {
    r.pick(&[
        Style::Plain,
        Style::Plain,
        Style::Wild,
        Style::Wild,
        Style::Exact,
    ])
}

fn rule(r: &mut Rng, style: Style, tones: &[Tone], most: usize) -> Rule {
    let any = |r: &mut Rng| tones[r.below(tones.len())].number;
    let form = if most > 0 && r.chance(1, 2) { 3 } else { 2 };
    let count = if form == 2 {
        1
    } else {
        r.range(1, 4.min(most))
    };
    let mut parts: Vec<Part> = Vec::new();
    for _ in 0..count {
        let curve = match parts.last() {
            Some(p) if r.chance(1, 4) => p.knots.clone(),
            _ if r.chance(1, 6) => tones[r.below(tones.len())].knots.clone(),
            _ => knots(r, style),
        };
        parts.push(Part {
            weight: if form == 2 { 1.0 } else { weight(r, style) },
            knots: if curve.is_empty() {
                knots(r, style)
            } else {
                curve
            },
        });
    }
    if form == 3 && r.chance(1, 12) {
        for p in &mut parts {
            p.weight = 0.0;
        }
    }
    Rule {
        label: pick!(r, 0, 1, 2, 3, 255, 256, 0xFFFF, r.next() as u16),
        tone: if r.chance(2, 5) { 0 } else { any(r) },
        prev: if r.chance(1, 2) { 0 } else { any(r) },
        fin: r.below(3) as u8,
        form,
        parts,
    }
}

/// A pack in which every rule and every citation is used: 128 lists, 192 components.
fn fullest(r: &mut Rng, style: Style) -> Pack {
    let numbers = distinct(r, 8);
    let tones: Vec<Tone> = numbers
        .iter()
        .map(|&number| Tone {
            number,
            prior: fraction(r, style),
            knots: vec![knot(r, style)],
            region: None,
            tail: None,
        })
        .collect();
    let accents = distinct(r, 8)
        .into_iter()
        .map(|number| Accent {
            number,
            parent: 0,
            tolerances: [1.0; 4],
            rules: (0..8)
                .map(|i| Rule {
                    label: i as u16,
                    tone: tones[i].number,
                    prev: tones[r.below(8)].number,
                    fin: r.below(3) as u8,
                    form: 3,
                    parts: (0..2)
                        .map(|_| Part {
                            weight: weight(r, style),
                            knots: knots(r, style),
                        })
                        .collect(),
                })
                .collect(),
        })
        .collect();
    Pack {
        temperature: 1.0,
        threshold: 0.5,
        tones,
        accents,
    }
}

/// A pack of two to eight accents in one chain, in any order, with few rules.
fn chained(r: &mut Rng, style: Style) -> Pack {
    let n = r.range(1, 2);
    let tones: Vec<Tone> = distinct(r, n)
        .into_iter()
        .map(|number| Tone {
            number,
            prior: fraction(r, style),
            knots: knots(r, style),
            region: None,
            tail: None,
        })
        .collect();
    let n = pick!(r, 8, 8, r.range(2, 8));
    let numbers = distinct(r, n);
    let mut accents: Vec<Accent> = Vec::new();
    for (i, &number) in numbers.iter().enumerate() {
        let rules = r.pick(&[0, 0, 0, 1, 2]);
        accents.push(Accent {
            number,
            parent: if i == 0 { 0 } else { numbers[i - 1] },
            tolerances: [0; 4].map(|_| tolerance(r, style)),
            rules: (0..rules).map(|_| rule(r, style, &tones, 2)).collect(),
        });
    }
    r.shuffle(&mut accents);
    Pack {
        temperature: 1.0,
        threshold: fraction(r, style),
        tones,
        accents,
    }
}

/// A pack that loads.
pub fn pack(r: &mut Rng) -> Pack {
    let mut p = without_tails(r);
    tails::give(r, &mut p);
    p
}

/// A pack of document 01.
fn without_tails(r: &mut Rng) -> Pack {
    let style = style(r);
    let size = r.below(100);
    match size {
        99 => return fullest(r, style),
        56..=59 => return chained(r, style),
        _ => {}
    }
    // Most tones, accents, rules and parts.
    let (t, a, rules, parts) = match size {
        0..=59 => (4, 3, 5, 10),
        60..=93 => (7, 5, 16, 40),
        _ => (8, 8, 64, 128),
    };
    let count = |r: &mut Rng, most: usize| {
        if r.chance(1, 8) {
            most
        } else {
            r.range(1, most)
        }
    };
    let n = count(r, t);
    let twins = r.chance(1, 4);
    let mut tones: Vec<Tone> = Vec::new();
    for number in distinct(r, n) {
        let curve = match tones.last() {
            Some(t) if twins => t.knots.clone(),
            _ if r.chance(1, 10) => Vec::new(),
            _ => knots(r, style),
        };
        tones.push(Tone {
            number,
            prior: match tones.last() {
                Some(t) if twins => t.prior,
                _ => fraction(r, style),
            },
            knots: curve,
            region: if r.chance(1, 3) {
                Some(region(r, style))
            } else {
                None
            },
            tail: None,
        });
    }

    let n = count(r, a);
    let numbers = distinct(r, n);
    let chain = r.chance(1, 2);
    let equal = tolerance(r, style);
    let mut accents: Vec<Accent> = Vec::new();
    for (i, &number) in numbers.iter().enumerate() {
        let parent = match i {
            0 => 0,
            _ if chain && r.chance(4, 5) => numbers[i - 1],
            _ if r.chance(1, 2) => 0,
            _ => numbers[r.below(i)],
        };
        let mut tolerances = if r.chance(1, 3) {
            [equal; 4]
        } else {
            [0; 4].map(|_| tolerance(r, style))
        };
        // Turning points lie within 1 of one another.
        if r.chance(2, 3) {
            tolerances[3] = r.pick(&[0.01, 0.03, 0.1, 0.2, 0.0625]);
        }
        accents.push(Accent {
            number,
            parent,
            tolerances,
            rules: Vec::new(),
        });
    }

    // A context-only tone mostly has rules at the roots, some for a part of its contexts.
    let (mut rules_left, mut parts_left) = (rules, parts);
    let bare: Vec<u8> = tones
        .iter()
        .filter(|t| t.knots.is_empty())
        .map(|t| t.number)
        .collect();
    for tone in bare {
        for accent in accents.iter_mut().filter(|a| a.parent == 0) {
            if rules_left == 0 || parts_left < 4 || r.chance(1, 5) {
                continue;
            }
            let mut new = rule(r, style, &tones, 4);
            new.tone = tone;
            if r.chance(3, 4) {
                (new.prev, new.fin) = (0, 0);
            }
            rules_left -= 1;
            parts_left -= new.parts.len();
            accent.rules.push(new);
        }
    }
    let wanted = if r.chance(1, 6) {
        rules_left
    } else {
        r.below(rules_left + 1)
    };
    for _ in 0..wanted {
        if parts_left == 0 {
            break;
        }
        let at = r.below(accents.len());
        let mut new = rule(r, style, &tones, parts_left);
        if let Some(old) = accents[at].rules.last() {
            // Ties in what is stated, and lists that are equal, or equal but for one thing.
            match r.below(8) {
                0 => (new.tone, new.prev, new.fin) = (old.tone, old.prev, old.fin),
                1 if old.parts.len() <= parts_left => {
                    (new.form, new.parts, new.label) = (old.form, old.parts.clone(), old.label);
                    match r.below(8) {
                        0 => new.label ^= 1,
                        1 => new.parts.reverse(),
                        2 if new.form == 3 => new.parts[0].weight = weight(r, style),
                        3 => {
                            for k in new.parts[0].knots.iter_mut().filter(|k| **k == 0.0) {
                                *k = -*k;
                            }
                        }
                        _ => {}
                    }
                }
                _ => {}
            }
        }
        parts_left -= new.parts.len();
        accents[at].rules.push(new);
    }
    if r.chance(1, 2) {
        for accent in &mut accents {
            r.shuffle(&mut accent.rules);
        }
    }
    // Parents stand earlier up to here.
    if r.chance(2, 3) {
        r.shuffle(&mut accents);
    }
    Pack {
        temperature: if r.chance(1, 2) {
            1.0
        } else {
            tolerance(r, style)
        },
        threshold: fraction(r, style),
        tones,
        accents,
    }
}

/// The accents, each with its rules, in any order.
pub fn reordered(r: &mut Rng, pack: &Pack) -> Pack {
    let mut other = pack.clone();
    r.shuffle(&mut other.accents);
    other
}

/// The same lookups in other bytes: accents in any order, a rule that another of its accent
/// shadows, and kind 7 with two zeros in place of none.
pub fn twin(r: &mut Rng, pack: &Pack) -> Pack {
    let mut accents = reordered(r, pack).accents;
    let (rules, parts) = (pack.rules(), pack.parts());
    let at = r.below(accents.len());
    if rules < 64 && parts < 128 && !accents[at].rules.is_empty() {
        let i = r.below(accents[at].rules.len());
        let mut shadowed = accents[at].rules[i].clone();
        shadowed.label ^= 0x0101;
        shadowed.form = 2;
        shadowed.parts = vec![Part {
            weight: 1.0,
            knots: vec![2.0],
        }];
        accents[at].rules.insert(i + 1, shadowed);
    }
    let mut tones = pack.tones.clone();
    let zeros = Some([0.0f32.to_bits(); 2]);
    for t in tones.iter_mut().filter(|_| r.chance(1, 3)) {
        match t.tail {
            None => t.tail = Some([0.0; 2]),
            Some(tail) if Some(tail.map(f32::to_bits)) == zeros => t.tail = None,
            _ => {}
        }
    }
    Pack {
        accents,
        tones,
        ..*pack
    }
}

/// One small change, which a lookup may show or not: another parent, a rule gone or moved, the label, a weight or the sign of a
/// knot of a rule, a tone's curve, or what no lookup carries (a prior, a tail, a tolerance, a setting).
pub fn nudge(r: &mut Rng, pack: &mut Pack) {
    let at = r.below(pack.accents.len());
    let rules = pack.accents[at].rules.len();
    match r.below(9) {
        0 => {
            // None, or one whose chain does not come back.
            let number = pack.accents[at].number;
            let others = pack.accents.iter().map(|a| a.number);
            let fit = others.filter(|&other| !pack.comes_to(other, number));
            let fit: Vec<u8> = fit.chain([0]).collect();
            pack.accents[at].parent = r.pick(&fit);
        }
        1 if rules > 0 => {
            let i = r.below(rules);
            pack.accents[at].rules.remove(i);
        }
        2 if rules > 1 => {
            let i = r.below(rules - 1);
            pack.accents[at].rules.swap(i, i + 1);
        }
        3 | 4 | 5 if rules > 0 => {
            let i = r.below(rules);
            let rule = &mut pack.accents[at].rules[i];
            let j = r.below(rule.parts.len());
            let k = r.below(rule.parts[j].knots.len());
            match r.below(3) {
                0 => rule.label ^= 1 << r.below(16),
                1 if rule.form == 3 => rule.parts[j].weight = pick!(r, 0.0, LEAST, 1.0),
                _ => rule.parts[j].knots[k] = -rule.parts[j].knots[k],
            }
        }
        6 => {
            let i = r.below(pack.tones.len());
            if let Some(knot) = pack.tones[i].knots.first_mut() {
                *knot = -*knot;
            }
        }
        7 => {
            let i = r.below(pack.tones.len());
            match r.below(3) {
                0 => pack.tones[i].tail = pick!(r, None, Some([0.0; 2]), Some([-0.0, 0.0])),
                1 => pack.tones[i].tail = Some([tails::value(r), tails::value(r)]),
                _ => pack.tones[i].prior = pick!(r, 1.0, 0.5, LEAST),
            }
        }
        _ => match r.below(2) {
            0 => pack.temperature = pick!(r, 1.0, 2.0),
            _ => pack.accents[at].tolerances[r.below(4)] = pick!(r, 1.0, 0.5),
        },
    }
}
