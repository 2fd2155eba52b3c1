//! Document 01, "Pack" and "Lookup", with change requests 2 and 7 of document 02.

use crate::bytes::*;
use crate::list::{List, Tone};
use crate::num::expand_knots;
use crate::plant::*;
use crate::Refusal;
use std::ops::Range;

#[derive(Clone, Copy)]
struct Knots {
    count: usize,
    values: [f32; 10],
}

impl Knots {
    fn used(&self) -> &[f32] {
        &self.values[..self.count.min(10)]
    }
}

pub struct Accent {
    pub number: u8,
    pub tolerances: [f32; 4],
    /// Offset of the record.
    at: usize,
    /// The parent's number, 0 for none.
    named: u8,
    /// Place of the parent among the accents, known when all of them are.
    parent: Option<usize>,
    rules: Range<usize>,
}

/// Accents on the way up from one, by their places.
struct Chain {
    /// Nine for a planted mistake.
    places: [usize; 9],
    count: usize,
    /// The one to which it comes back, if it never ends.
    back: Option<usize>,
}

impl Chain {
    fn accents(&self) -> &[usize] {
        &self.places[..self.count]
    }
}

struct Rule {
    label: u16,
    tone: u8,
    prev: u8,
    fin: u8,
    form: u8,
    parts: Range<usize>,
}

struct Part {
    weight: f32,
    knots: Knots,
}

pub struct Pack {
    pub temperature: f32,
    pub threshold: f32,
    pub tones: Vec<Tone>,
    citations: Vec<Knots>,
    pub accents: Vec<Accent>,
    rules: Vec<Rule>,
    parts: Vec<Part>,
    /// Tails read, for a planted mistake.
    tails: usize,
    /// Whether some rule names a tone that is not held; a planted mistake keeps it for End.
    rule_loose: bool,
}

/// Where a lookup's components come from.
#[derive(Clone, Copy)]
pub enum Origin {
    Rule { owner: usize, rule: usize },
    Citation { accent: usize, tone: usize },
}

/// "every record is one byte of kind, then a body whose length the kind fixes"
fn length_of(kind: u8) -> Option<usize> {
    Some(match kind {
        1 => 9,
        2 => 56,
        3 => 19,
        4 => 7,
        5 => 46,
        6 => 1,
        7 => 9,
        _ => return None,
    })
}

/// "Knots number 1 to 10, size at most 100; unused slots ... are zero bytes". `at` is where the
/// count stands; a count above 10 is refused before.
fn knots_in_range(bytes: &[u8], at: usize) -> bool {
    let count = usize::from(bytes[at]).min(10);
    let slots = &bytes[at + 1..at + 41];
    if planted(CONTEXT_SLOTS) && count == 0 {
        return true;
    }
    (0..count).all(|i| sized(f32_at(slots, 4 * i), 100.0))
        && unused_floats(&slots[4 * count..], UNUSED_KNOT_MINUS_ZERO)
}

fn knots_at(bytes: &[u8], at: usize) -> Knots {
    Knots { count: usize::from(bytes[at]), values: f32s_at(bytes, at + 1) }
}

impl Pack {
    /// "Order: Settings, Tones, then each Accent with its Rules, each Rule with its Parts, End." "Kind 7 may follow a Tone".
    pub fn read(bytes: &[u8]) -> Result<Pack, Refusal> {
        let mut walk = Walk::new(bytes, length_of);
        let mut pack = Pack {
            temperature: 0.0,
            threshold: 0.0,
            tones: Vec::with_capacity(8),
            citations: Vec::with_capacity(8),
            accents: Vec::with_capacity(8),
            rules: Vec::new(),
            parts: Vec::new(),
            tails: 0,
            rule_loose: false,
        };
        let mut last = 0;
        loop {
            if pack.ends_early(&walk, last) {
                pack.read_end(&walk)?;
            }
            let kind = walk.kind(|kind| pack.due(last, kind))?;
            walk.room(kind, pack.crowded(kind))?;
            match kind {
                1 => pack.read_settings(&walk)?,
                2 => pack.read_tone(&walk)?,
                3 => pack.read_accent(&walk)?,
                4 => pack.read_rule(&walk)?,
                5 => pack.read_part(&walk)?,
                7 => pack.read_tail(&walk)?,
                _ => pack.read_end(&walk)?,
            }
            walk.step(kind);
            last = kind;
            if kind == 6 {
                break;
            }
        }
        walk.end()?;
        Ok(pack)
    }

    /// Which kinds may follow the record before.
    fn due(&self, last: u8, kind: u8) -> bool {
        match last {
            0 => kind == 1,
            1 => {
                kind == 2
                    || planted(NO_TONE) && kind == 3
                    || planted(TAIL_AFTER_SETTINGS) && kind == 7
            }
            2 if kind == 7 => !(planted(TAIL_CITED_ONLY) && self.last_is_bare()),
            2 => kind == 2 || kind == 3 || planted(NO_ACCENT) && kind == 6,
            // Behind a tail: the next tone or the first accent, and no second tail.
            7 => match kind {
                2 => !planted(TAIL_ENDS_TONES),
                3 => true,
                6 => planted(NO_ACCENT),
                7 => planted(TAIL_TWICE),
                _ => false,
            },
            3 => {
                matches!(kind, 3 | 4 | 6)
                    || planted(TONE_LATE) && kind == 2
                    || planted(TAIL_AFTER_ACCENT) && kind == 7
            }
            4 => kind == 5 || planted(NO_PART) && matches!(kind, 3 | 4 | 6),
            5 => matches!(kind, 3..=6) || planted(TAIL_AFTER_PART) && kind == 7,
            _ => false,
        }
    }

    /// "1 to 8 tones, 1 to 8 accents, at most 64 rules, 1 to 4 parts a rule, 128 parts in all";
    /// in form 2 "a second part is 4".
    fn crowded(&self, kind: u8) -> bool {
        match kind {
            2 => {
                let most = if planted(TONES_9) {
                    9
                } else if planted(TONES_7) {
                    7
                } else {
                    8
                };
                self.tones.len() + if planted(TAIL_COUNTED) { self.tails } else { 0 } >= most
            }
            3 => {
                let most = if planted(ACCENTS_9) {
                    9
                } else if planted(ACCENTS_7) {
                    7
                } else {
                    8
                };
                self.accents.len() >= most
            }
            4 => {
                let most = if planted(RULES_65) {
                    65
                } else if planted(RULES_63) {
                    63
                } else {
                    64
                };
                self.rules.len() >= most
            }
            5 => {
                let rule = self.rules.last().map_or(0, |r| r.parts.len());
                let most = if planted(PARTS_5) {
                    5
                } else if planted(PARTS_3) {
                    3
                } else {
                    4
                };
                let all = if planted(PARTS_129) {
                    129
                } else if planted(PARTS_127) {
                    127
                } else {
                    128
                };
                let single = self.rules.last().is_some_and(|r| r.form == 2);
                rule >= most
                    || self.parts.len() >= all
                    || single && rule >= 1 && !planted(SINGLE_TWO_PARTS)
            }
            _ => false,
        }
    }

    fn read_settings(&mut self, walk: &Walk) -> Result<(), Refusal> {
        self.temperature = f32_at(walk.bytes, walk.at + 1);
        self.threshold = f32_at(walk.bytes, walk.at + 5);
        walk.check(5, finite_above_zero(self.temperature) && share(self.threshold))
    }

    fn read_tone(&mut self, walk: &Walk) -> Result<(), Refusal> {
        let (bytes, at) = (walk.bytes, walk.at);
        let number = bytes[at + 1];
        let prior = f32_at(bytes, at + 2);
        let in_range = (number != 0 || planted(TONE_ZERO))
            && share(prior)
            && knots_in_range(bytes, at + 6)
            && region_in_range(bytes, at + 47);
        let new = self.tones.iter().all(|t| t.number != number) || planted(TONE_TWICE);
        if planted(RANGE_BEFORE_COUNT) {
            walk.check(5, in_range)?;
        }
        if planted(DOUBLED_BEFORE_RANGE) {
            walk.check(6, new)?;
        }
        walk.check(4, bytes[at + 6] <= 10)?;
        walk.check(5, in_range)?;
        walk.check(6, new)?;
        self.tones.push(Tone {
            number,
            prior,
            flag: bytes[at + 47],
            from: f32_at(bytes, at + 48),
            to: f32_at(bytes, at + 52),
            tail: match () {
                _ if planted(TAIL_TO_NEXT) && bytes[at - 9] == 7 => tail_at(bytes, at - 9),
                _ => [0.0; 2],
            },
        });
        self.citations.push(knots_at(bytes, at + 6));
        Ok(())
    }

    /// Whether the last tone has no citation.
    fn last_is_bare(&self) -> bool {
        self.citations.last().is_some_and(|knots| knots.count == 0)
    }

    /// "Kind 7 may follow a Tone: two f32, the tail value at phrase end and elsewhere".
    fn read_tail(&mut self, walk: &Walk) -> Result<(), Refusal> {
        let fine = tail_in_range(walk.bytes, walk.at);
        if planted(TAIL_PLACE_TONE) && !fine {
            return refuse(5, walk.at - 56);
        }
        walk.check(5, fine)?;
        self.tails += 1;
        if let Some(tone) = self.tones.last_mut() {
            if !(planted(PACK_TAIL_UNREAD) || planted(TAIL_TO_NEXT)) {
                tone.tail = tail_at(walk.bytes, walk.at);
            }
        }
        Ok(())
    }

    fn read_accent(&mut self, walk: &Walk) -> Result<(), Refusal> {
        let (bytes, at) = (walk.bytes, walk.at);
        let number = bytes[at + 1];
        let tolerances: [f32; 4] = f32s_at(bytes, at + 3);
        walk.check(5, number != 0 && tolerances.iter().all(|&t| finite_above_zero(t)))?;
        let new = self.accents.iter().all(|a| a.number != number) || planted(ACCENT_TWICE);
        walk.check(6, new)?;
        if planted(NAMED_DOUBLED) {
            walk.check(6, self.accents.iter().all(|a| a.named != number))?;
        }
        let (named, rules) = (bytes[at + 2], self.rules.len()..self.rules.len());
        if planted(PARENT_ON_SIGHT) {
            walk.check(7, named == 0 || self.accents.iter().any(|a| a.number == named))?;
        }
        self.accents.push(Accent { number, tolerances, at, named, parent: None, rules });
        if planted(ENDLESS_ON_SIGHT) {
            self.find_parents();
            walk.check(20, self.endless().is_none())?;
        }
        Ok(())
    }

    /// "A parent may now be any accent of the file." Zero means no parent.
    fn find_parents(&mut self) {
        for i in 0..self.accents.len() {
            let named = self.accents[i].named;
            self.accents[i].parent = self.accents.iter().position(|a| a.number == named);
        }
    }

    /// The first accent with a parent that no accent is.
    fn loose(&self) -> Option<usize> {
        let held = |i: usize| {
            let accent = &self.accents[i];
            match accent.parent {
                None => accent.named == 0 || planted(PARENT_LOOSE),
                Some(parent) if planted(PARENT_EARLIER) => parent < i,
                Some(parent) => parent != i || !planted(ITSELF_LOOSE),
            }
        };
        let last = self.accents.len().saturating_sub(1);
        (0..self.accents.len())
            .filter(|&i| !(planted(FIRST_PARENT_SKIPPED) && i == 0))
            .filter(|&i| !(planted(LAST_PARENT_SKIPPED) && i == last))
            .find(|&i| !held(i))
    }

    /// An accent and those up its parents, each once.
    fn chain(&self, accent: usize) -> Chain {
        let mut chain = Chain { places: [0; 9], count: 0, back: Some(accent) };
        while let Some(at) = chain.back.filter(|at| !chain.accents().contains(at)) {
            chain.places[chain.count] = at;
            chain.count += 1;
            chain.back = self.accents[at].parent;
        }
        chain
    }

    /// The first accent whose chain never ends. "Every chain must reach an accent with no parent."
    fn endless(&self) -> Option<usize> {
        let count = self.accents.len();
        let mut met: Vec<usize> = Vec::new();
        let mut never = |start: usize| {
            let chain = self.chain(start);
            let again = chain.accents().iter().any(|at| met.contains(at));
            if planted(CHAIN_MARKS_KEPT) {
                met.extend(chain.accents());
            }
            match chain.accents().iter().position(|&at| Some(at) == chain.back) {
                None => {
                    planted(CHAIN_OF_8) && chain.count >= 8
                        || planted(CHAIN_OF_ALL) && chain.count == count && count > 1
                        || again
                }
                Some(from) => match chain.count - from {
                    1 => !planted(PARENT_ITSELF),
                    2 if planted(RING_OF_2) => false,
                    8.. if planted(RING_OF_8) => false,
                    _ => !planted(RING_LONG),
                },
            }
        };
        let starts = if planted(CHAIN_FIRST_ONLY) {
            0..1
        } else if planted(CHAIN_LAST_ONLY) {
            count - 1..count
        } else {
            0..count
        };
        starts.into_iter().find(|&start| never(start))
    }

    /// "The parent part of 7 moves to End." "20 when some chain never ends, checked at End after 7,
    /// both with End's offset as place."
    fn read_end(&mut self, walk: &Walk) -> Result<(), Refusal> {
        self.find_parents();
        walk.check(7, !self.rule_loose)?;
        let (mut loose, endless) = (self.loose(), self.endless());
        if planted(ENDLESS_BEFORE_LOOSE) && endless.is_some() {
            loose = None;
        }
        let overrun = if loose.is_some() { OVERRUN_BEFORE_LOOSE } else { OVERRUN_BEFORE_ENDLESS };
        if planted(overrun) && walk.bytes.len() > walk.at + 1 {
            return refuse(3, walk.at + 1);
        }
        if let Some(accent) = loose {
            let place = if planted(PARENT_PLACE_ACCENT) {
                self.accents[accent].at
            } else if planted(PARENT_PLACE_PAST) {
                walk.at + 1
            } else if planted(PARENT_PLACE_INPUT) {
                walk.bytes.len()
            } else {
                walk.at
            };
            return refuse(7, place);
        }
        if let Some(accent) = endless {
            let place = if planted(ENDLESS_PLACE_ACCENT) {
                self.accents[accent].at
            } else if planted(ENDLESS_PLACE_PAST) {
                walk.at + 1
            } else if planted(ENDLESS_PLACE_ZERO) {
                0
            } else {
                walk.at
            };
            return refuse(if planted(ENDLESS_LOOSE) { 7 } else { 20 }, place);
        }
        Ok(())
    }

    /// Planted mistakes: whether parents are judged before the next kind is.
    fn ends_early(&self, walk: &Walk, last: u8) -> bool {
        let end_due = matches!(last, 3 | 5);
        match walk.bytes.get(walk.at) {
            None => planted(END_MISSING) && end_due,
            Some(6) => planted(END_NOT_DUE) && !end_due,
            Some(&kind) => planted(END_OTHER_KIND) && end_due && !self.due(last, kind),
        }
    }

    fn read_rule(&mut self, walk: &Walk) -> Result<(), Refusal> {
        let (bytes, at) = (walk.bytes, walk.at);
        let rule = Rule {
            label: u16_at(bytes, at + 1),
            tone: bytes[at + 3],
            prev: bytes[at + 4],
            fin: bytes[at + 5],
            form: bytes[at + 6],
            parts: self.parts.len()..self.parts.len(),
        };
        let held = |tone: u8| tone == 0 || self.tones.iter().any(|t| t.number == tone);
        let named = (held(rule.tone) || planted(RULE_TONE_LOOSE))
            && (held(rule.prev) || planted(RULE_PREV_LOOSE));
        if planted(LOOSE_BEFORE_RANGE) {
            walk.check(7, named)?;
        }
        let named = if planted(RULE_LOOSE_AT_END) {
            self.rule_loose |= !named;
            true
        } else {
            named
        };
        let last_final = if planted(FINAL_3) { 3 } else { 2 };
        let forms = if planted(FORM_1) { 1..=3 } else { 2..=3 };
        let label = !planted(LABEL_ZERO) || rule.label != 0;
        walk.check(5, rule.fin <= last_final && forms.contains(&rule.form) && label)?;
        walk.check(7, named)?;
        self.rules.push(rule);
        if let Some(accent) = self.accents.last_mut() {
            accent.rules.end = self.rules.len();
        }
        Ok(())
    }

    fn read_part(&mut self, walk: &Walk) -> Result<(), Refusal> {
        let (bytes, at) = (walk.bytes, walk.at);
        let value = f32_at(bytes, at + 1);
        let single = self.rules.last().is_some_and(|r| r.form == 2);
        // "its part's weight is 1, else 5"
        let in_range = weight(value)
            && (!single || value == 1.0 || planted(SINGLE_ANY_WEIGHT))
            && (bytes[at + 5] >= 1 || planted(KNOTS_NONE))
            && knots_in_range(bytes, at + 5);
        if planted(RANGE_BEFORE_COUNT) {
            walk.check(5, in_range)?;
        }
        let most = if planted(KNOTS_11) { 11 } else { 10 };
        walk.check(4, bytes[at + 5] <= most)?;
        if planted(NO_KNOTS_IS_CROWDED) {
            walk.check(4, bytes[at + 5] >= 1)?;
        }
        walk.check(5, in_range)?;
        self.parts.push(Part { weight: value, knots: knots_at(bytes, at + 5) });
        if let Some(rule) = self.rules.last_mut() {
            rule.parts.end = self.parts.len();
        }
        Ok(())
    }

    /// "from the graded accent up its parents, the first accent with any matching rule gives its
    /// most specific one (conditions stated), the first among equals"
    fn find_rule(&self, accent: usize, tone: u8, prev: u8, fin: bool) -> Option<Origin> {
        let mut best_of_chain: Option<(u8, Origin)> = None;
        for &owner in self.asked(accent).accents() {
            let mut best: Option<(u8, Origin)> = None;
            for rule in self.accents[owner].rules.clone() {
                let r = &self.rules[rule];
                if !r.matches(tone, prev, fin) {
                    continue;
                }
                let stated = r.stated();
                let better = match best {
                    None => true,
                    Some((most, _)) if planted(LAST_EQUAL_RULE) => stated >= most,
                    Some(_) if planted(FIRST_MATCH) => false,
                    Some((most, _)) if planted(LEAST_SPECIFIC) => stated < most,
                    Some((most, _)) => stated > most,
                };
                if better {
                    best = Some((stated, Origin::Rule { owner, rule }));
                }
            }
            if planted(BEST_OF_CHAIN) {
                if best.is_some_and(|(s, _)| best_of_chain.is_none_or(|(most, _)| s > most)) {
                    best_of_chain = best;
                }
            } else if best.is_some() {
                return best.map(|(_, origin)| origin);
            }
        }
        best_of_chain.map(|(_, origin)| origin)
    }

    /// The accents that a lookup asks, in order. "The lookup is still nearest accent first."
    fn asked(&self, accent: usize) -> Chain {
        let mut chain = self.chain(accent);
        let at = chain.places;
        let most = if planted(NO_PARENTS) {
            Some(1)
        } else if planted(ONE_PARENT) {
            Some(2)
        } else if planted(LOOKUP_EARLIER) {
            (1..chain.count).find(|&i| at[i] > at[i - 1])
        } else if planted(LOOKUP_BEFORE_GRADED) {
            (1..chain.count).find(|&i| at[i] > accent)
        } else {
            None
        };
        chain.count = chain.count.min(most.unwrap_or(9));
        if planted(LOOKUP_IN_FILE_ORDER) {
            chain.places[..chain.count].sort_unstable();
        }
        if planted(LOOKUP_FROM_ROOT) {
            chain.places[..chain.count].reverse();
        }
        chain
    }

    /// "If none matches on the chain, the tone's citation; if context only, nothing."
    pub fn origin(&self, accent: usize, tone: usize, prev: u8, fin: bool) -> Option<Origin> {
        self.find_rule(accent, self.tones[tone].number, prev, fin).or_else(|| {
            let cited = self.citations[tone].count > 0 || planted(CONTEXT_CITED);
            cited.then_some(Origin::Citation { accent, tone })
        })
    }

    /// A number for each origin: rules first, then citations.
    pub fn origin_index(&self, origin: Origin) -> usize {
        match origin {
            Origin::Rule { rule, .. } => rule,
            Origin::Citation { accent, tone } => {
                self.rules.len() + accent * self.tones.len() + tone
            }
        }
    }

    pub fn origins(&self) -> usize {
        self.rules.len() + self.accents.len() * self.tones.len()
    }

    /// The components an origin gives. "A citation has form 1, the graded accent as owner,
    /// label 0, weight 1."
    pub fn list(&self, origin: Origin, graded: usize) -> List {
        match origin {
            Origin::Citation { accent, tone } => {
                let owner = if planted(CITATION_OWNER) { 0 } else { accent };
                let mut list = List::empty(self.accents[owner].number, 1, 0);
                list.push(1.0, expand_knots(self.citations[tone].used()));
                list
            }
            Origin::Rule { owner, rule } => {
                let rule = &self.rules[rule];
                let owner = if planted(GRADED_OWNER) { graded } else { owner };
                let label = if planted(SINGLE_LABEL) && rule.form == 2 { 0 } else { rule.label };
                let mut list = List::empty(self.accents[owner].number, rule.form, label);
                for part in &self.parts[rule.parts.clone()] {
                    if planted(ZERO_PARTS_LEFT_OUT) && part.weight == 0.0 {
                        continue;
                    }
                    list.push(part.weight, expand_knots(part.knots.used()));
                }
                list
            }
        }
    }
}

impl Rule {
    /// "Zero means ... any tone, any prev"; "Rule final: 0 any, 1 no, 2 yes."
    fn matches(&self, tone: u8, prev: u8, fin: bool) -> bool {
        let fin_of_rule =
            if planted(FINAL_SWAPPED) && self.fin > 0 { 3 - self.fin } else { self.fin };
        (self.tone == 0 || self.tone == tone)
            && (self.prev == 0 || self.prev == prev || planted(PREV_NONE_MATCHES) && prev == 0)
            && match fin_of_rule {
                1 => !fin,
                2 => fin,
                _ => true,
            }
    }

    /// Conditions stated.
    fn stated(&self) -> u8 {
        if planted(FINAL_NOT_COUNTED) {
            return u8::from(self.tone != 0) + u8::from(self.prev != 0);
        }
        if planted(PREV_COUNTS_DOUBLE) {
            return u8::from(self.tone != 0)
                + 2 * u8::from(self.prev != 0)
                + u8::from(self.fin != 0);
        }
        u8::from(self.tone != 0) + u8::from(self.prev != 0) + u8::from(self.fin != 0)
    }
}
