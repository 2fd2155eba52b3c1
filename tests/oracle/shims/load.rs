//! Stands in for load.rs: a `LanguagePack` from the bytes of a pack that loads by document 01.
//! Nothing is checked and nothing is changed on the way. A rule's label is written `form:label`,
//! so that the Rust's own label of a component says which record it came from. A parent is looked
//! for when all accents are there, as it may stand later (change request 7). The table of creaky
//! tails names every tone, with two zeros where no kind 7 stands (change request 2). It is not put
//! through `validate`, which wants logarithms of probabilities, and refuses a value above 0.

use std::collections::BTreeMap;

use tonekit_core::{AccentId, Lect, ToneId};

use crate::calib::PlaceEvidence;
use crate::{
    Accent, Calibration, Citation, LanguagePack, Realization, Rule, Tolerance, UnvoicedOk, When,
};

fn f32_at(b: &[u8], at: usize) -> f32 {
    f32::from_bits(u32::from_le_bytes([b[at], b[at + 1], b[at + 2], b[at + 3]]))
}

fn knots_at(b: &[u8], at: usize) -> Vec<f32> {
    (0..usize::from(b[at]))
        .map(|k| f32_at(b, at + 1 + 4 * k))
        .collect()
}

fn number(n: u8) -> String {
    n.to_string()
}

fn unless_zero(n: u8) -> Option<ToneId> {
    (n != 0).then(|| ToneId(number(n)))
}

impl LanguagePack {
    pub fn from_station_pack(b: &[u8]) -> LanguagePack {
        let mut pack = LanguagePack {
            lect: Lect(String::new()),
            version: String::new(),
            inventory: Vec::new(),
            prior: Vec::new(),
            citations: Vec::new(),
            base_accent: AccentId(String::new()),
            heard_threshold: 0.0,
            unvoiced_ok: Vec::new(),
            confusions: Vec::new(),
            accents: Vec::new(),
            calibration: Calibration::default(),
        };
        let mut parents: Vec<AccentId> = Vec::new();
        let (mut phrase_final, mut other) = (BTreeMap::new(), BTreeMap::new());
        let mut at = 0;
        loop {
            let body = at + 1;
            match b[at] {
                1 => {
                    pack.calibration.temperature = f32_at(b, body);
                    pack.heard_threshold = f32_at(b, body + 4);
                    at += 9;
                }
                2 => {
                    let tone = ToneId(number(b[body]));
                    pack.inventory.push(tone.clone());
                    pack.prior.push(f32_at(b, body + 1));
                    pack.citations.push(if b[body + 5] == 0 {
                        Citation::Context
                    } else {
                        Citation::Knots(knots_at(b, body + 5))
                    });
                    if b[body + 46] == 1 {
                        let region = (f32_at(b, body + 47), f32_at(b, body + 51));
                        pack.unvoiced_ok.push(UnvoicedOk { tone, region });
                    }
                    phrase_final.insert(number(b[body]), 0.0);
                    other.insert(number(b[body]), 0.0);
                    at += 56;
                }
                7 => {
                    let tone = &pack.inventory.last().expect("a tone").0;
                    phrase_final.insert(tone.clone(), f32_at(b, body));
                    other.insert(tone.clone(), f32_at(b, body + 4));
                    at += 9;
                }
                3 => {
                    parents.push(AccentId(number(b[body + 1])));
                    pack.accents.push(Accent {
                        id: AccentId(number(b[body])),
                        inherits: None,
                        rules: Vec::new(),
                        tolerance: Tolerance {
                            contour: f32_at(b, body + 2),
                            onset: f32_at(b, body + 6),
                            offset: f32_at(b, body + 10),
                            turning_point: f32_at(b, body + 14),
                        },
                    });
                    at += 19;
                }
                4 => {
                    let label = u16::from_le_bytes([b[body], b[body + 1]]);
                    let form = b[body + 5];
                    pack.accents
                        .last_mut()
                        .expect("an accent")
                        .rules
                        .push(Rule {
                            label: format!("{form}:{label}"),
                            when: When {
                                tone: unless_zero(b[body + 2]),
                                prev: unless_zero(b[body + 3]),
                                phrase_final: match b[body + 4] {
                                    0 => None,
                                    f => Some(f == 2),
                                },
                            },
                            realization: if form == 2 {
                                Realization::Single(Vec::new())
                            } else {
                                Realization::Mixture(Vec::new())
                            },
                        });
                    at += 7;
                }
                5 => {
                    let knots = knots_at(b, body + 4);
                    let accent = pack.accents.last_mut().expect("an accent");
                    match &mut accent.rules.last_mut().expect("a rule").realization {
                        Realization::Single(k) => *k = knots,
                        Realization::Mixture(parts) => parts.push((knots, f32_at(b, body))),
                    }
                    at += 46;
                }
                _ => break,
            }
        }
        pack.calibration.creaky_tail = Some(PlaceEvidence {
            phrase_final,
            other,
        });
        let place = |of: &AccentId| pack.accents.iter().position(|a| a.id == *of);
        let places: Vec<Option<usize>> = parents.iter().map(place).collect();
        for (accent, parent) in pack.accents.iter_mut().zip(places) {
            accent.inherits = parent;
        }
        pack
    }
}
