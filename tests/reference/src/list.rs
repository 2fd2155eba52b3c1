//! What pack and sheet have in common: tones, and the lists of components that a lookup gives.

use crate::plant::*;

/// A tone as both pack and sheet hold it.
#[derive(Clone, Copy)]
pub struct Tone {
    pub number: u8,
    pub prior: f32,
    pub flag: u8,
    pub from: f32,
    pub to: f32,
    /// "the tail value at phrase end and elsewhere"; "A tone without one has zeros."
    pub tail: [f32; 2],
}

/// "Components carry owner, form, label, part number, weight and ten points". The part number is
/// the place in the list, from 0.
#[derive(Clone, Copy)]
pub struct List {
    pub owner: u8,
    pub form: u8,
    pub label: u16,
    pub count: usize,
    pub weights: [f32; 4],
    pub points: [[f32; 10]; 4],
}

impl List {
    pub fn empty(owner: u8, form: u8, label: u16) -> List {
        List { owner, form, label, count: 0, weights: [0.0; 4], points: [[0.0; 10]; 4] }
    }

    pub fn push(&mut self, weight: f32, points: [f32; 10]) {
        if self.count < 4 {
            self.weights[self.count] = weight;
            self.points[self.count] = points;
            self.count += 1;
        }
    }

    /// "Lists equal in every bit are one": owner, form, label, count, weights and points.
    pub fn same(&self, other: &List) -> bool {
        let bits = |x: f32| {
            if planted(LIST_SIGNS_IGNORED) {
                x.to_bits() & 0x7FFF_FFFF
            } else if planted(LIST_ZEROS_EQUAL) && x == 0.0 {
                0
            } else {
                x.to_bits()
            }
        };
        (self.owner == other.owner || planted(LIST_OWNER_IGNORED))
            && (self.form == other.form || planted(LIST_FORM_IGNORED))
            && (self.label == other.label || planted(LIST_LABEL_IGNORED))
            && self.count == other.count
            && (0..self.count).all(|i| {
                (bits(self.weights[i]) == bits(other.weights[i]) || planted(LIST_WEIGHT_IGNORED))
                    && (0..10).all(|k| {
                        bits(self.points[i][k]) == bits(other.points[i][k])
                            || planted(LIST_LAST_POINT_IGNORED) && k == 9
                    })
            })
    }
}

/// What judging asks of a pack or of a sheet.
pub trait Source {
    /// Temperature and heard threshold.
    fn settings(&self) -> (f32, f32);
    /// "The inventory is every tone held, context only ones too."
    fn tones(&self) -> &[Tone];
    /// The place of a held accent.
    fn accent(&self, number: u8) -> Option<usize>;
    fn tolerances(&self, accent: usize) -> [f32; 4];
    /// Accent and tone by place; prev by number, 0 or a held tone.
    fn look(&self, accent: usize, tone: usize, prev: u8, fin: bool) -> Option<List>;

    fn tone(&self, number: u8) -> Option<usize> {
        self.tones().iter().position(|t| t.number == number)
    }
}
