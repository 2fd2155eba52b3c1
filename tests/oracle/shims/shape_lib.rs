//! Crate root of tonekit-shape, which is not among the files; and a way in for one of its functions that only its own may call.

mod chao;
mod extract;
mod fit;
mod joins;
mod register;

pub use chao::voiced_semitones;
pub use extract::{extract, extract_nucleus, Extracted};
pub use joins::{Joins, JOIN_TRIM_FRAMES};
pub use register::cold_register;

pub fn at_least_min_span(r: tonekit_core::Register) -> tonekit_core::Register {
    register::at_least_min_span(r)
}
