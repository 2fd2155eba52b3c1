//! Crate root of tonekit-core, which is not among the files: the modules, and the types that the
//! other crates name, each with the fields that its uses dictate.

mod ids;
mod judgement;
mod register;
mod shape;
mod signal;
mod style;

pub use ids::*;
pub use judgement::*;
pub use register::*;
pub use shape::*;
pub use signal::*;
pub use style::*;

/// Fields by expect.rs.
#[derive(Clone, Debug, PartialEq)]
pub struct GradingTarget {
    pub accent: AccentId,
    pub style: Option<StyleProfile>,
    pub style_weight: f32,
}

/// Fields by expect.rs and tail.rs.
#[derive(Clone, Debug, PartialEq)]
pub struct ToneTarget {
    pub tone: ToneId,
    pub lexical_variants: Vec<LexicalVariant>,
}

#[derive(Clone, Debug, PartialEq)]
pub struct LexicalVariant {
    pub tone: ToneId,
    pub weight: f32,
}

/// Fields by calib.rs. Nothing compared reads one.
#[derive(Clone, Debug, PartialEq)]
pub struct FusionWeights {
    pub beta0: f32,
    pub beta_acoustic: f32,
    pub beta_transcript: f32,
    pub beta_neural: f32,
    pub veto_cap: f32,
}

/// Fields by calib.rs. Nothing compared reads one.
#[derive(Clone, Debug, PartialEq)]
pub struct RollingParams {
    pub half_life_s: Option<f32>,
    pub max_share: Option<f32>,
}

impl RollingParams {
    pub const DEFAULT: RollingParams = RollingParams {
        half_life_s: None,
        max_share: None,
    };

    pub fn problem(&self) -> Option<String> {
        unreachable!("RollingParams::problem is a shim")
    }
}

/// Named by `own_run` in extract.rs, which only `extract_nucleus` calls.
pub fn syllable_runs(_: &[usize], _: &[f64]) -> Vec<Vec<std::ops::Range<usize>>> {
    unreachable!("syllable_runs is a shim")
}
