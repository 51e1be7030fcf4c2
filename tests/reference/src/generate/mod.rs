//! Cases from a seed.

pub mod counterexamples;
pub mod desk_cases;
pub mod desks;
pub mod expressions;
pub mod fixed;
pub mod lean;
pub mod malformed;
pub mod orders;
pub mod outlines;
mod paired;
pub mod policies;
pub mod retirings;
pub mod rewritings;
pub mod sandboxes;
pub mod states;
pub mod traces;
pub mod trees;

use crate::damage::Text;
use crate::rng::Rng;

/// A policies sheet, and a trace or an outline.
#[derive(Clone, Debug, PartialEq, Eq)]
pub struct Case {
    pub policies: Text,
    pub other: Text,
}

/// Which program a case is for.
#[derive(Clone, Copy, Debug, PartialEq, Eq)]
pub enum Kind {
    Trace,
    Outline,
    /// An outline again, of which the verdict and the length of a shortest counterexample are told.
    Counterexample,
}

impl Kind {
    /// The last letter of the second file's name.
    pub fn letter(self) -> char {
        match self {
            Kind::Trace => 't',
            Kind::Outline | Kind::Counterexample => 'o',
        }
    }
}

/// The fixed cases, then random ones.
pub fn cases(kind: Kind, seed: u64, count: usize) -> Vec<Case> {
    let mut rng = Rng::new(seed);
    let mut cases = match kind {
        Kind::Trace => fixed::trace_cases(),
        Kind::Outline => fixed::outline_cases(),
        Kind::Counterexample => counterexamples::fixed_cases(),
    };
    while cases.len() < count {
        match kind {
            Kind::Trace => cases.push(traces::random_case(&mut rng)),
            Kind::Outline => cases.extend(outlines::random_cases(&mut rng)),
            Kind::Counterexample => cases.extend(counterexamples::random_cases(&mut rng)),
        }
    }
    cases.truncate(count);
    cases
}
