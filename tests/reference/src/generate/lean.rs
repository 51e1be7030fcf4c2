//! Traces of outlines and off them, for the lean judge.

use crate::damage::{rows, Text};
use crate::generate::{counterexamples, fixed, outlines, Case};
use crate::judge::{created, Step};
use crate::outline::Node;
use crate::program::tables;
use crate::rng::Rng;
use crate::run::{Run, Way};
use crate::sheet::TRACE_NAMES;

/// The steps of a trace, at most, and the moves that it is made by.
const MOST_STEPS: usize = 40;
const MOST_MOVES: usize = 400;

/// Every so many of the fixed cases is taken.
const FIXED_APART: usize = 5;

/// A sheet of policies, of an outline and of a trace, none of which is refused.
pub struct Sheets {
    pub policies: Text,
    pub outline: Text,
    pub trace: Text,
}

/// Half of the traces are traces of the outline, with retirings among them; the others are not quite.
pub fn cases(seed: u64, count: usize) -> Vec<Sheets> {
    let mut rng = Rng::new(seed);
    let fixed = [counterexamples::fixed_cases(), fixed::outline_cases()].concat();
    let mut cases: Vec<Sheets> = fixed.into_iter().step_by(FIXED_APART).filter_map(|case| sheets(&mut rng, case)).collect();
    cases.truncate(count / 2);
    while cases.len() < count {
        let more: Vec<Case> = outlines::random_cases(&mut rng);
        cases.extend(more.into_iter().filter_map(|case| sheets(&mut rng, case)));
    }
    cases.truncate(count);
    cases
}

fn sheets(rng: &mut Rng, case: Case) -> Option<Sheets> {
    let (_, nodes) = tables(&case.policies, &case.other).ok()?;
    let trace = random_trace(rng, &nodes);
    let on = with_retirings(rng, trace);
    let steps = if rng.percent(50) { on } else { strayed(rng, on) };
    Some(Sheets { policies: case.policies, outline: case.other, trace: rows(TRACE_NAMES, steps.iter().map(Step::row)) })
}

/// The steps of a random run.
pub fn random_trace(rng: &mut Rng, nodes: &[Node]) -> Vec<Step> {
    let mut run = Run::start();
    for _ in 0..MOST_MOVES {
        if run.is_over() || run.steps.len() >= MOST_STEPS {
            break;
        }
        run.advance(nodes, if rng.percent(50) { Way::Left } else { Way::Right });
    }
    run.steps
}

/// Retirings of created resources and of others, anywhere.
pub fn with_retirings(rng: &mut Rng, steps: Vec<Step>) -> Vec<Step> {
    let mut more = Vec::new();
    for step in steps {
        if rng.percent(10) {
            let made = created(&more);
            let resource = if made.is_empty() { 16 } else { made[rng.below(made.len() as u64) as usize] };
            more.push(Step::retire(resource));
        }
        more.push(step);
    }
    more
}

/// A step is put in or left out.
pub fn strayed(rng: &mut Rng, mut steps: Vec<Step>) -> Vec<Step> {
    let place = rng.below(steps.len() as u64 + 1) as usize;
    match rng.below(4) {
        0 if place < steps.len() => drop(steps.remove(place)),
        1 => steps.insert(place, Step::open(rng.below(8))),
        2 => steps.insert(place, Step::close(rng.below(8))),
        _ => steps.insert(place, Step::event(1 + rng.below(7), rng.below(18))),
    }
    steps
}
