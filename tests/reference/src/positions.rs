//! Positions: "all the different lists of parts that runs with the steps so far can hold", by enumeration.

use crate::judge::{Step, CREATE, EVENT};
use crate::outline::Node;
use crate::policy::{is_static, STATICS};
use crate::run::{Part, Run, Way};
use std::collections::BTreeSet;

pub const MOST_POSITIONS: usize = 64;
pub const MOST_PARTS: usize = 16;

/// A list of parts; the first part is the last of it.
pub type Position = Vec<Part>;

/// All of them; none where there are more than 64, or one has more than 16 parts.
pub type Positions = Option<BTreeSet<Position>>;

/// How many there may be, and how many parts each may have.
#[derive(Clone, Copy)]
pub struct Limits {
    pub positions: usize,
    pub parts: usize,
}

pub const LIMITS: Limits = Limits { positions: MOST_POSITIONS, parts: MOST_PARTS };

/// Those of runs without a step.
pub fn at_start(nodes: &[Node]) -> Positions {
    of_steps(nodes, &[], LIMITS)
}

/// Those of runs with one more step. That a resource which it creates is in no step before is not asked here.
pub fn after(nodes: &[Node], positions: &BTreeSet<Position>, step: Step) -> Positions {
    settled(nodes, strode(nodes, positions, step), LIMITS)
}

/// Those of runs with these steps; none where a limit is exceeded after some beginning of them.
pub fn of_steps(nodes: &[Node], steps: &[Step], limits: Limits) -> Positions {
    let start = settled(nodes, [Run::start().parts().to_vec()].into(), limits);
    let one = |positions: BTreeSet<Position>, step: &Step| settled(nodes, strode(nodes, &positions, *step), limits);
    steps.iter().try_fold(start?, one)
}

/// What a move that adds this step leads to.
pub fn strode(nodes: &[Node], positions: &BTreeSet<Position>, step: Step) -> BTreeSet<Position> {
    let mut found = BTreeSet::new();
    for position in positions {
        for run in moved(nodes, position, given(step)) {
            if run.steps == [step] {
                found.insert(run.parts().to_vec());
            }
        }
    }
    found
}

/// The steps that can follow, fresh nodes giving this resource.
pub fn next_steps(nodes: &[Node], positions: &BTreeSet<Position>, resource: u64) -> Vec<Step> {
    let mut steps = Vec::new();
    for position in positions {
        for run in moved(nodes, position, resource) {
            steps.extend(run.steps.into_iter().filter(|step| !steps.contains(step)).collect::<Vec<_>>());
        }
    }
    steps
}

/// What moves that add no step lead to, in any number.
fn settled(nodes: &[Node], first: BTreeSet<Position>, limits: Limits) -> Positions {
    let mut all = first.clone();
    let mut last: Vec<Position> = first.into_iter().collect();
    loop {
        if all.len() > limits.positions || all.iter().any(|position| position.len() > limits.parts) {
            return None;
        }
        let Some(position) = last.pop() else {
            return Some(all);
        };
        for run in moved(nodes, &position, STATICS) {
            let parts = run.parts().to_vec();
            if run.steps.is_empty() && all.insert(parts.clone()) {
                last.push(parts);
            }
        }
    }
}

/// One move of a run that holds these parts, each way.
fn moved(nodes: &[Node], position: &Position, resource: u64) -> Vec<Run> {
    let run = Run::holding(position.clone());
    if run.is_over() || run.is_stuck(nodes) {
        return vec![];
    }
    let ways: &[Way] = if run.chooses(nodes) { &[Way::Left, Way::Right] } else { &[Way::Left] };
    let one = |way: &Way| {
        let mut next = run.clone();
        next.advance_giving(nodes, *way, resource);
        next
    };
    ways.iter().map(one).collect()
}

/// The resource that a fresh node must give for this step; any where the step is no create of a dynamic one, since then it leads elsewhere.
fn given(step: Step) -> u64 {
    if step.kind == EVENT && step.a == CREATE && !is_static(step.b) {
        step.b
    } else {
        STATICS
    }
}
