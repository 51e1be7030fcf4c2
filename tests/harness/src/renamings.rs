//! Renumbered channels: a trace whose dynamic numbers are renamed in their order is answered, and printed, as the trace itself is.

use reference::generate::traces::write;
use reference::generate::Case;
use reference::judge::{Answer, Judge, Step, EVENT, LARGEST_RESOURCE, OPEN, RETIRE};
use reference::policy::{edges_fit, Edge, Policies, Sight, STATICS};
use reference::rng::Rng;
use reference::sheet::{read_policies, read_trace};
use std::collections::{BTreeMap, BTreeSet};

/// How many traces were renamed, how many of them under local policies, of how many steps, and how often an edge or a step was damaged first.
#[derive(Default)]
pub struct Tally {
    traces: usize,
    local: usize,
    steps: usize,
    damaged: usize,
}

/// What each dynamic number that occurs becomes.
struct Renaming(BTreeMap<u64, u64>);

impl Renaming {
    /// In the same order: next to each other at either end, each by as much as there is room for, or anywhere.
    fn random(rng: &mut Rng, steps: &[Step]) -> Renaming {
        let occurring: BTreeSet<u64> = steps.iter().filter_map(|step| named(*step)).collect();
        let count = occurring.len() as u64;
        let highest = occurring.last().copied().unwrap_or(STATICS);
        let room = LARGEST_RESOURCE - highest;
        let to: BTreeSet<u64> = match rng.below(6) {
            0 => (STATICS..STATICS + count).collect(),
            1 => (LARGEST_RESOURCE + 1 - count..=LARGEST_RESOURCE).collect(),
            2 => occurring.iter().map(|number| number + room).collect(),
            3 => occurring.iter().map(|number| number + room.min(1)).collect(),
            _ => {
                let mut any = BTreeSet::new();
                while (any.len() as u64) < count {
                    any.insert(rng.between(STATICS, LARGEST_RESOURCE));
                }
                any
            }
        };
        Renaming(occurring.into_iter().zip(to).collect())
    }

    /// Of an event and of a retiring only its resource, where it is a dynamic one; all else stays.
    fn step(&self, step: Step) -> Step {
        match named(step).map(|number| self.0[&number]) {
            None => step,
            Some(number) if step.kind == RETIRE => Step { a: number, ..step },
            Some(number) => Step { b: number, ..step },
        }
    }
}

/// The dynamic resource that a step names, refused or not.
fn named(step: Step) -> Option<u64> {
    let number = match step.kind {
        EVENT => step.b,
        RETIRE => step.a,
        _ => return None,
    };
    (STATICS..=LARGEST_RESOURCE).contains(&number).then_some(number)
}

/// Steps that 21 refuses; of these none is renamed but events with an action that is none, and a retiring with a number beside it.
const MISFITS: [Step; 10] = [
    Step { kind: 4, a: 0, b: 16 },
    Step { kind: 3, a: 16, b: 1 },
    Step { kind: 3, a: 65_536, b: 0 },
    Step { kind: u32::MAX as u64, a: 1, b: 65_535 },
    Step { kind: 0, a: 32, b: 16 },
    Step { kind: 0, a: 99, b: 65_535 },
    Step { kind: 0, a: 0, b: 65_536 },
    Step { kind: 0, a: 1, b: u32::MAX as u64 },
    Step { kind: OPEN, a: 0, b: 16 },
    Step { kind: 2, a: 0, b: 17 },
];

impl Tally {
    /// The trace of an accepted pair of sheets and its renamed one, as sheets, and then as steps with damaged ones among them.
    pub fn compare(&mut self, rng: &mut Rng, case: &Case) -> Result<(), String> {
        let (Ok(mut policies), Ok(mut steps)) = (read_policies(&case.policies), read_trace(&case.other)) else {
            return Ok(());
        };
        let written = write(&policies, &renamed(rng, &steps));
        if harness::monitor(&case.policies, &case.other) != harness::monitor(&case.policies, &written.other) {
            return Err(told("printed differently", &policies, &steps, &read_trace(&written.other).unwrap_or_default()));
        }
        self.damaged += damage(rng, &mut policies.edges, &mut steps);
        let other = renamed(rng, &steps);
        let [found, again] = [&steps, &other].map(|steps| harness::judged(&policies, steps));
        if found != again {
            return Err(told("answered differently", &policies, &steps, &other));
        }
        if found != Some(expected(&policies, &steps)) || found != Some(expected(&policies, &other)) {
            return Err(told("answered otherwise than by the reference", &policies, &steps, &other));
        }
        self.traces += 1;
        self.local += usize::from(policies.sight == Sight::Local);
        self.steps += steps.len();
        Ok(())
    }

    pub fn told(&self) -> String {
        let Tally { traces, local, steps, damaged } = self;
        format!("{traces} traces of {steps} steps, {local} of them under local policies, answered the same with their dynamic numbers renamed ({damaged} of them damaged first)")
    }
}

fn renamed(rng: &mut Rng, steps: &[Step]) -> Vec<Step> {
    let renaming = Renaming::random(rng, steps);
    steps.iter().map(|step| renaming.step(*step)).collect()
}

/// A step that is none here and there, and now and then an edge that no sheet has.
fn damage(rng: &mut Rng, edges: &mut [Edge], steps: &mut Vec<Step>) -> usize {
    let before = steps.len();
    if rng.percent(40) {
        for _ in 0..rng.between(1, 3) {
            let place = rng.below(steps.len() as u64 + 1) as usize;
            steps.insert(place, rng.pick(&MISFITS));
        }
    }
    if rng.percent(4) && !edges.is_empty() {
        // an edge that names a dynamic resource
        let at = rng.below(edges.len() as u64) as usize;
        edges[at].on = 0;
        edges[at].who = STATICS;
    }
    usize::from(before != steps.len() || !edges_fit(edges))
}

/// By the reference, over the whole past.
fn expected(policies: &Policies, steps: &[Step]) -> Vec<Answer> {
    if !edges_fit(&policies.edges) {
        return vec![Answer::Refused(41); steps.len()];
    }
    let mut judge = Judge::new(policies);
    steps.iter().map(|step| judge.judge(*step)).collect()
}

fn told(what: &str, policies: &Policies, steps: &[Step], renamed: &[Step]) -> String {
    let text = |steps: &[Step]| String::from_utf8_lossy(&write(policies, steps).other).into_owned();
    let sheet = String::from_utf8_lossy(&write(policies, steps).policies).into_owned();
    format!("a renamed trace is {what}\n-- policies\n{sheet}-- trace\n{}-- renamed\n{}", text(steps), text(renamed))
}
