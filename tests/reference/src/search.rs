//! Explicit search over runs, breadth first, up to a bound.

use crate::judge::{events, seen, unclosed};
use crate::outline::Node;
use crate::policy::{Policies, Policy, States, POLICIES};
use crate::run::{Part, Run, Way};
use std::collections::{HashSet, VecDeque};

pub struct Found {
    /// The policies that some trace seen leaves open and not respected.
    pub broken: [bool; POLICIES],
    /// Were all runs seen?
    pub complete: bool,
}

/// Looks at up to `bound` runs.
pub fn search(policies: &Policies, nodes: &[Node], bound: usize) -> Found {
    let policies = Policy::all(policies);
    let mut found = Found { broken: [false; POLICIES], complete: false };
    let mut queue = VecDeque::from([Run::start()]);
    for _ in 0..bound {
        let Some(run) = queue.pop_front() else {
            found.complete = true;
            return found;
        };
        for next in successors(nodes, &run) {
            if next.steps.len() > run.steps.len() {
                next.broken(&policies).into_iter().for_each(|p| found.broken[p] = true);
            }
            queue.push_back(next);
        }
    }
    found.complete = queue.is_empty();
    found
}

pub(crate) fn successors(nodes: &[Node], run: &Run) -> Vec<Run> {
    if run.is_over() {
        return vec![];
    }
    let ways: &[Way] = if run.chooses(nodes) { &[Way::Left, Way::Right] } else { &[Way::Left] };
    let advanced = |way: &Way| {
        let mut next = run.clone();
        next.advance(nodes, *way);
        next
    };
    ways.iter().map(advanced).collect()
}

/// What a search for a shortest trace has seen.
#[derive(Clone, Copy, Debug, PartialEq, Eq)]
pub struct Seen {
    /// The steps of the shortest trace seen that leaves the policy open and not respected.
    pub length: Option<u64>,
    /// All traces of fewer steps than this were seen.
    pub whole_below: u64,
    /// Were all traces seen?
    pub all: bool,
}

/// Two runs of as many steps that agree in this go on alike: the parts still to run, whether the
/// policy is open, and the states of its instances.
type Standing = (Vec<Part>, usize, Vec<States>);

fn standing(policy: &Policy, run: &Run) -> Standing {
    let seen = seen(policy, &run.steps);
    let instances = policy.instances(&events(&run.steps)).into_iter();
    let states = instances.map(|instance| policy.states_after(instance, &seen));
    let unclosed = unclosed(&run.steps).into_iter().filter(|open| *open == policy.number).count();
    (run.parts().to_vec(), unclosed, states.collect())
}

/// The shortest trace that leaves the policy open and not respected, by going through all runs of no
/// step, of one step, of two and on. Looks at up to `bound` runs, of at most `most_parts` parts each.
pub fn shortest(
    policies: &Policies,
    nodes: &[Node],
    number: usize,
    bound: usize,
    most_parts: usize,
) -> Seen {
    let policies = Policy::all(policies);
    let mut looked = 0;
    let mut whole = true;
    let mut seen = Seen { length: None, whole_below: 1, all: false };
    let mut level = vec![Run::start()];
    for steps in 0.. {
        let mut next = Vec::new();
        let mut met: HashSet<Standing> = HashSet::new();
        while let Some(run) = level.pop() {
            looked += 1;
            if looked > bound || run.parts().len() > most_parts {
                whole = false;
                continue;
            }
            for after in successors(nodes, &run) {
                if after.steps.len() > run.steps.len() {
                    next.push(after);
                } else if met.insert(standing(&policies[number], &after)) {
                    level.push(after);
                }
            }
        }
        if whole {
            // all traces of steps + 1 steps are those of `next`
            seen.whole_below = steps + 2;
        }
        if next.iter().any(|run| run.broken(&policies).contains(&number)) {
            return Seen { length: Some(steps + 1), ..seen };
        }
        let mut met: HashSet<Standing> = HashSet::new();
        next.retain(|run| met.insert(standing(&policies[number], run)));
        if next.is_empty() {
            return Seen { all: whole, ..seen };
        }
        if looked > bound {
            return seen;
        }
        level = next;
    }
    unreachable!("the levels have no end")
}
