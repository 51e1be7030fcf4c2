//! The exact summary of an outline, and the judge that looks only where a summary marks.

use crate::judge::{Answer, Judge, Step, EVENT, OPEN};
use crate::outline::{Node, SANDBOX};
use crate::policy::{Edge, Policies, Policy, POLICIES};
use crate::pushdown::{reaches, tables};
use crate::run::Run;
use crate::search::successors;
use crate::system::{Choice, System};
use std::collections::{BTreeMap, VecDeque};

/// For each policy a number: bits 0 to 31 are its marked actions, bit 32 is its opening's mark.
pub type Marks = [u64; POLICIES];

pub const OPENING_BIT: u32 = 32;

/// The bits of a number: the actions, and the opening.
pub const MARK_BITS: u32 = OPENING_BIT + 1;

/// "for each policy, which actions, and whether its opening, can be the last step of a trace that leaves it open and not respected". For each
/// policy, watched resource and last step by itself: is a configuration come to in which a rule of that step leads into a bad control?
pub fn summary(policies: &Policies, nodes: &[Node]) -> Marks {
    std::array::from_fn(|number| {
        let opened = |node: &Node| node.kind == SANDBOX && node.a == number as u64;
        if nodes.iter().any(opened) {
            policy_marks(&Policy::of(policies, number), nodes)
        } else {
            0
        }
    })
}

fn policy_marks(policy: &Policy, nodes: &[Node]) -> u64 {
    let mut marks = 0;
    for watched in Choice::of(policy, nodes) {
        let system = System { nodes, policy, watched };
        let mut heads: BTreeMap<u32, Vec<(usize, usize)>> = BTreeMap::new();
        for rule in system.rules() {
            if let Some(bit) = system.strikes(&rule) {
                heads.entry(bit).or_default().push((rule.control, rule.symbol));
            }
        }
        for (bit, heads) in heads {
            if marks >> bit & 1 == 0 && reaches(&system, &heads) {
                marks |= 1 << bit;
            }
        }
    }
    marks
}

/// The summary of lent tables, or 40 or 41.
pub fn summary_tables(edges: &[Edge], local: u64, nodes: &[Node], room: usize) -> Result<Marks, u32> {
    if room < POLICIES {
        return Err(40);
    }
    tables(edges, local, nodes).map(|policies| summary(&policies, nodes))
}

/// The marks of the traces of up to `bound` runs, and whether these were all runs.
pub fn enumerated(policies: &Policies, nodes: &[Node], bound: usize) -> (Marks, bool) {
    let policies = Policy::all(policies);
    let mut marks = [0; POLICIES];
    let mut queue = VecDeque::from([Run::start()]);
    for _ in 0..bound {
        let Some(run) = queue.pop_front() else {
            return (marks, true);
        };
        for next in successors(nodes, &run) {
            if next.steps.len() > run.steps.len() {
                add_last(&policies, &next, &mut marks);
            }
            queue.push_back(next);
        }
    }
    (marks, queue.is_empty())
}

fn add_last(policies: &[Policy], run: &Run, marks: &mut Marks) {
    let last = run.steps[run.steps.len() - 1];
    for policy in run.broken(policies) {
        match last.kind {
            EVENT => marks[policy] |= 1 << last.a,
            OPEN if last.a == policy as u64 => marks[policy] |= 1 << OPENING_BIT,
            _ => {}
        }
    }
}

/// Is the policy looked at, at this step?
pub fn looked(marks: &Marks, step: Step, policy: usize) -> bool {
    let marked = |bit: u64| bit < 64 && marks[policy] >> bit & 1 == 1;
    match step.kind {
        EVENT => marked(step.a),
        OPEN => step.a == policy as u64 && marked(u64::from(OPENING_BIT)),
        _ => false,
    }
}

/// What the lean judge answers to each of these steps, over the whole past.
pub fn lean_answers(policies: &Policies, marks: &Marks, steps: &[Step]) -> Vec<Answer> {
    let mut judge = Judge::new(policies);
    steps.iter().map(|step| judge.judge_by(*step, |policy| looked(marks, *step, policy))).collect()
}

/// What the full judge answers.
pub fn full_answers(policies: &Policies, steps: &[Step]) -> Vec<Answer> {
    let mut judge = Judge::new(policies);
    steps.iter().map(|step| judge.judge(*step)).collect()
}

/// The answers up to and including the first refusal.
pub fn up_to_refusal(answers: &[Answer]) -> &[Answer] {
    let refused = |answer: &Answer| matches!(answer, Answer::Refused(_));
    match answers.iter().position(refused) {
        Some(place) => &answers[..=place],
        None => answers,
    }
}

#[cfg(test)]
mod tests {
    use super::*;
    use crate::generate::outlines::random_cases;
    use crate::program;
    use crate::rng::Rng;

    /// By enumeration: what is seen is marked, and where all runs were seen nothing else is.
    #[test]
    fn enumeration_agrees() {
        let mut rng = Rng::new(11);
        let (mut whole, mut marked) = (0, 0);
        for _ in 0..60 {
            for case in random_cases(&mut rng) {
                let Ok((policies, nodes)) = program::tables(&case.policies, &case.other) else {
                    continue;
                };
                let exact = summary(&policies, &nodes);
                let (seen, all) = enumerated(&policies, &nodes, 400);
                for policy in 0..POLICIES {
                    assert_eq!(seen[policy] & !exact[policy], 0, "a mark that no saturation finds");
                    if all {
                        assert_eq!(seen[policy], exact[policy]);
                    }
                }
                whole += usize::from(all);
                marked += usize::from(exact != [0; POLICIES]);
            }
        }
        assert!(whole > 10 && marked > 10, "{whole} whole, {marked} marked");
    }
}
