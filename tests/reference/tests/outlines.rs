//! The check by saturation against explicit runs and against the judge.

use reference::generate::outlines::{
    counting_draft, crowded_draft, dense_draft, grown_draft, late_draft, mutated, naming_draft,
    recursive_draft, sized_draft, Draft,
};
use reference::judge::{Answer, Judge};
use reference::outline::{nodes_fit, SANDBOX};
use reference::policy::{Policies, Policy, POLICIES};
use reference::pushdown::{breaks, check, check_tables, replay, witness, Witness};
use reference::rng::Rng;
use reference::run::{Run, Way};
use reference::search::search;
use reference::system::Choice;

#[derive(Default)]
struct Tally {
    outlines: usize,
    complete: usize,
    broken: usize,
    found: usize,
    replayed: usize,
}

/// Every policy that the search finds broken is broken by saturation; every policy broken by
/// saturation is broken by a replayed run; on a complete search both agree.
fn cross_check(draft: &Draft, bound: usize, tally: &mut Tally) {
    let Draft { policies, nodes, .. } = draft;
    assert!(nodes_fit(nodes), "{nodes:?}");
    let found = search(policies, nodes, bound);
    tally.outlines += 1;
    tally.complete += usize::from(found.complete);
    for policy in 0..POLICIES {
        let broken = breaks(policies, nodes, policy);
        if nodes.iter().any(|node| node.kind == SANDBOX && node.a == policy as u64) {
            assert_eq!(broken, some_instance_breaks(draft, policy), "{policy}: {draft:?}");
        }
        assert!(broken || !found.broken[policy], "missed {policy}: {draft:?}");
        assert!(!broken || found.broken[policy] || !found.complete, "{policy}: {draft:?}");
        tally.broken += usize::from(broken);
        tally.found += usize::from(found.broken[policy]);
        if broken {
            tally.replayed += replay_all(draft, policy);
        }
    }
}

fn choices(draft: &Draft, policy: usize) -> Vec<Choice> {
    Choice::all(&Policy::of(&draft.policies, policy))
}

/// The same over all statics, also those in no event.
fn some_instance_breaks(draft: &Draft, policy: usize) -> bool {
    let run = |watched| witness(&draft.policies, &draft.nodes, policy, watched, 0);
    choices(draft, policy).into_iter().any(|watched| !matches!(run(watched), Witness::None))
}

/// Replays a run for each watched resource that has one.
fn replay_all(draft: &Draft, policy: usize) -> usize {
    let policies = Policy::all(&draft.policies);
    let mut replayed = 0;
    for watched in choices(draft, policy) {
        if let Witness::Ways(ways) = witness(&draft.policies, &draft.nodes, policy, watched, 5_000) {
            let run = replay(&draft.nodes, &ways);
            assert!(run.broken(&policies).contains(&policy), "{policy} {watched:?}: {draft:?}");
            replayed += 1;
        }
    }
    assert!(replayed > 0, "no run to replay for {policy}: {draft:?}");
    replayed
}

#[test]
fn small_outlines_agree() {
    let mut rng = Rng::new(101);
    let mut tally = Tally::default();
    for round in 0..1_200 {
        let size = rng.between(3, 11) as usize;
        let mut draft = match round % 8 {
            0 => counting_draft(&mut rng),
            1 => recursive_draft(&mut rng),
            2 | 3 => naming_draft(&mut rng),
            4 => late_draft(&mut rng),
            5 => dense_draft(&mut rng),
            6 => crowded_draft(&mut rng),
            _ => sized_draft(&mut rng, size, 5),
        };
        if round % 2 == 0 {
            draft = mutated(&mut rng, &draft);
        }
        cross_check(&draft, 1_500, &mut tally);
    }
    let Tally { outlines, complete, broken, found, replayed } = tally;
    println!("{outlines} outlines, {complete} searched whole, {broken} policies broken, {found} found by search, {replayed} runs replayed");
    assert!(complete > 200 && found > 200);
    // The search must find nearly all; the rest are shown by their replayed runs.
    assert!(found * 100 >= broken * 95);
}

#[test]
fn larger_outlines_agree() {
    let mut rng = Rng::new(102);
    let mut tally = Tally::default();
    for _ in 0..60 {
        cross_check(&grown_draft(&mut rng), 500, &mut tally);
    }
}

/// A trace of an accepted outline is never violated; a run that breaks a policy is violated.
#[test]
fn the_judge_agrees_on_traces_of_outlines() {
    let mut rng = Rng::new(103);
    let mut accepted = 0;
    for _ in 0..400 {
        let draft = recursive_draft(&mut rng);
        match check(&draft.policies, &draft.nodes) {
            None => {
                accepted += 1;
                (0..20).for_each(|_| assert!(!violated(&draft, &random_run(&mut rng, &draft))));
            }
            Some(policy) => {
                for watched in choices(&draft, policy) {
                    let found = witness(&draft.policies, &draft.nodes, policy, watched, 1_000);
                    if let Witness::Ways(ways) = found {
                        assert!(violated(&draft, &replay(&draft.nodes, &ways)));
                    }
                }
            }
        }
    }
    assert!(accepted > 40, "{accepted}");
}

fn random_run(rng: &mut Rng, draft: &Draft) -> Run {
    let mut run = Run::start();
    for _ in 0..120 {
        let way = if rng.percent(50) { Way::Left } else { Way::Right };
        run.advance(&draft.nodes, way);
    }
    run
}

fn violated(draft: &Draft, run: &Run) -> bool {
    let mut judge = Judge::new(&draft.policies);
    run.steps.iter().any(|step| matches!(judge.judge(*step), Answer::Violated(_)))
}

#[test]
fn tables_that_no_sheet_gives() {
    let Draft { policies, nodes, .. } = sized_draft(&mut Rng::new(104), 6, 3);
    let Policies { sight, edges } = policies.clone();
    assert_eq!(check_tables(&edges, sight.number(), &nodes), Ok(check(&policies, &nodes)));
    assert_eq!(check_tables(&edges, 0, &[]), Err(41));
    for local in [2, 3, 255, 256, 1 << 32, u64::MAX] {
        assert_eq!(check_tables(&edges, local, &nodes), Err(41));
    }
    let mut wrong = edges.clone();
    wrong[0].on = 3;
    assert_eq!(check_tables(&wrong, 1, &nodes), Err(41));
    let mut wrong = nodes.clone();
    wrong[0].number = 1;
    assert_eq!(check_tables(&edges, 1, &wrong), Err(41));
}
