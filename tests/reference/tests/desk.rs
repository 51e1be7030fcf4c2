//! The routine desk: its limits, its positions against another way to tell traces, and what the stored sequences have.

use reference::counterexample::longest_trace;
use reference::desk::Desk;
use reference::desk_bytes::{called, decode, encode, Call};
use reference::desk_sessions::{answers, borders, Both};
use reference::generate::desks::{limits, sessions, Stock};
use reference::generate::outlines::random_cases;
use reference::judge::Step;
use reference::outline::Node;
use reference::policy::STATICS;
use reference::positions::{next_steps, of_steps, Limits, LIMITS};
use reference::program::tables;
use reference::rng::Rng;
use std::collections::BTreeSet;

const WIDE: Limits = Limits { positions: 2_000, parts: 40 };

/// The steps of a walk along an outline, in turn each of those that come next.
fn walk(rng: &mut Rng, nodes: &[Node], length: usize) -> Vec<Step> {
    let mut steps = Vec::new();
    while steps.len() < length {
        let Some(positions) = of_steps(nodes, &steps, WIDE) else { break };
        let next = next_steps(nodes, &positions, STATICS + steps.len() as u64);
        if next.is_empty() {
            break;
        }
        steps.push(next[rng.below(next.len() as u64) as usize]);
    }
    steps
}

/// How many lists there are after some steps, and the most parts, as far as there is an end to it.
fn sizes(nodes: &[Node], steps: &[Step]) -> Option<(usize, usize)> {
    let positions = of_steps(nodes, steps, WIDE)?;
    let most = positions.iter().map(Vec::len).max().unwrap_or(0);
    Some((positions.len(), most))
}

#[test]
fn both_limits_are_met_and_passed_by_one() {
    let mut rng = Rng::new(3);
    let (mut at_load, mut later) = (BTreeSet::new(), BTreeSet::new());
    let mut endless = 0;
    for nodes in limits() {
        match sizes(&nodes, &[]) {
            None => endless += 1,
            Some(size) => drop(at_load.insert(size)),
        }
        for _ in 0..4 {
            let steps = walk(&mut rng, &nodes, 18);
            later.extend((1..=steps.len()).filter_map(|made| sizes(&nodes, &steps[..made])));
        }
        later.extend((1..4).filter_map(|made| sizes(&nodes, &vec![Step::event(1, 3); made])));
    }
    assert!(endless >= 2, "lists without end before the first step");
    for (told, found) in [("load", &at_load), ("step", &later)] {
        let (lists, parts): (BTreeSet<usize>, BTreeSet<usize>) = found.iter().copied().unzip();
        assert!(lists.contains(&64) && lists.contains(&65), "64 and 65 lists after a {told}: {lists:?}");
        assert!(parts.contains(&16) && parts.contains(&17), "16 and 17 parts after a {told}: {parts:?}");
    }
}

/// There is a position exactly where the steps are a trace, told by another method.
#[test]
fn positions_are_there_on_traces_alone() {
    let mut rng = Rng::new(7);
    let (mut on, mut off) = (0, 0);
    for _ in 0..60 {
        for case in random_cases(&mut rng) {
            let Ok((_, nodes)) = tables(&case.policies, &case.other) else { continue };
            let mut steps = walk(&mut rng, &nodes, 12);
            if rng.percent(50) && !steps.is_empty() {
                let place = rng.below(steps.len() as u64) as usize;
                steps.remove(place);
            }
            if rng.percent(50) {
                steps.push(Step::event(1 + rng.below(31), rng.below(16)));
            }
            let Some(positions) = of_steps(&nodes, &steps, WIDE) else { continue };
            let is_trace = longest_trace(&nodes, &steps) == steps.len();
            assert_eq!(!positions.is_empty(), is_trace, "{steps:?}");
            on += usize::from(is_trace);
            off += usize::from(!is_trace);
        }
    }
    assert!(on > 30 && off > 20, "{on} traces, {off} others");
}

/// The narrow limits tell no list where the wide ones have one too many.
#[test]
fn within_the_limits_is_all_or_nothing() {
    let mut rng = Rng::new(8);
    for nodes in limits() {
        let steps = walk(&mut rng, &nodes, 10);
        let wide: Option<Vec<_>> = (0..=steps.len()).map(|made| of_steps(&nodes, &steps[..made], WIDE)).collect();
        let inside = wide.is_some_and(|all| all.iter().all(|l| l.len() <= 64 && l.iter().all(|parts| parts.len() <= 16)));
        assert_eq!(of_steps(&nodes, &steps, LIMITS).is_some(), inside);
    }
}

/// The desk over the past and the desk on bytes answer alike, and bytes that are read are written the same.
#[test]
fn both_desks_answer_alike() {
    let mut rng = Rng::new(9);
    let mut both = Both::default();
    let mut desk = Desk::default();
    let mut stock = Stock::new(&mut rng);
    for _ in 0..3_000 {
        let call = stock.next_call(&mut rng, &desk);
        let reply = both.call(&call);
        let again = match &call {
            Call::Policies(text) => desk.load_policies(text),
            Call::Outline(text) => desk.load_outline(text),
            Call::Step(step) => desk.step(*step),
        };
        assert_eq!(reply, again);
        assert_eq!(encode(&decode(&both.bytes).expect("bytes that the desk wrote")), both.bytes);
    }
}

#[test]
fn refused_bytes_are_told_before_all_else() {
    let mut bytes = encode(&None);
    bytes[0] = 3;
    for call in [Call::Policies(vec![]), Call::Outline(vec![]), Call::Step(Step { kind: 9, a: 9, b: 9 })] {
        assert_eq!(called(&bytes, &call).0.code(), 512 + 42);
        assert_eq!(called(&bytes[1..], &call).0.code(), 512 + 40);
    }
}

#[test]
fn stored_sequences_have_every_number() {
    let told: String = sessions(20_017, 300).iter().map(answers).chain([borders()]).collect();
    let rows: Vec<Vec<u64>> = told.lines().map(|line| line.split(' ').map(|word| word.parse().unwrap()).collect()).collect();
    let refused: BTreeSet<u64> = rows.iter().filter(|row| row[0] == 2).map(|row| row[1]).collect();
    let every = [1, 2, 3, 4, 5, 6, 7, 8, 11, 12, 13, 20, 22, 24, 25, 26, 27, 28, 30, 32, 42, 50, 51, 52];
    let missing: Vec<u64> = every.into_iter().filter(|number| !refused.contains(number)).collect();
    assert_eq!(missing, Vec::<u64>::new());
    for lean in [0, 1] {
        for answer in [0, 1] {
            assert!(rows.iter().any(|row| row[0] == answer && row[2] == lean), "answer {answer}, lean {lean}");
        }
    }
}
