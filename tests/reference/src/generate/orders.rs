//! Orders of unclosed openings in states that need not have been reached: right ones, and damaged ones, which 42 refuses.

use super::policies::Palette;
use crate::judge::{Step, MOST_UNCLOSED};
use crate::policy::{Edge, POLICIES};
use crate::rng::Rng;
use crate::state::{Call, State};

/// The policy opened last.
pub(super) fn last(state: &State) -> Option<u64> {
    state.order[..state.depth as usize].last().copied()
}

/// Openings of the palette's policies in any order; anything at all in the places beyond.
pub(super) fn fill(rng: &mut Rng, palette: &Palette, state: &mut State) {
    let depth = match rng.below(6) {
        0 => rng.pick(&[62, 63, 64, 64]),
        1 => rng.between(0, MOST_UNCLOSED as u64),
        _ => rng.between(0, 6),
    };
    let policy = |rng: &mut Rng| if rng.percent(95) { rng.pick(&palette.policies) } else { rng.below(8) };
    let policies: Vec<u64> = (0..depth).map(|_| policy(rng)).collect();
    let State { openings, depth, order, .. } = State::opened(&policies);
    *state = State { openings, depth, order, ..state.clone() };
    for place in state.order.iter_mut().skip(state.depth as usize) {
        *place = rng.pick(&[0, 1, 7, 8, 64, 255]);
    }
}

/// An order that 42 refuses, where the rest of the state is right.
pub(super) fn damage(rng: &mut Rng, state: &mut State) {
    let place = rng.below(state.depth.max(1)) as usize;
    let entry = state.order[place];
    let policy = rng.below(8) as usize;
    match rng.below(9) {
        // longer than 64, with all that is there
        0 => state.depth = rng.pick(&[65, 65, 66, 128, 255, 256, 1 << 32, (1 << 32) + 1, u64::MAX]),
        // one opening more or fewer than are counted
        1 if state.depth < MOST_UNCLOSED as u64 => state.depth += 1,
        1 | 2 => state.depth = state.depth.saturating_sub(1),
        3 => state.openings[policy] += rng.pick(&[1, 1, 2, 64]),
        4 => state.openings[policy] = state.openings[policy].saturating_sub(1),
        // as many in all, but another policy in the order, or another count
        5 if state.depth > 0 => state.order[place] = (entry + rng.between(1, 7)) % POLICIES as u64,
        6 if state.depth > 0 => {
            state.openings[entry as usize] -= 1;
            state.openings[(entry as usize + rng.between(1, 7) as usize) % POLICIES] += 1;
        }
        // an entry that is no policy: counted as if it were one, or not at all
        7 if state.depth > 0 => state.order[place] = entry + 8 * rng.between(1, 31),
        8 if state.depth > 0 => {
            state.openings[entry as usize] -= 1;
            state.order[place] = rng.pick(&[8, 9, 64, 128, 255]);
        }
        _ => state.openings[policy] = rng.pick(&[64, 65, 128, 255]),
    }
}

/// All policies in turn.
fn in_turn(count: u64) -> Vec<u64> {
    (0..count).map(|n| n * 5 % 8).collect()
}

/// 26 and 32 with what stands around them, what openings and closings leave in the order, and damaged orders.
pub(super) fn fixed_calls() -> Vec<Call> {
    let edges = vec![Edge::new([2, 0, 1, 1, 0, 6])];
    let calls = [closing_calls(), limit_calls(), violated_calls(), damaged_calls()].concat();
    calls.into_iter().map(|(state, step)| Call { edges: edges.clone(), local: 0, step, state }).collect()
}

type Asked = (State, Step);

/// Places of the order that count for nothing.
fn littered(policies: &[u64], litter: u64) -> State {
    let mut state = State::opened(policies);
    state.order[policies.len()..].fill(litter);
    state
}

fn closing_calls() -> Vec<Asked> {
    let mut calls = Vec::new();
    for policy in [0, 1, 2, 4] {
        for (halted, litter) in [(0, 0), (0, 4), (0, 255), (1, 1)] {
            calls.push((State { halted, ..littered(&[1, 4, 4, 1], litter) }, Step::close(policy)));
        }
    }
    // what is not open, at the top of the places that count for nothing
    calls.push((littered(&[], 3), Step::close(3)));
    calls.push((littered(&[3], 5), Step::close(5)));
    calls.push((State::opened(&[3]), Step { kind: 2, a: 8, b: 0 }));
    calls
}

fn limit_calls() -> Vec<Asked> {
    let mut calls = Vec::new();
    for policies in [in_turn(63), in_turn(64), vec![6; 63], vec![6; 64]] {
        let state = littered(&policies, 9);
        let last = policies[policies.len() - 1];
        for step in [Step::open(6), Step::open(2), Step::close(last), Step::close(1), Step { kind: 1, a: 8, b: 0 }] {
            calls.push((state.clone(), step));
        }
        calls.push((State { halted: 1, ..state }, Step::open(6)));
    }
    calls
}

/// Openings and closings that are violated by what is kept of a policy that is open: the order and the counts stay.
fn violated_calls() -> Vec<Asked> {
    let mut calls = Vec::new();
    for (policies, steps) in [
        (vec![5, 2, 5], [Step::open(2), Step::open(7), Step::close(5)]),
        (vec![5, 2], [Step::open(2), Step::close(2), Step::close(5)]),
        (in_turn(63), [Step::open(2), Step::open(0), Step::close(6)]),
        (in_turn(64), [Step::open(2), Step::close(3), Step::close(2)]),
    ] {
        let mut state = littered(&policies, 3);
        state.kept[5] = 64;
        calls.extend(steps.map(|step| (state.clone(), step)));
    }
    calls
}

/// One fault each, at an opening, a closing and an event; the last ones with what else would be refused.
fn damaged_calls() -> Vec<Asked> {
    let right = || littered(&[1, 4, 4, 1], 4);
    let changed = |change: &dyn Fn(&mut State)| {
        let mut state = right();
        change(&mut state);
        state
    };
    let damaged = [
        changed(&|state| state.depth = 3),
        changed(&|state| state.depth = 5),
        changed(&|state| state.depth = 65),
        changed(&|state| state.depth = u64::MAX),
        changed(&|state| state.depth = (1 << 32) + 4),
        changed(&|state| state.order[0] = 4),
        changed(&|state| state.order[3] = 9),
        changed(&|state| state.order[2] = 12),
        changed(&|state| state.openings[4] = 3),
        changed(&|state| state.openings[4] = 1),
        changed(&|state| state.openings.swap(4, 7)),
        changed(&|state| state.openings = [0; POLICIES]),
        changed(&|state| *state = State { openings: state.openings, ..State::start() }),
        changed(&|state| {
            state.order[3] = 8;
            state.openings[1] = 1;
        }),
    ];
    let steps = [Step::open(1), Step::close(1), Step::event(1, 3)];
    let mut calls: Vec<Asked> = vec![(right(), steps[0]), (right(), steps[1]), (right(), steps[2])];
    for (place, state) in damaged.iter().enumerate() {
        calls.push((state.clone(), steps[place % 3]));
        calls.push((State { halted: 1, ..state.clone() }, Step { kind: 4, a: 0, b: 0 }));
    }
    // 64 entries, all right or one wrong
    let mut full = State::opened(&in_turn(64));
    calls.push((full.clone(), Step::event(1, 3)));
    full.order[63] = 8;
    calls.push((full.clone(), Step::event(1, 3)));
    calls
}
