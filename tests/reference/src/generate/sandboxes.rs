//! Fixed calls of the judge under policies that see only their sandbox, on states that were never reached: what an opening resets, what it
//! does not, and that nothing is reset where it is refused or violated.

use crate::judge::{Step, CREATE};
use crate::policy::{Edge, POLICIES};
use crate::state::{Call, State};

/// Two resources created, every set another one, with offending states for policies that are not open; kept sets that agree with no
/// instance; and in the places that count for nothing all states.
fn busy(policies: &[u64]) -> State {
    let mut state = State { count: 2, highest: 40, ..State::opened(policies) };
    state.created[..3].copy_from_slice(&[40, 30, 40]);
    for (place, row) in state.sets.iter_mut().enumerate() {
        for (policy, mask) in row.iter_mut().enumerate() {
            let any = (place * 37 + policy * 11) as u8;
            *mask = match place {
                20.. => 255,
                _ if state.openings[policy] > 0 => any & 0x3f,
                _ => any | 0x40,
            };
        }
    }
    let kept = |policy: usize| if state.openings[policy] > 0 { 2 << (policy % 4) } else { 0xc0 | policy as u8 };
    state.kept = std::array::from_fn(kept);
    state
}

pub(super) fn fixed_calls() -> Vec<Call> {
    let edges = vec![Edge::new([2, 0, 1, 1, 0, 6]), Edge::new([5, 1, 1, 2, 0, 7])];
    let mut calls = Vec::new();
    for (state, steps) in asked() {
        for step in steps {
            for local in [0, 1] {
                calls.push(Call { edges: edges.clone(), local, step, state: state.clone() });
            }
        }
    }
    // a number that is neither; 41 before 42
    for local in [2, 256, 1 << 16, u64::from(u32::MAX)] {
        let state = busy(&[5]);
        calls.push(Call { edges: edges.clone(), local, step: Step::open(2), state: state.clone() });
        let damaged = State { count: 65, ..state };
        calls.push(Call { edges: vec![], local, step: Step::open(2), state: damaged });
    }
    calls
}

fn asked() -> Vec<(State, Vec<Step>)> {
    let broken = |policies: &[u64], policy: usize| {
        let mut state = busy(policies);
        state.kept[policy] = 128;
        state
    };
    let full: Vec<u64> = (0..64).map(|place| 5 + place % 2).collect();
    vec![
        // not open, open once, open twice and closed to one
        (busy(&[]), vec![Step::open(2), Step::open(0), Step::close(2), Step::event(3, 3), Step::retire(40)]),
        (busy(&[5]), vec![Step::open(2), Step::open(5), Step::close(5), Step::event(3, 30), Step::retire(30)]),
        (busy(&[5, 2, 5]), vec![Step::open(2), Step::open(5), Step::open(7), Step::close(5), Step::close(2)]),
        // what is kept of the policy itself is offending, and of another that is open
        (broken(&[5], 2), vec![Step::open(2), Step::open(5), Step::open(1)]),
        (broken(&[5, 2], 2), vec![Step::open(2), Step::open(3), Step::close(2)]),
        (broken(&[5, 6], 5), vec![Step::open(2), Step::open(5), Step::open(6), Step::close(6)]),
        (broken(&[2], 2), vec![Step::open(5), Step::event(3, 3), Step::event(CREATE, 99)]),
        // refused: at the limit, halted, a step that is none
        (busy(&full), vec![Step::open(2), Step::open(5), Step::close(5), Step::close(6)]),
        (busy(&full[..63]), vec![Step::open(2), Step::open(6)]),
        (State { halted: 1, ..busy(&[5]) }, vec![Step::open(2), Step::open(5)]),
        (busy(&[5]), vec![Step { kind: 1, a: 2, b: 1 }, Step { kind: 1, a: POLICIES as u64, b: 0 }]),
        // no resource created, and as many as there are places
        (State { count: 0, ..busy(&[5]) }, vec![Step::open(2)]),
        (crowded(), vec![Step::open(2), Step::open(5)]),
    ]
}

fn crowded() -> State {
    let mut state = State { count: 64, highest: 163, ..busy(&[5]) };
    state.created = std::array::from_fn(|place| 100 + place as u64);
    state
}
