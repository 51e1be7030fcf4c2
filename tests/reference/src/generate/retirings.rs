//! Fixed calls of the judge about retirings, on states that need not have been reached: what a retiring joins and closes up, 27, 28 and 30 at
//! their borders, and the highest number in 42.

use crate::judge::{Step, CREATE, LARGEST_RESOURCE, MOST_CREATED};
use crate::policy::{Edge, POLICIES};
use crate::state::{Call, State, FIRST_LIVE, RETIRED};

type Asked = (State, Step);

pub(super) fn fixed_calls() -> Vec<Call> {
    let edges = vec![Edge::new([2, 0, 1, 1, 0, 6]), Edge::new([2, 0, 1, 2, 0, 1]), Edge::new([5, 1, 1, 2, 0, 7])];
    let both = joining().into_iter().flat_map(|asked| [(0, asked.clone()), (1, asked)]);
    let whole = [refused(), highest()].concat().into_iter().map(|asked| (0, asked));
    both.chain(whole).map(|(local, (state, step))| Call { edges: edges.clone(), local, step, state }).collect()
}

/// These numbers live, these policies open, and in each place another set, without offending states in those that count; what is kept is
/// of no instance.
fn told_apart(numbers: &[u64], policies: &[u64]) -> State {
    let State { openings, depth, order, .. } = State::opened(policies);
    let mut state = State { openings, depth, order, ..State::with_live(numbers) };
    let places = state.places();
    for (place, row) in state.sets.iter_mut().enumerate() {
        let set = |policy: usize| (1 + place * 29 + policy * 7) as u8;
        *row = std::array::from_fn(|policy| if place < places { set(policy) & 0x3f } else { set(policy) | 0x80 });
    }
    state.kept = std::array::from_fn(|policy| 1 << (policy % 6));
    state
}

fn crowd(count: usize) -> Vec<u64> {
    (0..count as u64).map(|place| 16 + 3 * place).collect()
}

/// The first, the last and one between; in no order; the only one; of 64; then events, creates and openings after a retiring.
fn joining() -> Vec<Asked> {
    let three = told_apart(&[20, 30, 40], &[2]);
    let mut calls: Vec<Asked> = [20, 30, 40].map(|number| (three.clone(), Step::retire(number))).to_vec();
    calls.push((told_apart(&[40, 20, 30], &[5]), Step::retire(40)));
    calls.push((told_apart(&[40, 20, 30], &[]), Step::retire(20)));
    calls.push((told_apart(&[16], &[2, 5]), Step::retire(16)));
    for number in [16, 16 + 3 * 31, 16 + 3 * 63] {
        calls.push((told_apart(&crowd(MOST_CREATED), &[]), Step::retire(number)));
    }
    // what is in the set of the retired moves as no resource that is used, and is gathered
    for set in [1, 2, 3, 64, 0] {
        let mut state = told_apart(&[20, 30], &[2, 5]);
        state.sets[RETIRED] = [set; POLICIES];
        calls.extend([Step::event(1, 20), Step::event(1, 3), Step::event(2, 3), Step::event(CREATE, 41)].map(|step| (state.clone(), step)));
        calls.extend([Step::open(2), Step::open(7), Step::close(5), Step::retire(30)].map(|step| (state.clone(), step)));
    }
    // an offending instance is retired, and is not looked at; what is kept is
    let mut offending = told_apart(&[20, 30], &[2]);
    offending.sets[FIRST_LIVE][2] = 64;
    calls.push((offending.clone(), Step::retire(20)));
    offending.kept[2] = 128;
    calls.push((offending, Step::retire(20)));
    calls
}

/// 20, 21, 27, 28, 24 and 30.
fn refused() -> Vec<Asked> {
    let two = told_apart(&[20, 30], &[2]);
    let mut calls: Vec<Asked> = [0, 3, 15, 16, 19, 21, 29, 31, 65_535, LARGEST_RESOURCE].map(|number| (two.clone(), Step::retire(number))).to_vec();
    let misfits = [[3, 20, 1], [3, 65_536, 0], [3, 3, 7], [4, 20, 0], [255, 20, 0]];
    calls.extend(misfits.map(|[kind, a, b]| (two.clone(), Step { kind, a, b })));
    calls.push((State { halted: 1, ..two.clone() }, Step::retire(20)));
    calls.push((State { halted: 1, ..two.clone() }, Step::retire(3)));
    // a number that stands beyond those in use is not live
    calls.push((State { count: 1, ..two.clone() }, Step::retire(30)));
    calls.push((State { count: 1, ..two.clone() }, Step::event(1, 30)));
    for highest in [30, 31, 40, 65_534, 65_535, LARGEST_RESOURCE - 1, LARGEST_RESOURCE] {
        let state = State { highest, ..two.clone() };
        for number in [highest - 1, highest, (highest + 1).min(LARGEST_RESOURCE), 16, 20] {
            calls.push((state.clone(), Step::event(CREATE, number)));
        }
    }
    for count in [MOST_CREATED - 1, MOST_CREATED] {
        let state = told_apart(&crowd(count), &[5]);
        calls.push((state.clone(), Step::event(CREATE, state.highest + 1)));
        calls.push((state.clone(), Step::event(CREATE, state.highest)));
        calls.push((state, Step::event(CREATE, 3)));
    }
    calls
}

/// The highest number against the live ones, in order and in none; with none live; and wider than a state keeps it.
fn highest() -> Vec<Asked> {
    let wide = 1 << 32;
    let mut calls = Vec::new();
    for numbers in [&[20, 30][..], &[30, 20], &[30], &[65_535, 16, 20], &[LARGEST_RESOURCE, 16, 65_536]] {
        let state = told_apart(numbers, &[2]);
        let top = state.highest;
        for highest in [0, 16, 20, top - 1, top, top + 1, wide - 1, wide, wide + top, u64::MAX] {
            calls.push((State { highest, ..state.clone() }, Step::event(2, 3)));
        }
    }
    for highest in [0, 3, 16, 65_535, 65_536, wide - 1, wide] {
        let state = State { highest, ..told_apart(&[], &[]) };
        calls.extend([Step::event(2, 3), Step::event(CREATE, 16), Step::event(CREATE, 65_535), Step::event(CREATE, LARGEST_RESOURCE)].map(|step| (state.clone(), step)));
    }
    calls
}
