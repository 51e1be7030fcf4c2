//! What a state holds, held to what the past says.

use reference::judge::{created, is_open, live, seen, unclosed, Answer, Step};
use reference::pair_sets::blocks_of;
use reference::policy::{is_static, Event, Instance, Own, Policies, Policy, STATES};
use reference::state::{State, FIRST_LIVE, INSTANCES, NEVER, RETIRED};

/// A refused step changes nothing; a violated one only halts.
pub fn check_step(before: &State, after: &State, answer: Answer) {
    match answer {
        Answer::Allowed => assert_eq!(after.halted, 0),
        Answer::Violated(_) => assert_eq!(*after, State { halted: 1, ..before.clone() }),
        Answer::Refused(_) => assert_eq!(after, before),
    }
}

/// The state holds what the past says, of one place and, for a pair policy, of two.
pub fn assert_state(policies: &Policies, past: &[Step], state: &State) {
    let created = created(past);
    assert!(created.iter().all(|r| !is_static(*r)));
    assert_eq!(state.created[..state.count as usize], live(past)[..]);
    assert_eq!(state.highest, created.last().copied().unwrap_or(0));
    assert_eq!(state.order[..state.depth as usize], unclosed(past)[..]);
    let (policies, owns) = (Policy::all(policies), owns(past));
    for (number, policy) in policies.iter().enumerate() {
        assert_eq!(state.openings[number] > 0, is_open(past, number));
        let events = seen(policy, past);
        let single = |place: &usize| mask(policy, &events, owns[*place].iter().map(|x| Instance::single(*x)));
        let held: Vec<u8> = state.sets[..owns.len()].iter().map(|row| row[number]).collect();
        assert!(policy.is_pair() || held == (0..owns.len()).map(|place| single(&place)).collect::<Vec<u8>>());
    }
    for (block, policy) in blocks_of(&policies) {
        let events = seen(policy, past);
        for (x, row) in state.pairs[block][..owns.len()].iter().enumerate() {
            let pairs = |y: &usize| owns[x].iter().flat_map(|x| owns[*y].iter().map(|y| Instance::pair(*x, *y))).collect::<Vec<_>>();
            let due: Vec<u8> = (0..owns.len()).map(|y| mask(policy, &events, pairs(&y).into_iter())).collect();
            assert_eq!(row[..owns.len()], due, "row {x}");
            // a place of y that is not in use is one more that never occurs
            assert_eq!(row[owns.len()..], vec![due[NEVER]; INSTANCES - owns.len()]);
        }
    }
}

/// For each place in use whose instances it stands for. Those of the retired are of every retired resource, each by its own number, and
/// beside them that of one that never occurs, as from the start.
fn owns(past: &[Step]) -> Vec<Vec<Own>> {
    let live = live(past);
    let mut owns: Vec<Vec<Own>> = (0..NEVER as u64).map(|number| vec![Some(number)]).collect();
    owns.push(vec![None]);
    let retired = created(past).into_iter().filter(|r| !live.contains(r)).map(Some);
    owns.push(retired.chain([None]).collect());
    assert_eq!((owns.len() - 1, owns.len()), (RETIRED, FIRST_LIVE));
    owns.extend(live.iter().map(|number| vec![Some(*number)]));
    owns
}

/// The states that any of these instances may be in after the events.
fn mask(policy: &Policy, events: &[Event], instances: impl Iterator<Item = Instance>) -> u8 {
    let mut all = 0;
    for instance in instances {
        let states = policy.states_after(instance, events);
        all |= (0..STATES).filter(|state| states[*state]).map(|state| 1u8 << state).sum::<u8>();
    }
    all
}
