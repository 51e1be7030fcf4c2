//! The judge over the whole past against the judge over states.

mod held;

use held::{assert_state, check_step};
use reference::generate::{cases, states, Kind};
use reference::judge::{Answer, Judge, Step, RETIRE};
use reference::policy::{Edge, POLICIES};
use reference::sheet::{read_policies, read_trace};
use reference::state::{judge_state, Call, State, FIRST_LIVE, RETIRED};

#[test]
fn states_agree_with_the_whole_past() {
    let (mut judged, mut retired) = (0, 0);
    for case in cases(Kind::Trace, 11, 1_100) {
        let (Ok(policies), Ok(steps)) = (read_policies(&case.policies), read_trace(&case.other))
        else {
            continue;
        };
        let mut judge = Judge::new(&policies);
        let mut state = State::start();
        for step in steps.iter().take(500) {
            let (answer, next) = judge_state(&policies.edges, policies.sight.number(), &state, *step);
            assert_eq!(judge.judge(*step), answer);
            check_step(&state, &next, answer);
            state = next;
            judged += 1;
            retired += usize::from(step.kind == RETIRE && answer == Answer::Allowed);
        }
        assert_eq!(u64::from(judge.halted()), state.halted);
        assert_state(&policies, judge.past(), &state);
    }
    assert!(judged > 10_000 && retired > 1_000, "{judged} {retired}");
}

fn edge(row: [u64; 6]) -> Edge {
    Edge::new(row)
}

#[test]
fn refusals_of_the_caller_come_first() {
    let bad = [edge([8, 0, 0, 1, 0, 0])];
    let mut state = State { halted: 1, ..State::opened(&[3; 64]) };
    state.openings[3] = 63;
    let misfit = Step { kind: 4, a: 0, b: 0 };
    assert_eq!(judge_state(&bad, 0, &state, misfit).0, Answer::Refused(41));
    assert_eq!(judge_state(&[], 0, &state, misfit).0, Answer::Refused(42));
    state.openings[3] = 64;
    assert_eq!(judge_state(&[], 0, &state, misfit).0, Answer::Refused(20));
    for flag in [2, 7, 256, 1 << 32] {
        state.halted = flag;
        assert_eq!(judge_state(&bad, 0, &state, misfit).0, Answer::Refused(41));
        assert_eq!(judge_state(&[], 0, &state, misfit), (Answer::Refused(42), state.clone()));
    }
    state.halted = 0;
    assert_eq!(judge_state(&[], 0, &state, misfit).0, Answer::Refused(21));
    assert_eq!(judge_state(&[], 0, &state, Step::open(3)).0, Answer::Refused(32));
    assert_eq!(judge_state(&[], 0, &state, Step::open(2)).0, Answer::Refused(32));
    let many = vec![edge([0, 0, 0, 1, 0, 0]); 257];
    state = State::start();
    assert_eq!(judge_state(&many, 0, &state, Step::open(2)).0, Answer::Refused(41));
    assert_eq!(judge_state(&many[..256], 0, &state, Step::open(2)).0, Answer::Allowed);
}

#[test]
fn places_beyond_the_created_count_for_nothing() {
    let edges = [edge([0, 0, 1, 2, 0, 6])];
    let mut state = State::opened(&[0]);
    state.order[1] = 8;
    state.sets[FIRST_LIVE] = [64; POLICIES];
    state.created[0] = 3;
    let (answer, next) = judge_state(&edges, 0, &state, Step::event(2, 3));
    assert_eq!((answer, &next), (Answer::Allowed, &state));
    let (answer, next) = judge_state(&edges, 0, &state, Step::event(0, 16));
    assert_eq!(answer, Answer::Allowed);
    assert_eq!((next.sets[FIRST_LIVE], next.count, next.created[0]), ([1; POLICIES], 1, 16));
}

#[test]
fn a_retiring_joins_and_closes_up() {
    let mut state = State::with_live(&[20, 30, 40]);
    for (place, row) in state.sets.iter_mut().enumerate().skip(RETIRED) {
        *row = [1 << (place - RETIRED); POLICIES];
    }
    let (answer, next) = judge_state(&[], 0, &state, Step::retire(30));
    assert_eq!((answer, next.count, next.highest), (Answer::Allowed, 2, 40));
    assert_eq!(next.created[..3], [20, 40, 40]);
    let rows: Vec<u8> = next.sets[RETIRED..=FIRST_LIVE + 2].iter().map(|row| row[3]).collect();
    assert_eq!((rows, next.kept), (vec![1 | 4, 2, 8, 8], state.kept));
    // nothing else is another
    let mut due = State { count: 2, ..state.clone() };
    due.created[1] = 40;
    due.sets[RETIRED] = [5; POLICIES];
    due.sets[FIRST_LIVE + 1] = [8; POLICIES];
    assert_eq!(next, due);
    assert_eq!(judge_state(&[], 0, &next, Step::event(0, 40)).0, Answer::Refused(27));
    assert_eq!(judge_state(&[], 0, &next, Step::event(1, 30)).0, Answer::Refused(24));
    assert_eq!(judge_state(&[], 0, &next, Step::retire(30)).0, Answer::Refused(28));
}

#[test]
fn a_highest_number_is_not_below_a_live_one() {
    let asked = |highest: u64, numbers: &[u64]| {
        let state = State { highest, ..State::with_live(numbers) };
        judge_state(&[], 0, &state, Step::event(1, 3)).0
    };
    for numbers in [[20, 40], [40, 20]] {
        assert_eq!(asked(40, &numbers), Answer::Allowed);
        assert_eq!(asked(39, &numbers), Answer::Refused(42));
        assert_eq!(asked(u64::from(u32::MAX), &numbers), Answer::Allowed);
    }
    for highest in [0, 3, 65_536, u64::from(u32::MAX)] {
        assert_eq!(asked(highest, &[]), Answer::Allowed);
    }
    assert_eq!(asked(1 << 32, &[]), Answer::Refused(42));
}

#[test]
fn a_closing_can_be_violated_in_an_unreached_state() {
    let mut state = State::opened(&[2, 5, 2]);
    state.kept[2] = 128;
    state.kept[5] = 64;
    let (answer, next) = judge_state(&[], 0, &state, Step::close(2));
    assert_eq!(answer, Answer::Violated(2));
    assert_eq!(next, State { halted: 1, ..state.clone() });
    let kept = state.kept;
    let state = State { kept, ..State::opened(&[5, 2]) };
    assert_eq!(judge_state(&[], 0, &state, Step::close(2)).0, Answer::Violated(5));
    assert_eq!(judge_state(&[], 0, &state, Step::close(5)).0, Answer::Refused(26));
}

#[test]
fn openings_and_closings_in_the_order() {
    let mut state = State::opened(&[5, 2]);
    state.order[2..].fill(200);
    let (answer, next) = judge_state(&[], 0, &state, Step::open(7));
    let mut due = State { depth: 3, ..state.clone() };
    due.order[2] = 7;
    due.openings[7] = 1;
    assert_eq!((answer, &next), (Answer::Allowed, &due));
    // the place keeps what it held, and counts for nothing
    let (answer, next) = judge_state(&[], 0, &next, Step::close(7));
    due.depth = 2;
    due.openings[7] = 0;
    assert_eq!((answer, next), (Answer::Allowed, due));
}

#[test]
fn orders_that_are_none() {
    let right = State::opened(&[5, 2, 5]);
    let refused = |change: &dyn Fn(&mut State)| {
        let mut state = right.clone();
        change(&mut state);
        assert_eq!(judge_state(&[], 0, &state, Step::event(1, 3)), (Answer::Refused(42), state));
    };
    assert_eq!(judge_state(&[], 0, &right, Step::event(1, 3)).0, Answer::Allowed);
    refused(&|state| state.depth = 2);
    refused(&|state| state.depth = 4);
    refused(&|state| state.depth = 65);
    refused(&|state| state.depth = u64::MAX);
    refused(&|state| state.order[1] = 5);
    refused(&|state| state.order[1] = 10);
    refused(&|state| {
        state.order[1] = 8;
        state.openings[2] = 0;
    });
    refused(&|state| state.openings[2] = 0);
    refused(&|state| state.openings.swap(2, 5));
    refused(&|state| state.openings[0] = 1);
}

#[test]
fn an_event_gathers_anew_what_openings_and_closings_look_at() {
    let mut state = State::opened(&[2, 2]);
    state.kept[2] = 64;
    let (answer, next) = judge_state(&[], 0, &state, Step::event(1, 3));
    assert_eq!((answer, next.kept), (Answer::Allowed, [1; POLICIES]));
    state.kept[2] = 1;
    state.sets[16][2] = 128;
    assert_eq!(judge_state(&[], 0, &state, Step::open(2)).0, Answer::Allowed);
    assert_eq!(judge_state(&[], 0, &state, Step::close(2)).0, Answer::Allowed);
    let (answer, next) = judge_state(&[], 0, &state, Step::event(1, 3));
    assert_eq!((answer, next), (Answer::Violated(2), State { halted: 1, ..state.clone() }));
}

#[test]
fn calls_are_written_and_read() {
    let mut seen = std::collections::BTreeSet::new();
    for call in states::calls(5, 2_000) {
        assert_eq!(Call::read(&call.write()), Some(call.clone()));
        let (answer, next) = call.run();
        check_step(&call.state, &next, answer);
        seen.insert(answer.numbers());
    }
    for number in [20, 21, 22, 24, 25, 26, 27, 28, 30, 32, 41, 42] {
        assert!(seen.contains(&(2, number)), "{number}");
    }
    assert!(!seen.contains(&(2, 23)) && !seen.contains(&(2, 31)));
}
