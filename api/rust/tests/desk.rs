//! The routine desk, on cases whose answers are worked by hand.

use wiforekun::{
    desk_outline_code, desk_policies_code, desk_step_code, Answer, Desk, Judge, Refusal, Step, Verdict, DESK_STATE,
};

/// Read (2) only what was taken (1) and not given back (3).
const P: &[u8] = b"policy from action on who to\n0 0 1 1 0 1\n0 1 3 1 0 0\n0 0 2 1 0 6\n";

/// Sandbox 0 around a loop: end, or fresh n, take n, read n, back.
const ROUNDS: &[u8] = b"node kind a b\n0 8 0 1\n1 5 2 0\n2 4 3 4\n3 0 0 0\n4 7 0 5\n5 3 6 7\n6 2 1 0\n7 3 8 9\n8 2 2 0\n9 6 1 0\n";

/// Sandbox 0 around a read of 3.
const READS: &[u8] = b"node kind a b\n0 8 0 1\n1 1 2 3\n";

fn loaded(outline: &[u8]) -> Desk {
    let mut desk = Desk::default();
    desk.load_policies(P).unwrap();
    let _ = desk.load_outline(outline).unwrap();
    desk
}

fn answered(desk: &mut Desk, step: Step, answer: Answer, judge: Option<Judge>) {
    let reply = desk.step(step);
    assert_eq!((reply.answer, reply.judge), (answer, judge), "{step:?}");
}

#[test]
fn a_routine_that_stays() {
    let mut desk = loaded(ROUNDS);
    for step in [Step::open(0), Step::event(0, 16), Step::event(1, 16), Step::event(2, 16), Step::retire(16), Step::event(0, 20), Step::event(1, 20)] {
        answered(&mut desk, step, Answer::Allowed, Some(Judge::Lean));
    }
    // refused, so no part of the routine
    answered(&mut desk, Step::event(5, 16), Answer::Refused(Refusal::NOT_LIVE), None);
    for step in [Step::event(2, 20), Step::close(0)] {
        answered(&mut desk, step, Answer::Allowed, Some(Judge::Lean));
    }
}

#[test]
fn a_routine_that_strays() {
    let mut desk = loaded(ROUNDS);
    answered(&mut desk, Step::open(0), Answer::Allowed, Some(Judge::Lean));
    answered(&mut desk, Step::event(5, 3), Answer::Allowed, Some(Judge::Full));
    // what the outline would have had: the routine has left it for good
    answered(&mut desk, Step::event(0, 16), Answer::Allowed, Some(Judge::Full));
    answered(&mut desk, Step::event(2, 16), Answer::Violated(0), Some(Judge::Full));
    answered(&mut desk, Step::close(0), Answer::Refused(Refusal::HALTED), None);
    // until it is loaded again, which a halted run does not hinder
    assert_eq!(desk.load_outline(ROUNDS), Ok(Verdict::Accepted));
    answered(&mut desk, Step::open(0), Answer::Allowed, Some(Judge::Lean));
}

#[test]
fn an_outline_that_names_a_policy_is_kept() {
    let mut desk = Desk::new();
    desk.load_policies(P).unwrap();
    assert_eq!(desk.load_outline(READS), Ok(Verdict::Named(0)));
    answered(&mut desk, Step::open(0), Answer::Allowed, Some(Judge::Lean));
    answered(&mut desk, Step::event(2, 3), Answer::Violated(0), Some(Judge::Lean));
}

#[test]
fn refused_calls_change_nothing() {
    let mut desk = Desk::new();
    let refused = |desk: &mut Desk, call: &dyn Fn(&mut Desk) -> (u64, Refusal), line: u64, number: Refusal| {
        let before = desk.clone();
        assert_eq!(call(desk), (line, number));
        assert!(*desk == before, "{number}");
    };
    let policies = |sheet: &'static [u8]| move |desk: &mut Desk| desk.load_policies(sheet).map_err(|why| (why.line, why.number)).unwrap_err();
    let outline = |sheet: &'static [u8]| move |desk: &mut Desk| desk.load_outline(sheet).map_err(|why| (why.line, why.number)).unwrap_err();
    refused(&mut desk, &outline(ROUNDS), 0, Refusal::OUTLINE_BEFORE_POLICIES);
    refused(&mut desk, &policies(b"policy from action on who to\n0 0 1 1 0 1\n0 0 1 1 0 8\n"), 3, Refusal::RANGE);
    answered(&mut desk, Step::open(0), Answer::Refused(Refusal::STEP_BEFORE_POLICIES), None);
    desk.load_policies(P).unwrap();
    refused(&mut desk, &outline(b"node kind a b\n0 3 1 2\n1 0 0 0\n"), 2, Refusal::TREE);
    let _ = desk.load_outline(ROUNDS).unwrap();
    answered(&mut desk, Step::open(0), Answer::Allowed, Some(Judge::Lean));
    refused(&mut desk, &policies(P), 0, Refusal::LOAD_WHILE_OPEN);
    refused(&mut desk, &outline(b""), 0, Refusal::LOAD_WHILE_OPEN);
    answered(&mut desk, Step::close(0), Answer::Allowed, Some(Judge::Lean));
}

#[test]
fn a_desk_is_its_bytes() {
    assert!(Desk::new().bytes().iter().all(|byte| *byte == 0));
    let mut desk = loaded(ROUNDS);
    answered(&mut desk, Step::open(0), Answer::Allowed, Some(Judge::Lean));
    // kept, and taken up again
    let mut again = Desk::from_bytes(*desk.bytes());
    for desk in [&mut desk, &mut again] {
        answered(desk, Step::event(0, 16), Answer::Allowed, Some(Judge::Lean));
    }
    assert!(desk == again);
    let mut none = Desk::from_bytes([3; DESK_STATE]);
    answered(&mut none, Step::open(0), Answer::Refused(Refusal::STATE), None);
    assert_eq!(none.load_policies(P).unwrap_err().number, Refusal::STATE);
}

#[test]
fn lengths_of_the_state() {
    let mut short = [0; DESK_STATE - 1];
    assert_eq!(desk_policies_code(&mut short, P), 512 + 40);
    assert_eq!(desk_outline_code(&mut short, b""), 512 + 40);
    assert_eq!(desk_step_code(&mut short, [9, 0, 0]), 512 + 40);
    let mut long = [7; DESK_STATE + 3];
    long[..DESK_STATE].fill(0);
    assert_eq!(desk_policies_code(&mut long, P), 0);
    assert_eq!(desk_outline_code(&mut long, READS), 256);
    assert_eq!(desk_step_code(&mut long, [1, 0, 0]), 65_536);
    assert_eq!(long[DESK_STATE..], [7; 3]);
}
