//! The summary and the lean judge, on cases whose answers are worked by hand.

use wiforekun::{print_summary, summary, summary_code, Answer, Past, Refusal, State, MARKS_LENGTH, OPENING_BIT, SUMMARY_TEXT_ROOM};

/// Read (2) only what was taken (1) and not given back (3).
const P: [u8; 18] = [0, 0, 1, 1, 0, 1, 0, 1, 3, 1, 0, 0, 0, 0, 2, 1, 0, 6];

/// Sandbox 0 around a read of 3.
const READS: [u8; 6] = [8, 0, 1, 1, 2, 3];

/// A read of 3, and then sandbox 0 around a take of 3.
const READ_BEFORE: [u8; 12] = [3, 1, 2, 1, 2, 3, 8, 0, 3, 1, 1, 3];

fn of_policy_0(bits: &[u32]) -> [u64; MARKS_LENGTH] {
    let mut marks = [0; MARKS_LENGTH];
    marks[0] = bits.iter().map(|bit| 1u64 << bit).sum();
    marks
}

#[test]
fn marks_are_the_last_steps_that_go_wrong() {
    assert_eq!(summary(&P, Past::Whole, &READS), Ok(of_policy_0(&[2])));
    // the opening, and the take after it too: a trace counts beyond the step at which the judge halts
    assert_eq!(summary(&P, Past::Whole, &READ_BEFORE), Ok(of_policy_0(&[1, OPENING_BIT])));
    assert_eq!(summary(&P, Past::Local, &READ_BEFORE), Ok(of_policy_0(&[])));
}

#[test]
fn room_comes_before_the_tables() {
    let mut short = [7; MARKS_LENGTH - 1];
    assert_eq!(summary_code(&P, 2, &READS, &mut short), 512 + 40);
    assert_eq!(short, [7; MARKS_LENGTH - 1]);
    let mut long = [7; MARKS_LENGTH + 2];
    assert_eq!(summary_code(&P, 2, &READS, &mut long), 512 + 41);
    assert_eq!(summary_code(&P[..5], 0, &READS, &mut long), 512 + 41);
    assert_eq!(long, [7; MARKS_LENGTH + 2]);
    assert_eq!(summary_code(&P, 0, &READS, &mut long), 0);
    assert_eq!(long, [4, 0, 0, 0, 0, 0, 0, 0, 7, 7]);
    assert_eq!(summary(&P, Past::Whole, &READS[..3]), Err(Refusal(41)));
}

#[test]
fn a_step_is_judged_where_it_is_marked() {
    let steps = [[1, 0, 0], [0, 2, 3]];
    let exact = summary(&P, Past::Whole, &READS).unwrap();
    let mut state = State::start();
    assert_eq!(steps.map(|step| state.judge_lean(&exact, &P, Past::Whole, step)), [Answer::Allowed, Answer::Violated(0)]);
    // with no mark nothing is looked at, and the states move alike
    let mut state = State::start();
    assert_eq!(steps.map(|step| state.judge_lean(&[0; MARKS_LENGTH], &P, Past::Whole, step)), [Answer::Allowed; 2]);
    let opening = of_policy_0(&[OPENING_BIT]);
    assert_eq!(state.judge_lean(&opening, &P, Past::Whole, [1, 1, 0]), Answer::Allowed);
    assert_eq!(state.judge_lean(&opening, &P, Past::Whole, [2, 1, 0]), Answer::Allowed);
    assert_eq!(state.judge_lean(&opening, &P, Past::Whole, [1, 0, 0]), Answer::Violated(0));
}

#[test]
fn a_summary_is_printed() {
    let policies = b"policy from action on who to\n0 0 1 1 0 1\n0 1 3 1 0 0\n0 0 2 1 0 6\n";
    let outline = b"node kind a b\n0 3 1 2\n1 1 2 3\n2 8 0 3\n3 1 1 3\n";
    let mut out = [7; SUMMARY_TEXT_ROOM];
    assert_eq!(print_summary(policies, outline, &mut out[1..]), 0);
    assert_eq!(out, [7; SUMMARY_TEXT_ROOM]);
    let due = b"policy action\n0 1\n0 32\n";
    assert_eq!(print_summary(policies, outline, &mut out), due.len());
    assert!(out.starts_with(due) && out[due.len()] == 7);
    // a refused sheet as the checker tells it, policies first
    let refused = b"line answer detail\n1 3 1\n";
    assert_eq!(print_summary(outline, b"", &mut out), refused.len());
    assert!(out.starts_with(refused));
}
