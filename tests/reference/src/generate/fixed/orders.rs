//! Sandboxes close inside out: which closing is refused with 26 and which with 25, and 32 at both sides of its border.

use super::judged::{closings, creates, openings};
use super::{trace_case, Case, P};

pub(super) fn order_cases() -> Vec<Case> {
    [closing_cases(), limit_cases()].concat()
}

/// Openings of these policies, and closings of them.
fn opened(policies: &[u64]) -> String {
    policies.iter().map(|policy| format!("1 {policy} 0;")).collect()
}

fn closed(policies: &[u64]) -> String {
    policies.iter().map(|policy| format!("2 {policy} 0;")).collect()
}

/// All policies in turn, so many openings.
fn in_turn(count: u64) -> Vec<u64> {
    (0..count).map(|n| n * 3 % 8).collect()
}

fn backwards(policies: &[u64]) -> Vec<u64> {
    policies.iter().rev().copied().collect()
}

/// Closings inside out and in other orders.
fn closing_cases() -> Vec<Case> {
    let read = "0 0 2 1 0 6; 5 0 2 1 0 6";
    let nested = opened(&[0, 1, 0, 2]);
    vec![
        // the outer one first: refused, and both are still open
        trace_case(P, "1 0 0; 1 1 0; 2 0 0; 2 1 0; 2 0 0; 2 0 0"),
        trace_case(P, "1 0 0; 1 1 0; 2 0 0; 0 2 3"),
        trace_case(P, "1 1 0; 1 0 0; 2 1 0; 0 2 3"),
        trace_case(P, "1 1 0; 1 0 0; 2 0 0; 0 2 3; 2 1 0; 1 0 0"),
        // a tail that runs with the inner one only is no longer had
        trace_case(read, "1 5 0; 1 0 0; 2 5 0; 2 0 0; 2 5 0; 0 2 3; 2 5 0"),
        // a policy that is not open: 25, whatever is open; closed already; never opened
        trace_case(P, "1 0 0; 2 1 0; 1 1 0; 2 1 0; 2 1 0; 2 0 0; 2 0 0"),
        trace_case(P, "2 7 0; 1 7 0; 1 6 0; 2 5 0; 2 7 0; 2 6 0; 2 6 0; 2 7 0; 2 7 0"),
        // one policy in several places: only the top is closed
        trace_case(P, &format!("{nested} {}", closed(&[0, 1, 2, 1, 0, 0, 1, 0, 0]))),
        trace_case(P, &format!("{nested} {} 0 2 3", closed(&[2, 0, 1, 0]))),
        trace_case(P, &format!("{nested} {} 0 2 3", closed(&[2, 0, 1]))),
        trace_case(P, &format!("{nested} {} 1 1 0; 2 0 0; 2 1 0; 2 0 0", closed(&[2, 0]))),
        // all policies, backwards and forwards
        trace_case(P, &format!("{} {}", opened(&in_turn(8)), closed(&backwards(&in_turn(8))))),
        trace_case(P, &format!("{} {}", opened(&in_turn(8)), closed(&in_turn(8)))),
        trace_case(P, &format!("{} {}", opened(&in_turn(17)), closed(&backwards(&in_turn(17))))),
        // opened, closed and opened again; events and creates between count for nothing
        trace_case("", "1 3 0; 2 3 0; 1 4 0; 1 3 0; 0 0 16; 2 4 0; 0 1 16; 2 3 0; 2 3 0; 2 4 0"),
        trace_case("", "1 3 0; 1 4 0; 2 4 0; 1 4 0; 2 3 0; 2 4 0; 2 3 0"),
        // 20 before 25 and 26; a refused step between
        trace_case(P, "1 1 0; 1 0 0; 0 2 3; 2 1 0; 2 5 0; 2 0 0; 1 0 0"),
        trace_case(P, "1 1 0; 1 0 0; 0 0 3; 2 1 0; 0 2 40; 2 0 0; 2 1 0"),
        // an opening that is violated, by what was read before
        trace_case(P, "1 1 0; 0 2 3; 1 0 0; 2 1 0; 2 0 0"),
    ]
}

/// The 64th opening passes and the 65th gives 32, of one policy and across several.
fn limit_cases() -> Vec<Case> {
    let turn = in_turn(64);
    let all = opened(&turn);
    let most = openings(6, 63);
    vec![
        trace_case(P, &format!("{all} 1 0 0; 1 7 0; 2 2 0; 2 5 0; 1 2 0; 1 2 0; 0 2 3")),
        trace_case("", &format!("{all} 1 0 0; {} 2 0 0", closed(&backwards(&turn)))),
        trace_case("", &format!("{} 1 0 0; {} 1 0 0", opened(&in_turn(63)), opened(&[1, 2]))),
        trace_case("", &format!("{most} 1 1 0; 1 1 0; 1 6 0; 2 6 0; 2 1 0; 1 6 0; 1 6 0")),
        trace_case("", &format!("{most} 1 6 0; 1 6 0; 1 1 0; 2 1 0; 2 6 0; 1 1 0; 2 6 0; 2 1 0")),
        trace_case("", &format!("{most} 1 6 0; {} 1 2 0", closings(6, 64))),
        // closings make room, of any policy
        trace_case("", &format!("{all} {} {} 1 4 0", closed(&backwards(&turn)[..3]), opened(&[4, 4, 4]))),
        trace_case("", &format!("{all} {} {} 1 4 0", closed(&backwards(&turn)), openings(4, 64))),
        // 20 and 21's fellows before 32; 30 beside it; 25 and 26 at the limit
        trace_case(P, &format!("{} 0 2 3; 1 0 0; 1 1 0", openings(0, 64))),
        trace_case("", &format!("{} {} 0 0 80; 1 0 0; 0 0 79; 0 1 80", creates(64), openings(0, 64))),
        trace_case("", &format!("{} 2 5 0; 2 0 0; 1 5 0; 2 0 0; 2 5 0", openings(0, 64))),
        // an opening that would be violated, beyond the limit and before it: 32 comes before the verdict
        trace_case(P, &format!("0 2 3; {} 1 0 0; 2 1 0; 1 0 0", openings(1, 64))),
        trace_case(P, &format!("0 2 3; {} 1 0 0; 2 1 0; 1 0 0", openings(1, 63))),
    ]
}
