//! Retirings: 27, 28 and 24, 30 by the live ones, and what a retired resource's instance still does, under both names lines.

use super::judged::{creates, openings};
use super::{local::both, trace_case, Case, P};

pub(super) fn retired_cases() -> Vec<Case> {
    let cases = [refused_cases(), limit_cases(), instance_cases(), sandbox_cases()].concat();
    both(cases)
}

/// So many retirings, from 16 on.
fn retirings(count: u64) -> String {
    (0..count).map(|n| format!("3 {} 0;", 16 + n)).collect()
}

/// 27 against live and retired numbers, 28, 24, and their order with 20, 22 and 30.
fn refused_cases() -> Vec<Case> {
    let violated = "1 0 0; 0 0 16; 0 2 16;";
    vec![
        // a static, one that was never created, one that is retired already
        trace_case(P, "3 0 0; 3 15 0; 3 16 0; 0 0 16; 3 17 0; 3 15 0; 3 16 0; 3 16 0; 3 65535 0"),
        // equal to, below and above the highest, live or retired
        trace_case("", "0 0 40; 0 0 40; 0 0 39; 0 0 16; 0 0 41; 0 0 40; 0 0 42"),
        trace_case("", "0 0 40; 3 40 0; 0 0 40; 0 0 39; 0 0 41; 3 41 0; 0 0 41; 0 0 40; 0 0 42"),
        trace_case("", "0 0 16; 0 0 18; 3 18 0; 0 0 17; 0 0 18; 0 0 19; 3 16 0; 0 0 16; 0 0 20"),
        trace_case("", "0 0 65535; 3 65535 0; 0 0 65535; 0 0 65534; 0 1 65535; 0 0 16; 0 0 15"),
        // after a create at the end of the range every create is 27
        trace_case("", "0 0 4294967295; 3 4294967295 0; 0 0 4294967295; 0 0 4294967294; 0 1 4294967295; 0 0 16; 0 0 15"),
        // a refused create is no part of the past
        trace_case("", "0 0 17; 0 0 16; 0 1 16; 0 0 3; 3 16 0; 3 17 0; 0 0 18; 0 1 18"),
        // events on what is retired, live again never
        trace_case(P, "0 0 16; 0 1 16; 3 16 0; 0 1 16; 0 31 16; 0 0 17; 0 1 16; 0 1 17; 3 17 0; 0 1 17"),
        trace_case(P, "1 0 0; 0 0 16; 0 0 17; 0 0 18; 3 17 0; 0 1 16; 0 1 17; 0 1 18; 3 16 0; 0 2 18; 0 2 16"),
        // 20 before all
        trace_case(P, &format!("{violated} 3 16 0; 3 3 0; 3 99 0; 0 0 16")),
        trace_case(P, "0 0 16; 0 0 17; 3 16 0; 1 0 0; 0 2 17; 3 17 0; 3 16 0; 0 0 18"),
        // no event: nothing moves, and nothing is opened or closed
        trace_case("0 0 1 2 0 6", "1 0 0; 0 0 16; 3 16 0; 2 0 0; 0 1 3; 1 0 0"),
        trace_case("0 0 0 2 0 1; 0 1 0 2 0 6", "1 0 0; 0 0 16; 3 16 0; 3 16 0; 0 0 17; 0 0 18"),
    ]
}

/// The 64th and the 65th live one, and the 65th created one, which is not the 65th live.
fn limit_cases() -> Vec<Case> {
    vec![
        trace_case("", &format!("{} 3 16 0; 0 0 79; 0 0 80; 0 0 81", creates(63))),
        trace_case("", &format!("{} 0 0 80; 3 40 0; 0 0 80; 0 0 81; 3 40 0; 3 80 0; 0 0 80; 0 0 81", creates(64))),
        trace_case("", &format!("{} 0 0 79; 0 0 15; 0 0 80; 3 79 0; 0 0 79; 0 0 80; 0 0 81", creates(64))),
        trace_case("", &format!("{} {} 0 0 79; 0 0 80; 0 1 16; 0 1 80", creates(64), retirings(64))),
        trace_case("", &format!("{} {} {} 0 0 200", creates(64), retirings(64), ascending(80, 65))),
        // a hundred, each retired before the next
        trace_case(P, &format!("1 0 0; {} 0 2 3", one_by_one(100))),
        trace_case(P, &format!("1 0 0; {} {} 0 0 216; 0 2 215", creates(50), one_by_one_from(66, 150))),
        // the create that is refused with 30 would break a policy; so does the one that passes
        trace_case("0 0 1 0 3 1; 0 1 0 1 0 6", &format!("{} 0 1 3; 1 0 0; 0 0 80; 3 20 0; 0 0 80", creates(64))),
        trace_case("", &format!("{} {} 3 16 0; 0 0 80; 1 1 0; 2 0 0; 1 1 0", creates(64), openings(0, 64))),
    ]
}

/// Creates from a number on.
fn ascending(from: u64, count: u64) -> String {
    (from..from + count).map(|number| format!("0 0 {number};")).collect()
}

fn one_by_one(count: u64) -> String {
    one_by_one_from(16, count)
}

/// Created, used and retired, one after the other.
fn one_by_one_from(from: u64, count: u64) -> String {
    (from..from + count).map(|n| format!("0 0 {n}; 0 1 {n}; 0 2 {n}; 3 {n} 0;")).collect()
}

/// Every static and the unused ones have left state 0 by action 9 on others; a create of x leads back to 0.
const OTHERS_LEFT: &str = "0 0 9 2 0 3; 0 3 0 1 0 0;";

/// What the instance of a retired resource may be in: it moves on, as one other than any resource used.
fn instance_cases() -> Vec<Case> {
    vec![
        // it breaks the policy later, by an event on another
        trace_case("0 0 1 1 0 1; 0 1 4 2 0 6", "0 0 16; 0 1 16; 3 16 0; 1 0 0; 0 4 3"),
        trace_case("0 0 1 1 0 1; 0 1 4 2 0 6", "1 0 0; 0 0 16; 0 1 16; 0 0 17; 3 16 0; 0 4 17"),
        trace_case("0 0 1 1 0 1; 0 1 4 2 0 6", "1 0 0; 0 0 16; 0 1 16; 0 0 17; 3 17 0; 0 4 16; 0 4 3"),
        // offending when it is retired, with the policy not open; at the opening; left again before it
        trace_case("0 0 1 1 0 6; 0 6 5 2 0 0", "0 0 16; 0 1 16; 3 16 0; 1 0 0"),
        trace_case("0 0 1 1 0 6; 0 6 5 2 0 0", "0 0 16; 0 1 16; 3 16 0; 0 5 3; 1 0 0"),
        // several retired, in several states: each of them counts, and none of them alone
        trace_case("0 0 1 1 0 1; 0 0 2 1 0 2; 0 1 4 2 0 6; 0 2 5 2 0 7", "1 0 0; 0 0 16; 0 0 17; 0 1 16; 0 2 17; 3 16 0; 3 17 0; 0 5 3"),
        trace_case("0 0 1 1 0 1; 0 0 2 1 0 2; 0 1 4 2 0 6; 0 2 5 2 0 7", "1 0 0; 0 0 16; 0 0 17; 0 1 16; 0 2 17; 3 17 0; 3 16 0; 0 4 3"),
        // one that is created afterwards is none of them: it has moved as one that never occurs
        trace_case("0 0 1 1 0 1; 0 1 0 1 0 6; 0 1 2 1 0 7", "1 0 0; 0 0 16; 0 1 16; 3 16 0; 0 0 17; 0 2 17; 0 1 17; 0 2 17"),
        trace_case(&format!("{OTHERS_LEFT} 0 0 4 1 0 6"), "1 0 0; 0 0 16; 3 16 0; 0 9 3; 0 0 17; 0 9 3; 0 4 17"),
        // only a retired one is in state 0 yet
        trace_case(&format!("{OTHERS_LEFT} 0 0 4 2 0 6"), "1 0 0; 0 9 3; 0 9 4; 0 0 16; 3 16 0; 0 4 3"),
        trace_case(&format!("{OTHERS_LEFT} 0 0 4 2 0 6"), "1 0 0; 0 9 3; 0 9 4; 0 0 16; 3 16 0; 0 9 3; 0 4 3"),
        // edges that name a static move it too; an edge on x never does
        trace_case("0 0 1 1 0 1; 0 1 4 0 5 6; 0 1 6 1 0 7", "1 0 0; 0 0 16; 0 1 16; 3 16 0; 0 6 3; 0 4 4; 0 4 5"),
        // the lowest policy that is open, by what is retired
        trace_case("1 0 1 1 0 6; 4 0 1 1 0 7", "0 0 16; 0 1 16; 3 16 0; 1 5 0; 1 4 0; 1 1 0"),
        // a middle one is retired, and the others keep their own states
        trace_case("0 0 1 1 0 1; 0 1 2 1 0 6", "1 0 0; 0 0 16; 0 0 20; 0 0 30; 0 1 30; 3 20 0; 0 2 16; 0 1 16; 3 16 0; 0 2 30"),
        trace_case("0 0 1 1 0 1; 0 1 2 1 0 6", "1 0 0; 0 0 16; 0 0 20; 0 0 30; 0 1 16; 3 16 0; 0 2 20; 0 2 30; 0 0 31; 0 2 31; 0 1 20; 0 2 20"),
    ]
}

/// Before and after a first opening, which makes a local policy forget what its retired instances were in.
fn sandbox_cases() -> Vec<Case> {
    let late = "0 0 1 1 0 1; 0 1 4 2 0 6";
    vec![
        trace_case(late, "0 0 16; 0 1 16; 3 16 0; 1 0 0; 0 4 3; 2 0 0; 1 0 0"),
        trace_case(late, "0 0 16; 0 1 16; 1 0 0; 3 16 0; 0 4 3"),
        trace_case(late, "1 0 0; 0 0 16; 0 1 16; 3 16 0; 2 0 0; 1 0 0; 0 4 3"),
        trace_case(late, "1 0 0; 0 0 16; 0 1 16; 3 16 0; 1 0 0; 2 0 0; 0 4 3"),
        trace_case(late, "0 0 16; 0 1 16; 3 16 0; 1 1 0; 1 0 0; 0 0 17; 0 1 17; 3 17 0; 0 4 3"),
        trace_case("0 0 4 2 0 6", "0 0 16; 3 16 0; 0 4 3; 1 0 0; 0 0 17; 3 17 0; 0 4 3"),
        // what was retired before the opening is back in state 0, as all are
        trace_case("0 0 1 2 0 1; 0 1 4 2 0 6", "0 0 16; 0 1 3; 3 16 0; 1 0 0; 0 4 3; 0 1 3; 0 4 3"),
        trace_case("0 0 0 1 0 1; 0 0 2 2 0 6; 0 1 2 2 0 0", "0 0 16; 3 16 0; 1 0 0; 0 2 3"),
    ]
}
