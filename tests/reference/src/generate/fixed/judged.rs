//! Traces that the judge is asked about: A to H, its limits, the order of its refusals, what counts as respected.

use super::super::traces::long_case;
use super::{policies, trace_case, Case, P, TRACE};
use crate::damage::rows;
use crate::rng::Rng;
use crate::sheet::TRACE_NAMES;

/// A to H.
pub(super) fn trace_examples() -> Vec<Case> {
    vec![
        trace_case(P, ""),
        trace_case(P, TRACE),
        trace_case(P, "0 2 3; 1 0 0"),
        trace_case(&format!("{P}; 0 6 3 1 0 0"), "0 2 3; 0 3 3; 1 0 0"),
        trace_case(P, "1 0 0; 1 0 0; 2 0 0; 0 2 3"),
        trace_case("0 0 4 2 0 6", "1 0 0; 0 4 3"),
        trace_case("0 0 2 1 0 1; 0 0 2 1 0 6", "1 0 0; 0 2 3"),
        trace_case("", "0 0 15"),
        trace_case("", "0 0 16; 0 0 16"),
        trace_case("", "0 2 16"),
    ]
}

pub(super) fn creates(count: u64) -> String {
    (0..count).map(|n| format!("0 0 {};", 16 + n)).collect()
}

/// An action on each static.
fn on_statics(action: u64) -> String {
    (0..16).map(|who| format!("0 {action} {who};")).collect()
}

pub(super) fn openings(policy: u64, count: usize) -> String {
    format!("1 {policy} 0;").repeat(count)
}

pub(super) fn closings(policy: u64, count: usize) -> String {
    format!("2 {policy} 0;").repeat(count)
}

/// The judge's limits, the order of its refusals, and what counts as respected.
pub(super) fn judged_borders() -> Vec<Case> {
    // Action 1 on static 3 arms policy 0; a create in the armed state is offending for x.
    let armed = "0 0 1 0 3 1; 0 1 0 1 0 6";
    // The same for creates of others: only an instance that was not created breaks it.
    let armed_others = "0 0 1 0 3 1; 0 1 0 2 0 7";
    let violated = "1 0 0; 0 2 3;";
    let unused_offends = "0 0 1 1 0 1; 0 0 4 2 0 6";
    let then_created = "0 0 1 1 0 1; 0 0 4 2 0 2; 0 2 0 1 0 7";
    let others = "3 0 4 2 0 6; 1 0 4 1 0 7; 6 0 4 0 2 6";
    let mut long = Rng::new(7);
    vec![
        trace_case(P, &format!("1 0 0; {} 0 0 80; 0 1 79; 0 2 79; 0 2 80", creates(64))),
        trace_case(P, &format!("1 0 0; {} 0 0 80; 0 0 79; 0 0 15; 0 2 79", creates(64))),
        trace_case(armed, &format!("{} 0 1 3; 1 0 0; 0 0 80; 0 0 79; 0 1 3", creates(64))),
        trace_case(armed, &format!("{} 0 1 3; 1 0 0; 0 0 79; 0 0 80", creates(63))),
        trace_case(armed_others, &format!("{} 0 1 3; 1 0 0; 0 0 80; 2 0 0", creates(64))),
        trace_case(armed_others, &format!("{} 0 1 3; 1 0 0; 0 0 79; 2 0 0", creates(63))),
        trace_case(P, &format!("{} 1 1 0; {} 2 0 0", openings(0, 65), closings(0, 64))),
        trace_case(P, &format!("{} 2 7 0; 1 7 0; 1 7 0; 1 6 0; 0 2 3", openings(7, 64))),
        trace_case(P, &format!("{} 0 2 3; 1 0 0", openings(0, 65))),
        trace_case(
            "7 0 2 1 0 6",
            &format!("{} {} 0 2 3; 2 7 0", openings(7, 64), closings(7, 63)),
        ),
        trace_case(P, &format!("{violated} 0 0 3; 0 0 16; 0 2 99; 2 5 0; 1 0 0; 0 1 3")),
        trace_case(P, &format!("{violated} {} 1 0 0", openings(1, 65))),
        trace_case(others, "1 6 0; 1 3 0; 1 1 0; 0 4 2; 2 1 0"),
        trace_case(others, "1 6 0; 1 3 0; 2 3 0; 0 4 2"),
        trace_case(others, "1 6 0; 0 4 3; 1 3 0"),
        trace_case(others, "1 1 0; 0 4 99; 2 3 0; 0 4 99; 1 3 0"),
        trace_case(others, "0 4 2; 1 0 0; 1 2 0; 1 7 0; 1 6 0"),
        trace_case(others, "0 4 2; 2 3 0; 1 5 0; 2 5 0; 2 5 0; 1 3 0"),
        trace_case(P, "1 0 0; 1 1 0; 2 0 0; 0 2 3; 1 2 0; 2 1 0; 1 0 0"),
        trace_case(P, "0 0 65535; 0 1 65535; 1 0 0; 0 2 65535; 0 3 65535; 0 2 65535"),
        trace_case(P, "0 0 65535; 0 0 65534; 0 2 65533; 0 0 0; 0 2 0; 1 0 0"),
        trace_case(P, "0 0 65536; 0 1 65536; 1 0 0; 0 2 65536; 0 0 4294967295; 0 1 4294967295; 0 3 65536; 0 2 65536"),
        trace_case(P, "0 0 4294967294; 0 0 4294967295; 0 0 4294967295; 0 0 16; 0 2 4294967293; 1 0 0; 0 2 4294967294"),
        // numbers that end in the same bits are different ones
        trace_case(P, "0 0 17; 0 0 65553; 0 0 131089; 1 0 0; 0 1 65553; 0 2 65553; 0 2 131089"),
        // All statics have moved on: only one that never occurs offends.
        trace_case(unused_offends, &format!("1 0 0; {} 0 0 16; 0 1 16; 0 4 3", on_statics(1))),
        trace_case(unused_offends, &format!("{} 0 4 3; 1 0 0; 2 0 0", on_statics(1))),
        trace_case(then_created, &format!("1 0 0; {} 0 4 3; 0 0 16; 0 0 17", on_statics(1))),
        trace_case(then_created, &format!("1 0 0; {} 0 0 16; 0 4 3; 0 0 17", on_statics(1))),
        trace_case("2 0 9 0 5 6; 2 6 9 0 5 7; 2 7 9 0 5 0", "0 9 5; 0 9 5; 0 9 5; 1 2 0; 0 9 5"),
        trace_case("0 0 9 1 0 1; 0 0 9 0 3 2; 0 2 8 2 0 6", "1 0 0; 0 9 3; 0 8 3; 0 8 4"),
        long_use(2_000),
        long_case(&mut long, 2_000),
        long_case(&mut long, 400),
        long_case(&mut long, 400),
    ]
}

/// Under P, 64 resources used for as many steps; the last step is violated.
fn long_use(length: usize) -> Case {
    let mut steps = vec![[1, 0, 0]];
    steps.extend((16..80).map(|resource| [0, 0, resource]));
    let mut ready = [false; 64];
    for turn in steps.len() as u64..length as u64 - 1 {
        let index = (turn * 7 % 61) as usize;
        let action = if !ready[index] { 1 } else { 2 + turn % 2 };
        ready[index] = action != 3;
        steps.push([0, action, 16 + index as u64]);
    }
    steps.push([0, 2, 79]);
    Case { policies: policies(P), other: rows(TRACE_NAMES, steps) }
}
