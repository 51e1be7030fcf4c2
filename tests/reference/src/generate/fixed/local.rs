//! Policies that look only at their sandbox: the same sheets under both names lines, and names lines that are neither.

use super::judged::{creates, openings, trace_examples};
use super::verdicts::{checked_examples, outline_examples};
use super::{outline, outline_case, policies, sheet, trace, trace_case, Case, Text};
use super::{OUTLINE_I, P, TRACE};
use crate::damage::{crowded, damaged};
use crate::sheet::{LOCAL_NAMES, MOST_EDGES, POLICY_NAMES};

/// The same sheets, but that the policies see only their sandbox.
pub fn local(case: &Case) -> Case {
    let values = case.policies.strip_prefix(POLICY_NAMES.as_bytes());
    let policies = values.map(|values| [LOCAL_NAMES.as_bytes(), values].concat());
    Case { policies: policies.unwrap_or(case.policies.clone()), other: case.other.clone() }
}

/// Under both names lines, one after the other, that of the whole past first.
pub fn both(cases: Vec<Case>) -> Vec<Case> {
    cases.into_iter().flat_map(|case| [case.clone(), local(&case)]).collect()
}

pub(super) fn local_traces() -> Vec<Case> {
    let mut cases: Vec<Case> = trace_examples().iter().map(local).collect();
    cases.extend(both(sandbox_traces()));
    cases.extend(neither().into_iter().map(|policies| Case { policies, other: trace(TRACE) }));
    // the other sheets have one names line
    let strange = [sheet(LOCAL_NAMES, TRACE), sheet("local a b", TRACE), sheet("local", TRACE)];
    cases.extend(strange.map(|other| Case { policies: policies(P), other }));
    cases
}

pub(super) fn local_outlines() -> Vec<Case> {
    let mut cases: Vec<Case> = outline_examples().iter().map(local).collect();
    cases.extend(checked_examples().iter().map(local));
    cases.extend(both(sandbox_outlines()));
    let some = neither().into_iter().step_by(4);
    cases.extend(some.map(|policies| Case { policies, other: outline(OUTLINE_I) }));
    cases
}

/// Sheets of policies whose names line is neither, is right and then something else is not, or is the second.
pub fn neither() -> Vec<Text> {
    let names = [
        "Local from action on who to",
        "LOCAL FROM ACTION ON WHO TO",
        "local  from action on who to",
        " local from action on who to",
        "local from action on who to ",
        "local from action on who to\r",
        "local\tfrom action on who to",
        "local from action on who",
        "local from action on who to who",
        "local from action on who tp",
        "local policy from action on who to",
        "policy local from action on who to",
        "policy from action on who to local from action on who to",
        "local",
        "loca",
        "locall from action on who to",
        "locally from action on who to",
        "global from action on who to",
        "from action on who to",
        "local action from on who to",
        "local kind a b",
        "policy from action on who to;local from action on who to",
        "local from action on who to;policy from action on who to",
        "local from action on who to;local from action on who to",
        "local from action on who to; ",
        "whole from action on who to",
        "policyfrom action on who to",
        "localfrom action on who to",
    ];
    let value = "0 0 2 1 0 6\n";
    let mut sheets: Vec<Text> =
        names.iter().map(|names| format!("{}\n{value}", names.replace(';', "\n")).into_bytes()).collect();
    sheets.push(LOCAL_NAMES.into());
    sheets.push(format!("{LOCAL_NAMES}\n").into());
    sheets.push(format!("{LOCAL_NAMES}\n{}", value.trim_end()).into());
    sheets.push([&[0xef, 0xbb, 0xbf], &sheet(LOCAL_NAMES, P)[..]].concat());
    // every damage of an accepted sheet, and the 256th and 257th edge
    sheets.extend(damaged(&sheet(LOCAL_NAMES, P)));
    sheets.extend(crowded(LOCAL_NAMES, "0 0 1 1 0 1", MOST_EDGES).into_iter().take(4));
    sheets
}

/// Action 2 on what action 1 was on before is offending; so is action 2 on what it was not on.
const AFTER: &str = "0 0 1 1 0 1; 0 1 2 1 0 6";
const ONLY_AFTER: &str = "0 0 1 1 0 1; 0 0 2 1 0 6";
/// Action 2 on what was not created is offending.
const CONFINED: &str = "0 0 0 1 0 1; 0 0 2 1 0 6";

/// What an opening makes the policy forget, and what it does not.
pub fn sandbox_traces() -> Vec<Case> {
    let two = "0 0 1 1 0 1; 0 1 2 1 0 6; 5 0 1 1 0 1; 5 1 2 1 0 6";
    let counted = "3 0 0 1 0 1; 3 0 0 2 0 1; 3 1 0 1 0 2; 3 1 0 2 0 2; 3 2 0 1 0 6; 3 2 0 2 0 6";
    let recover = "0 0 2 1 0 6; 0 6 3 1 0 0";
    let several = "0 0 1 1 0 1; 0 0 1 1 0 2; 0 2 2 1 0 7; 0 1 3 1 0 6";
    vec![
        // case C, and what comes after it
        trace_case(P, "0 2 3; 1 0 0"),
        trace_case(P, "0 2 3; 1 0 0; 0 1 3; 0 2 3; 0 2 4"),
        // an event before the sandbox had moved the instance on: only the whole past allows the next one
        trace_case(P, "0 1 3; 1 0 0; 0 2 3"),
        trace_case(ONLY_AFTER, "0 0 16; 0 1 16; 1 0 0; 0 2 16"),
        trace_case(P, "0 1 3; 1 4 0; 1 0 0; 0 2 3"),
        trace_case(ONLY_AFTER, "0 1 3; 1 0 0; 1 0 0; 2 0 0; 2 0 0; 0 1 4; 1 0 0; 0 2 4"),
        // only what was created inside may be read (document 000's first policy)
        trace_case(CONFINED, "0 0 16; 1 0 0; 0 0 17; 0 2 17; 0 2 16"),
        trace_case(CONFINED, "1 0 0; 0 0 16; 0 2 16; 2 0 0; 0 0 17; 1 0 0; 0 0 18; 0 2 18; 0 2 17"),
        trace_case(CONFINED, "1 0 0; 0 0 16; 1 0 0; 0 2 16; 2 0 0; 2 0 0; 1 1 0; 1 0 0; 0 2 16"),
        // a nested opening forgets nothing, nor does the opening of another policy, nor a closing
        trace_case(AFTER, "1 0 0; 0 1 3; 1 0 0; 0 2 3"),
        trace_case(ONLY_AFTER, "1 0 0; 0 1 3; 1 0 0; 0 2 3"),
        trace_case(ONLY_AFTER, "1 0 0; 0 1 3; 1 0 0; 2 0 0; 0 2 3"),
        trace_case(ONLY_AFTER, "1 0 0; 0 1 3; 1 4 0; 0 2 3; 2 4 0; 0 2 3; 2 0 0; 0 2 3"),
        trace_case(AFTER, "1 4 0; 0 1 3; 1 0 0; 1 4 0; 0 2 3; 2 4 0; 0 1 3; 0 2 3"),
        // opened, closed and opened again; broken between
        trace_case(AFTER, "1 0 0; 0 1 3; 2 0 0; 1 0 0; 0 2 3"),
        trace_case(ONLY_AFTER, "1 0 0; 0 1 3; 2 0 0; 1 0 0; 0 2 3"),
        trace_case(P, "1 0 0; 2 0 0; 0 2 3; 1 0 0; 0 1 3; 0 2 3; 2 0 0; 0 2 3; 1 0 0"),
        trace_case(P, "1 0 0; 1 0 0; 2 0 0; 2 0 0; 0 2 3; 1 0 0; 1 0 0; 0 2 4"),
        trace_case(recover, "0 2 3; 0 3 3; 1 0 0; 2 0 0; 0 2 3; 1 0 0; 0 3 3; 1 0 0; 0 2 3"),
        // each policy has a sandbox of its own
        trace_case(two, "0 1 3; 1 5 0; 0 2 3; 1 0 0; 0 2 3"),
        trace_case(two, "1 5 0; 0 1 3; 1 0 0; 0 2 3"),
        trace_case(two, "1 0 0; 0 1 3; 1 5 0; 2 5 0; 1 5 0; 0 2 3"),
        trace_case(two, "1 0 0; 1 5 0; 0 1 3; 2 5 0; 2 0 0; 1 5 0; 1 0 0; 0 2 3"),
        // what is created stays created
        trace_case(P, "0 0 16; 1 0 0; 0 0 16; 0 1 16; 0 2 16; 0 0 17; 0 2 17"),
        trace_case(counted, "0 0 16; 0 0 17; 1 3 0; 0 0 18; 0 0 19; 2 3 0; 0 0 20; 1 3 0; 0 0 21"),
        trace_case(counted, "0 0 16; 0 0 17; 0 0 18; 1 3 0; 0 0 19; 0 0 20; 0 0 21; 0 0 22"),
        trace_case(counted, &format!("{} 1 3 0; 0 0 80; 0 1 79; 2 3 0; 1 3 0", creates(64))),
        // the instance of a resource that never occurred, or only before the sandbox
        trace_case("0 0 4 2 0 6", "0 4 3; 1 0 0; 0 4 3"),
        trace_case("0 0 1 1 0 1; 0 1 4 2 0 6", "0 0 16; 0 1 16; 1 0 0; 0 4 3; 0 1 16; 0 4 3"),
        trace_case("0 0 1 2 0 1; 0 1 0 1 0 6", "0 1 3; 1 0 0; 0 0 16; 0 1 3; 0 0 17"),
        trace_case("0 0 1 2 0 1; 0 1 4 1 0 6", "0 0 16; 0 1 3; 1 0 0; 0 4 16; 0 1 3; 0 4 16"),
        // several states, all of them forgotten
        trace_case(several, "0 1 3; 1 0 0; 0 2 3; 0 3 3; 0 1 3; 1 0 0; 0 3 3"),
        trace_case(several, "0 1 3; 1 0 0; 2 0 0; 0 1 3; 0 2 3; 1 0 0; 0 1 4; 0 2 4"),
        // an opening that is refused, at the limit, and one after it
        trace_case(P, &format!("0 2 3; {} 1 0 0; 2 1 0; 1 0 0; 0 2 3", openings(1, 64))),
        trace_case(P, &format!("1 0 0; {} 1 0 0; 0 1 3; 2 1 0; 1 0 0; 0 2 3; 0 2 4", openings(1, 63))),
    ]
}

/// Verdicts that hang on what an opening makes the policy forget.
pub fn sandbox_outlines() -> Vec<Case> {
    let lower = "2 0 2 1 0 6; 5 0 1 1 0 1; 5 0 2 1 0 6";
    let own = "3 0 0 1 0 1; 3 1 2 1 0 6";
    vec![
        // read before the sandbox; taken before it and read inside; taken in one and read in the next
        outline_case(P, "3 1 2; 1 2 3; 8 0 3; 0 0 0"),
        outline_case(ONLY_AFTER, "3 1 2; 1 1 3; 8 0 3; 1 2 3"),
        outline_case(ONLY_AFTER, "3 1 2; 8 0 3; 8 0 4; 1 1 3; 1 2 3"),
        outline_case(AFTER, "3 1 2; 8 0 3; 8 0 4; 1 1 3; 1 2 3"),
        // a sandbox inside one of the same policy, and an event after it
        outline_case(AFTER, "8 0 1; 3 2 3; 1 1 3; 8 0 4; 1 2 3"),
        outline_case(ONLY_AFTER, "8 0 1; 3 2 3; 1 1 3; 8 0 4; 1 2 3"),
        outline_case(ONLY_AFTER, "8 0 1; 3 2 3; 8 0 4; 1 2 3; 1 1 3"),
        // and inside one of another
        outline_case(AFTER, "8 4 1; 3 2 3; 1 1 3; 8 0 4; 1 2 3"),
        outline_case(AFTER, "8 0 1; 3 2 3; 1 1 3; 8 4 4; 1 2 3"),
        // a back inside the sandbox opens it again while it is open
        outline_case(AFTER, "5 1 0; 8 0 2; 4 3 4; 1 2 3; 3 5 6; 1 1 3; 6 0 0"),
        outline_case(ONLY_AFTER, "5 1 0; 8 0 2; 4 3 4; 0 0 0; 3 5 6; 1 1 3; 3 7 8; 6 0 0; 1 2 3"),
        outline_case(ONLY_AFTER, "3 1 2; 1 1 3; 5 3 0; 8 0 4; 4 5 6; 0 0 0; 3 7 8; 1 2 3; 6 2 0"),
        // a back after the sandbox opens it anew
        outline_case(AFTER, "5 1 0; 3 2 3; 8 0 4; 6 0 0; 4 5 6; 1 1 3; 1 2 3"),
        outline_case(ONLY_AFTER, "3 1 2; 1 1 3; 5 3 0; 4 4 5; 0 0 0; 3 6 7; 8 0 8; 6 2 0; 1 2 3"),
        outline_case(AFTER, "5 1 0; 4 2 3; 0 0 0; 3 4 5; 8 0 6; 6 0 0; 3 7 8; 1 2 3; 1 1 3"),
        // inside a sandbox around the loop a back after the inner one forgets nothing
        outline_case(AFTER, "8 0 1; 5 2 0; 3 3 4; 8 0 5; 6 1 0; 4 6 7; 1 1 3; 1 2 3"),
        outline_case(AFTER, "8 4 1; 5 2 0; 3 3 4; 8 0 5; 6 1 0; 4 6 7; 1 1 3; 1 2 3"),
        // a sandbox around a back whose loop opens no sandbox
        outline_case(AFTER, "5 1 0; 4 2 3; 1 2 3; 3 4 5; 1 1 3; 8 0 6; 6 0 0"),
        // the lowest policy is another under the other meaning
        outline_case(lower, "3 1 2; 1 2 4; 8 5 3; 3 4 5; 1 1 3; 8 2 6; 1 2 3"),
        outline_case(lower, "3 1 2; 1 2 3; 8 2 3; 8 5 4; 1 1 3"),
        outline_case(lower, "3 1 2; 1 1 3; 8 5 3; 1 2 3"),
        // fresh resources given before, between and inside
        outline_case(own, "7 0 1; 8 3 2; 2 2 0"),
        outline_case(own, "8 3 1; 7 0 2; 2 2 0"),
        outline_case(own, "7 0 1; 3 2 3; 8 3 4; 8 3 5; 2 2 0; 7 1 6; 2 1 1"),
        outline_case(own, "5 1 0; 4 2 3; 0 0 0; 7 2 4; 3 5 6; 8 3 7; 6 0 0; 2 2 2"),
        outline_case(own, "8 3 1; 5 2 0; 4 3 4; 0 0 0; 7 2 5; 3 6 7; 8 3 8; 6 1 0; 2 2 2"),
        outline_case("3 0 0 2 0 6", "7 0 1; 8 3 2; 2 1 0"),
        outline_case("3 0 1 2 0 1; 3 1 0 1 0 6", "3 1 2; 1 1 3; 8 3 3; 7 0 4; 0 0 0"),
        // only what was created inside may be read
        outline_case(CONFINED, "7 0 1; 8 0 2; 7 1 3; 3 4 5; 2 2 1; 2 2 0"),
        outline_case(CONFINED, "8 0 1; 7 0 2; 3 3 4; 2 2 0; 8 0 5; 2 2 0"),
        outline_case(CONFINED, "5 1 0; 7 0 2; 3 3 4; 8 0 5; 6 0 0; 2 2 0"),
        outline_case(CONFINED, "8 0 1; 5 2 0; 4 3 4; 0 0 0; 7 0 5; 3 6 7; 2 2 0; 3 8 9; 6 1 0; 2 2 0"),
        // a resource that is created and known before, and an event of others inside
        outline_case("3 0 0 1 0 1; 3 1 1 2 0 6; 3 0 1 2 0 2", "7 0 1; 8 3 2; 1 1 3"),
    ]
}
