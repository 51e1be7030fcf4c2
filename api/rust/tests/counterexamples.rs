//! Counterexamples, on outlines whose shortest ones are worked by hand.

use wiforekun::{check_code, counterexample, counterexample_code, Explained, Past, Refusal, COUNTEREXAMPLE_ROOM};

const WHOLE: u32 = Past::Whole.number();

/// Read (2) only what was taken (1).
const EDGES: [u8; 12] = [5, 0, 1, 1, 0, 1, 5, 0, 2, 1, 0, 6];
/// A sandbox of policy 5 around a read of static 3; around taking and reading it.
const READ: [u8; 6] = [8, 5, 1, 1, 2, 3];
const TAKEN: [u8; 12] = [8, 5, 1, 3, 2, 3, 1, 1, 3, 1, 2, 3];
/// A sandbox around: fresh name 0, take it, fresh name 1, read that.
const OTHER: [u8; 18] = [8, 5, 1, 7, 0, 2, 3, 3, 4, 2, 1, 0, 7, 1, 5, 2, 2, 1];

/// The policy and the steps of a counterexample that is shown.
fn broken(found: Explained) -> (u8, Vec<[u32; 3]>) {
    let Explained::Broken { policy, trace } = found else { panic!("{found:?}") };
    (policy, trace.steps().iter().map(|step| step.0).collect())
}

#[test]
fn answers() {
    assert_eq!(broken(counterexample(&EDGES, Past::Whole, &READ)), (5, vec![[1, 5, 0], [0, 2, 3]]));
    assert_eq!(counterexample(&EDGES, Past::Whole, &TAKEN), Explained::Accepted);
    assert_eq!(counterexample(&EDGES, Past::Whole, &[0u8; 0]), Explained::Refused(Refusal(41)));
    assert_eq!(counterexample(&EDGES[1..], Past::Whole, &READ), Explained::Refused(Refusal(41)));
}

#[test]
fn fresh_resources_are_numbered_from_16_on() {
    let trace = vec![[1, 5, 0], [0, 0, 16], [0, 1, 16], [0, 0, 17], [0, 2, 17]];
    assert_eq!(broken(counterexample(&EDGES, Past::Whole, &OTHER)), (5, trace));
}

#[test]
fn either_past() {
    // take 3, then a sandbox of policy 5 around a read of it; read it, then a sandbox around nothing
    let (early_take, early_read) = ([3, 1, 2, 1, 1, 3, 8, 5, 3, 1, 2, 3], [3, 1, 2, 1, 2, 3, 8, 5, 3, 0, 0, 0]);
    assert_eq!(counterexample(&EDGES, Past::Whole, &early_take), Explained::Accepted);
    let trace = vec![[0, 1, 3], [1, 5, 0], [0, 2, 3]];
    assert_eq!(broken(counterexample(&EDGES, Past::Local, &early_take)), (5, trace));
    let trace = vec![[0, 2, 3], [1, 5, 0]];
    assert_eq!(broken(counterexample(&EDGES, Past::Whole, &early_read)), (5, trace));
    assert_eq!(counterexample(&EDGES, Past::Local, &early_read), Explained::Accepted);
}

#[test]
fn what_is_after_the_steps_stays() {
    for room in [COUNTEREXAMPLE_ROOM, COUNTEREXAMPLE_ROOM + 5] {
        let mut trace: Vec<u32> = (1_000..1_000 + room as u32).collect();
        let mut due = trace.clone();
        due[..6].copy_from_slice(&[1, 5, 0, 0, 2, 3]);
        assert_eq!(counterexample_code(&EDGES, WHOLE, &READ, &mut trace), 2 * 65536 + 256 + 5);
        assert_eq!(trace, due);
    }
}

#[test]
fn nothing_is_written() {
    let mut trace: Vec<u32> = (1_000..1_600).collect();
    let before = trace.clone();
    assert_eq!(counterexample_code(&EDGES, WHOLE, &TAKEN, &mut trace), 0);
    assert_eq!(trace, before);
    assert_eq!(counterexample_code(&EDGES, WHOLE, &[9, 0, 0], &mut trace), 512 + 41);
    assert_eq!(counterexample_code(&EDGES, 2, &READ, &mut trace), 512 + 41);
    assert_eq!(counterexample_code(&EDGES, 2, &READ, &mut trace[..599]), 512 + 40);
    assert_eq!(trace, before);
    // 40 comes before 41, and before the check
    for (edges, nodes) in [(&EDGES[..], &READ[..]), (&EDGES, &TAKEN), (&EDGES[1..], &READ), (&EDGES, &[])] {
        assert_eq!(counterexample_code(edges, WHOLE, nodes, &mut trace[..599]), 512 + 40);
        assert_eq!(counterexample_code(edges, WHOLE, nodes, &mut []), 512 + 40);
        assert_eq!(trace, before);
    }
}

/// A sandbox around a loop without an end, in which `rest` sandboxes, one inside the other, come before the event that offends at the
/// sixth time: 1 + 6 * (2 * rest + 1) steps.
fn long(rest: u8) -> (Vec<u8>, Vec<u8>) {
    let edges = (0..6).flat_map(|state| [2, state, 1, 0, 3, state + 1]).collect();
    let end = 3 + rest;
    let mut nodes = vec![8, 2, 1, 5, 2, 0, 3, 3, end + 1];
    nodes.extend((3..end).flat_map(|node| [8, 3 + node % 5, node + 1]));
    nodes.extend([0, 0, 0, 3, end + 2, end + 3, 1, 1, 3, 6, 1, 0]);
    (edges, nodes)
}

#[test]
fn two_hundred_steps_and_more() {
    let (edges, nodes) = long(16);
    let (policy, trace) = broken(counterexample(&edges[..], Past::Whole, &nodes[..]));
    assert_eq!((policy, trace.len()), (2, 199));
    assert_eq!((trace[0], trace[1], trace[198]), ([1, 2, 0], [1, 6, 0], [0, 1, 3]));
    let (edges, nodes) = long(17);
    assert_eq!(counterexample(&edges[..], Past::Whole, &nodes[..]), Explained::BrokenLonger { policy: 2 });
    assert_eq!(check_code(&edges, WHOLE, &nodes), 256 + 2);
    let mut trace: Vec<u32> = (1_000..1_600).collect();
    let before = trace.clone();
    assert_eq!(counterexample_code(&edges, WHOLE, &nodes, &mut trace), 256 + 2);
    assert_eq!(trace, before);
}
