//! The proved code, called with the reference program's types.

use reference::judge::{Answer, Step};
use reference::outline::Node;
use reference::pair_sets::of_masks;
use reference::policy::{Edge, Policies, Sight};
use reference::state::State;
use wiforekun::{Past, CREATED_LENGTH, ORDER_LENGTH, PAIRS_LENGTH, SETS_LENGTH, TRACE_ROOM, UNCLOSED_LENGTH};

/// The sets of one policy: one for each instance.
const INSTANCES: usize = SETS_LENGTH / UNCLOSED_LENGTH;

/// A mark that the functions never write: what comes after the report must still hold it.
const UNTOUCHED: u8 = 0xa5;

fn report(function: fn(&[u8], &[u8], &mut [u8]) -> usize, policies: &[u8], other: &[u8]) -> Vec<u8> {
    let mut out = vec![UNTOUCHED; TRACE_ROOM + 16];
    let length = function(policies, other, &mut out);
    assert!(length <= TRACE_ROOM, "a report of {length} bytes");
    assert!(out[length..].iter().all(|byte| *byte == UNTOUCHED), "bytes after the report were written");
    out.truncate(length);
    out
}

/// What the first program prints.
pub fn monitor(policies: &[u8], trace: &[u8]) -> Vec<u8> {
    report(wiforekun::print_trace, policies, trace)
}

/// What the second program prints.
pub fn check(policies: &[u8], outline: &[u8]) -> Vec<u8> {
    report(wiforekun::print_outline, policies, outline)
}

/// What the third program prints.
pub fn why(policies: &[u8], outline: &[u8]) -> Vec<u8> {
    report(wiforekun::print_counterexample, policies, outline)
}

/// What the first program answers, lent a buffer of this length.
pub fn monitor_room(policies: &[u8], trace: &[u8], room: usize) -> usize {
    let mut out = vec![UNTOUCHED; room];
    wiforekun::print_trace(policies, trace, &mut out)
}

/// Six bytes to an edge; none where a value is no byte.
pub fn flat(edges: &[Edge]) -> Option<Vec<u8>> {
    let bytes = edges.iter().flat_map(|edge| edge.row()).map(|value| u8::try_from(value).ok());
    bytes.collect()
}

/// A table of numbers in a narrower type; none where one is wider.
fn narrowed<T: TryFrom<u64> + Default + Copy, const N: usize>(numbers: [u64; N]) -> Option<[T; N]> {
    let mut narrow = [T::default(); N];
    for (place, number) in narrow.iter_mut().zip(numbers) {
        *place = T::try_from(number).ok()?;
    }
    Some(narrow)
}

/// A state as the functions are lent it. None where a number is wider than its place.
fn lent(state: &State) -> Option<wiforekun::State> {
    let mut sets = [0u8; SETS_LENGTH];
    for (instance, row) in state.sets.iter().enumerate() {
        for (policy, mask) in row.iter().enumerate() {
            sets[policy * INSTANCES + instance] = *mask;
        }
    }
    let mut pairs = [0u8; PAIRS_LENGTH];
    for (place, mask) in pairs.iter_mut().zip(state.pairs.iter().flatten().flatten()) {
        *place = *mask;
    }
    Some(wiforekun::State {
        sets,
        pairs,
        possible: state.kept,
        created: narrowed::<u32, CREATED_LENGTH>(state.created)?,
        unclosed: narrowed::<u8, UNCLOSED_LENGTH>(state.openings)?,
        order: narrowed::<u8, ORDER_LENGTH>(state.order)?,
        numbers: [state.count, state.halted, state.depth, state.highest],
    })
}

/// The state that lies in the arrays.
fn held(parts: &wiforekun::State) -> State {
    let mut state = State::start();
    for (instance, row) in state.sets.iter_mut().enumerate() {
        for (policy, mask) in row.iter_mut().enumerate() {
            *mask = parts.sets[policy * INSTANCES + instance];
        }
    }
    state.pairs = of_masks(&parts.pairs).expect("as many bytes as sets");
    state.kept = parts.possible;
    state.created = parts.created.map(u64::from);
    state.openings = parts.unclosed.map(u64::from);
    state.order = parts.order.map(u64::from);
    [state.count, state.halted, state.depth, state.highest] = parts.numbers;
    state
}

/// One step of the judge on any state: document 01's two numbers and the state returned. None where a number of the call is wider than
/// the function's types.
pub fn judge(edges: &[Edge], local: u64, state: &State, step: Step) -> Option<((u32, usize), State)> {
    let edges = flat(edges)?;
    let [local] = narrowed::<u32, 1>([local])?;
    let step = narrowed::<u32, 3>(step.row())?;
    let mut parts = lent(state)?;
    let code = parts.judge_code(&edges, local, step);
    Some(((code / 256, (code % 256) as usize), held(&parts)))
}

/// Three bytes to a node; none where a value is no byte.
pub fn flat_nodes(nodes: &[Node]) -> Option<Vec<u8>> {
    let bytes = nodes.iter().flat_map(|node| [node.kind, node.a, node.b]).map(|value| u8::try_from(value).ok());
    bytes.collect()
}

/// The answer and the detail of the check, the past told by a number.
pub fn checked(edges: &[u8], local: u32, nodes: &[u8]) -> (u32, usize) {
    let code = wiforekun::check_code(edges, local, nodes);
    (code / 256, (code % 256) as usize)
}

/// The answer, the detail and the length of the check with a counterexample, lent a table of so many numbers, and what the table holds
/// then. Each number of it was `mark` plus its place.
pub fn explained(edges: &[u8], local: u32, nodes: &[u8], numbers: usize, mark: u32) -> ((u32, usize, usize), Vec<u32>) {
    let mut trace: Vec<u32> = (0..numbers as u32).map(|place| mark + place).collect();
    let code = wiforekun::counterexample_code(edges, local, nodes, &mut trace);
    ((code / 256 % 256, (code % 256) as usize, (code / 65536) as usize), trace)
}

/// The past that policies of this sight see, as the functions name it.
pub fn past(sight: Sight) -> Past {
    match sight {
        Sight::Whole => Past::Whole,
        Sight::Local => Past::Local,
    }
}

/// What the proved judge answers to each of these steps, from the start on. None where an edge is wider than a byte.
pub fn judged(policies: &Policies, steps: &[Step]) -> Option<Vec<Answer>> {
    let (edges, past) = (flat(&policies.edges)?, past(policies.sight));
    let mut state = wiforekun::State::start();
    let answer = |step: &Step| match state.judge(&edges[..], past, step.row().map(|value| value as u32)) {
        wiforekun::Answer::Allowed => Answer::Allowed,
        wiforekun::Answer::Violated(policy) => Answer::Violated(usize::from(policy)),
        wiforekun::Answer::Refused(number) => Answer::Refused(u32::from(number.0)),
    };
    Some(steps.iter().map(answer).collect())
}

/// The answer and the detail of the summary, lent a table of so many numbers, and what the table holds then. Each number of it was `mark`
/// plus its place.
pub fn summary(edges: &[u8], local: u32, nodes: &[u8], numbers: usize, mark: u64) -> ((u32, usize), Vec<u64>) {
    let mut marks: Vec<u64> = (0..numbers as u64).map(|place| mark + place).collect();
    let code = wiforekun::summary_code(edges, local, nodes, &mut marks);
    ((code / 256, (code % 256) as usize), marks)
}

/// What the proved lean judge answers to each of these steps, from the start on. None where an edge is wider than a byte.
pub fn judged_lean(policies: &Policies, marks: &[u64; UNCLOSED_LENGTH], steps: &[Step]) -> Option<Vec<Answer>> {
    let (edges, past) = (flat(&policies.edges)?, past(policies.sight));
    let mut state = wiforekun::State::start();
    let answer = |step: &Step| match state.judge_lean(marks, &edges[..], past, step.row().map(|value| value as u32)) {
        wiforekun::Answer::Allowed => Answer::Allowed,
        wiforekun::Answer::Violated(policy) => Answer::Violated(usize::from(policy)),
        wiforekun::Answer::Refused(number) => Answer::Refused(u32::from(number.0)),
    };
    Some(steps.iter().map(answer).collect())
}

/// One step of the lean judge on any state, as `judge`.
pub fn judge_lean(marks: &[u64; UNCLOSED_LENGTH], edges: &[Edge], local: u64, state: &State, step: Step) -> Option<((u32, usize), State)> {
    let edges = flat(edges)?;
    let [local] = narrowed::<u32, 1>([local])?;
    let step = narrowed::<u32, 3>(step.row())?;
    let mut parts = lent(state)?;
    let code = parts.judge_lean_code(marks, &edges, local, step);
    Some(((code / 256, (code % 256) as usize), held(&parts)))
}
