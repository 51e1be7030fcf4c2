//! The desk's state as bytes, by the table of docs/DESK.md: which bytes encode one (42), and what a call answers by what they hold, reached
//! or not.

use crate::desk::{Desk, Loaded, Reply};
use crate::judge::{Answer, Step, MOST_CREATED, MOST_UNCLOSED, RETIRE};
use crate::outline::{nodes_fit, Node, NAMES};
use crate::pair_sets::of_masks;
use crate::policy::{edges_fit, Edge, Policies, Sight, POLICIES};
use crate::positions::{after, at_start, strode, Position, Positions, MOST_PARTS, MOST_POSITIONS};
use crate::run::Part;
use crate::sheet::{read_outline, read_policies, MOST_EDGES, MOST_NODES};
use crate::state::{judge_state_by, State, INSTANCES};
use crate::summary::{looked, summary, Marks};
use std::collections::BTreeSet;

/// The bytes of a state; those behind them are not looked at.
pub const STATE_BYTES: usize = 37_000;

// where each part stands
pub const LOADED: usize = 0;
pub const EDGE_COUNT: usize = 4;
pub const NODE_COUNT: usize = 8;
pub const POSITION_COUNT: usize = 12;
pub const HALTED: usize = 16;
pub const LIVE_COUNT: usize = 20;
pub const HIGHEST: usize = 24;
pub const DEPTH: usize = 28;
pub const EDGES: usize = 32;
pub const NODES: usize = 1_568;
pub const MARKS: usize = 1_760;
pub const LIVE: usize = 1_824;
pub const POSSIBLE: usize = 2_080;
pub const UNCLOSED: usize = 2_088;
pub const ORDER: usize = 2_096;
pub const SETS: usize = 2_160;
pub const PAIRS: usize = 2_816;
pub const ROWS: usize = 16_264;

const EDGE_BYTES: usize = 6;
const NODE_BYTES: usize = 3;
const PART_NUMBERS: usize = 1 + NAMES;
const ROW_NUMBERS: usize = 1 + PART_NUMBERS * MOST_PARTS;
pub const ROW_BYTES: usize = 4 * ROW_NUMBERS;
const CLOSINGS: u64 = MOST_NODES as u64;

/// What the bytes hold.
#[derive(Clone, Debug, PartialEq, Eq)]
pub struct Held {
    pub policies: Policies,
    pub state: State,
    pub outline: Option<Outline>,
}

#[derive(Clone, Debug, PartialEq, Eq)]
pub struct Outline {
    /// Values as they stand there: where no position is listed nothing is asked of them.
    pub nodes: Vec<Node>,
    pub marks: Marks,
    pub positions: Positions,
}

/// What a state encodes: nothing is loaded, or this is.
pub type Encoded = Option<Held>;

fn number(bytes: &[u8], at: usize) -> u64 {
    u64::from(u32::from_le_bytes(bytes[at..at + 4].try_into().unwrap()))
}

/// What the bytes encode; 42 where that is no desk state.
pub fn decode(bytes: &[u8]) -> Result<Encoded, u32> {
    if bytes.len() < STATE_BYTES {
        return Err(40);
    }
    match number(bytes, LOADED) {
        0 => Ok(None),
        1 => held(bytes, Sight::Whole).map(Some).ok_or(42),
        2 => held(bytes, Sight::Local).map(Some).ok_or(42),
        _ => Err(42),
    }
}

fn held(bytes: &[u8], sight: Sight) -> Option<Held> {
    let count = |at: usize, most: usize| Some(number(bytes, at) as usize).filter(|n| *n <= most);
    let edges = count(EDGE_COUNT, MOST_EDGES)?;
    let nodes = count(NODE_COUNT, MOST_NODES)?;
    let positions = count(POSITION_COUNT, MOST_POSITIONS + 1)?;
    let edges: Vec<Edge> = records::<EDGE_BYTES>(bytes, EDGES, edges).map(Edge::new).collect();
    let state = Some(state_in(bytes)).filter(State::fits)?;
    if !edges_fit(&edges) {
        return None;
    }
    let policies = Policies { sight, edges };
    if nodes == 0 {
        return Some(Held { policies, state, outline: None });
    }
    let outline = outline_in(bytes, nodes, positions)?;
    Some(Held { policies, state, outline: Some(outline) })
}

fn records<const N: usize>(bytes: &[u8], from: usize, count: usize) -> impl Iterator<Item = [u64; N]> + '_ {
    let record = move |i: usize| std::array::from_fn(|j| u64::from(bytes[from + N * i + j]));
    (0..count).map(record)
}

fn outline_in(bytes: &[u8], nodes: usize, positions: usize) -> Option<Outline> {
    let node = |(place, [kind, a, b]): (usize, [u64; 3])| Node { number: place as u64, kind, a, b };
    let nodes: Vec<Node> = records::<NODE_BYTES>(bytes, NODES, nodes).enumerate().map(node).collect();
    let mark = |policy: usize| number(bytes, MARKS + 8 * policy) | number(bytes, MARKS + 8 * policy + 4) << 32;
    let marks: Marks = std::array::from_fn(mark);
    let positions = match positions {
        0 => Some(BTreeSet::new()),
        listed if listed <= MOST_POSITIONS => {
            let rows: Option<BTreeSet<Position>> = (0..listed).map(|row| position_in(bytes, row)).collect();
            Some(rows.filter(|_| nodes_fit(&nodes))?)
        }
        _ => None,
    };
    Some(Outline { nodes, marks, positions })
}

/// "the part that is run last first".
fn position_in(bytes: &[u8], row: usize) -> Option<Position> {
    let numbers: [u64; ROW_NUMBERS] = std::array::from_fn(|i| number(bytes, ROWS + ROW_BYTES * row + 4 * i));
    let parts = usize::try_from(numbers[0]).ok().filter(|parts| *parts <= MOST_PARTS)?;
    let used = 1 + PART_NUMBERS * parts;
    if numbers[used..].iter().any(|number| *number != 0) {
        return None;
    }
    numbers[1..used].chunks(PART_NUMBERS).map(part_of).collect()
}

/// A node, also one that the outline does not have, or a closing, also of what is no policy: neither leads anywhere.
fn part_of(numbers: &[u64]) -> Option<Part> {
    let meaning = std::array::from_fn(|name| Some(numbers[1 + name]).filter(|resource| *resource != 0));
    match numbers[0] {
        node if node < CLOSINGS => Some(Part::Node(node as usize, meaning)),
        closing => (meaning == [None; NAMES]).then_some(Part::Closing(closing - CLOSINGS)),
    }
}

fn state_in(bytes: &[u8]) -> State {
    let set = |place: usize, policy: usize| bytes[SETS + INSTANCES * policy + place];
    State {
        halted: number(bytes, HALTED),
        count: number(bytes, LIVE_COUNT),
        created: std::array::from_fn(|i| number(bytes, LIVE + 4 * i)),
        highest: number(bytes, HIGHEST),
        openings: std::array::from_fn(|policy| u64::from(bytes[UNCLOSED + policy])),
        depth: number(bytes, DEPTH),
        order: std::array::from_fn(|i| u64::from(bytes[ORDER + i])),
        sets: std::array::from_fn(|place| std::array::from_fn(|policy| set(place, policy))),
        pairs: of_masks(&bytes[PAIRS..ROWS]).expect("as many bytes as sets"),
        kept: std::array::from_fn(|policy| bytes[POSSIBLE + policy]),
    }
}

fn put(bytes: &mut [u8], at: usize, number: u64) {
    bytes[at..at + 4].copy_from_slice(&(number as u32).to_le_bytes());
}

/// Bytes that encode it, 0 in the places that may hold anything.
pub fn encode(encoded: &Encoded) -> Vec<u8> {
    let mut bytes = vec![0; STATE_BYTES];
    let Some(Held { policies, state, outline }) = encoded else {
        return bytes;
    };
    put(&mut bytes, LOADED, 1 + policies.sight.number());
    put(&mut bytes, EDGE_COUNT, policies.edges.len() as u64);
    for (place, value) in policies.edges.iter().flat_map(Edge::row).enumerate() {
        bytes[EDGES + place] = value as u8;
    }
    put_state(&mut bytes, state);
    if let Some(outline) = outline {
        put_outline(&mut bytes, outline);
    }
    bytes
}

fn put_state(bytes: &mut [u8], state: &State) {
    put(bytes, HALTED, state.halted);
    put(bytes, LIVE_COUNT, state.count);
    put(bytes, HIGHEST, state.highest);
    put(bytes, DEPTH, state.depth);
    for i in 0..MOST_CREATED {
        put(bytes, LIVE + 4 * i, state.created[i]);
    }
    for i in 0..MOST_UNCLOSED {
        bytes[ORDER + i] = state.order[i] as u8;
    }
    for (i, mask) in state.pairs.iter().flatten().flatten().enumerate() {
        bytes[PAIRS + i] = *mask;
    }
    for policy in 0..POLICIES {
        bytes[POSSIBLE + policy] = state.kept[policy];
        bytes[UNCLOSED + policy] = state.openings[policy] as u8;
        for place in 0..INSTANCES {
            bytes[SETS + INSTANCES * policy + place] = state.sets[place][policy];
        }
    }
}

fn put_outline(bytes: &mut [u8], outline: &Outline) {
    put(bytes, NODE_COUNT, outline.nodes.len() as u64);
    for (place, value) in outline.nodes.iter().flat_map(|node| [node.kind, node.a, node.b]).enumerate() {
        bytes[NODES + place] = value as u8;
    }
    for (policy, marks) in outline.marks.iter().enumerate() {
        bytes[MARKS + 8 * policy..MARKS + 8 * policy + 8].copy_from_slice(&marks.to_le_bytes());
    }
    let Some(positions) = &outline.positions else {
        return put(bytes, POSITION_COUNT, MOST_POSITIONS as u64 + 1);
    };
    put(bytes, POSITION_COUNT, positions.len() as u64);
    for (row, position) in positions.iter().enumerate() {
        let from = ROWS + ROW_BYTES * row;
        put(bytes, from, position.len() as u64);
        for (place, part) in position.iter().enumerate() {
            put_part(bytes, from + 4 * (1 + PART_NUMBERS * place), part);
        }
    }
}

fn put_part(bytes: &mut [u8], at: usize, part: &Part) {
    match part {
        Part::Closing(policy) => put(bytes, at, CLOSINGS + policy),
        Part::Node(node, meaning) => {
            put(bytes, at, *node as u64);
            for (name, resource) in meaning.iter().enumerate() {
                put(bytes, at + 4 * (1 + name), resource.unwrap_or(0));
            }
        }
    }
}

/// What a call asks of the desk.
#[derive(Clone, Debug, PartialEq, Eq)]
pub enum Call {
    Policies(Vec<u8>),
    Outline(Vec<u8>),
    Step(Step),
}

/// A call on any bytes: the answer, and what they encode then, or the number by which they encode nothing.
pub fn called(bytes: &[u8], call: &Call) -> (Reply, Result<Encoded, u32>) {
    match decode(bytes) {
        Err(number) => (Reply::refused(number), Err(number)),
        Ok(encoded) => {
            let (reply, after) = answered(&encoded, call);
            (reply, Ok(after))
        }
    }
}

/// A call where nothing or this is loaded. The loads are those of the desk over the past, which asks of what was before only whether a sandbox is
/// open, the judge not halted.
fn answered(encoded: &Encoded, call: &Call) -> (Reply, Encoded) {
    let busy = encoded.as_ref().is_some_and(|held| held.state.depth > 0 && held.state.halted == 0);
    let kept = |reply: Reply| (reply, encoded.clone());
    match (call, encoded) {
        (Call::Step(_), None) => kept(Reply::refused(50)),
        (Call::Step(step), Some(held)) => {
            let (reply, after) = stepped(held, *step);
            (reply, Some(after))
        }
        (Call::Outline(_), None) => kept(Reply::refused(51)),
        (Call::Policies(_) | Call::Outline(_), Some(_)) if busy => kept(Reply::refused(52)),
        (Call::Policies(text), _) => {
            let reply = Desk::default().load_policies(text);
            match read_policies(text) {
                Ok(policies) => (reply, Some(Held { policies, state: State::start(), outline: None })),
                Err(_) => kept(reply),
            }
        }
        (Call::Outline(text), Some(Held { policies, .. })) => {
            let judge = crate::judge::Judge::new(policies);
            let loaded = Some(Loaded { policies: policies.clone(), judge, outline: None });
            let reply = Desk { loaded }.load_outline(text);
            match read_outline(text) {
                Ok(nodes) => {
                    let outline = Outline { marks: summary(policies, &nodes), positions: at_start(&nodes), nodes };
                    let held = Held { policies: policies.clone(), state: State::start(), outline: Some(outline) };
                    (reply, Some(held))
                }
                Err(_) => kept(reply),
            }
        }
    }
}

/// A step by what is held: the lean judge's where the positions listed have a move that adds it, or, at a retiring, where there is any.
fn stepped(held: &Held, step: Step) -> (Reply, Held) {
    let local = held.policies.sight.number();
    let listed = held.outline.as_ref().and_then(|outline| Some((outline, outline.positions.as_ref()?)));
    let lean = listed.filter(|(outline, positions)| match step.kind {
        RETIRE => !positions.is_empty(),
        _ => !strode(&outline.nodes, positions, step).is_empty(),
    });
    let looked = |policy: usize| lean.is_none_or(|(outline, _)| looked(&outline.marks, step, policy));
    let (answer, state) = judge_state_by(&held.policies.edges, local, &held.state, step, looked);
    let mut reply = Reply::of(answer);
    reply.lean = lean.is_some() && !reply.is_refusal();
    let mut next = Held { state, ..held.clone() };
    if let (Answer::Allowed, true, Some((outline, positions))) = (answer, step.kind != RETIRE, listed) {
        next.outline = Some(Outline { positions: after(&outline.nodes, positions, step), ..outline.clone() });
    }
    (reply, next)
}
