//! The three text sheets.

use crate::judge::Step;
use crate::outline::{self, Node};
use crate::policy::{pair_policies, Edge, Policies, Sight, MOST_PAIRS};

pub const LONGEST: usize = 32_768;
pub const POLICY_NAMES: &str = "policy from action on who to";
pub const LOCAL_NAMES: &str = "local from action on who to";
pub const TRACE_NAMES: &str = "kind a b";
pub const OUTLINE_NAMES: &str = "node kind a b";
pub const MOST_EDGES: usize = 256;
pub const MOST_STEPS: usize = 2_000;
pub const MOST_NODES: usize = 64;
pub const MOST_DIGITS: usize = 10;

const FIRST_LINE: usize = 2;

/// A refusal of a sheet: its number and the line.
#[derive(Clone, Copy, Debug, PartialEq, Eq)]
pub struct Refusal {
    pub number: u32,
    pub line: usize,
}

fn refuse<T>(number: u32, line: usize) -> Result<T, Refusal> {
    Err(Refusal { number, line })
}

/// The names line of a sheet of policies, which tells what they see.
pub fn policy_names(sight: Sight) -> &'static str {
    match sight {
        Sight::Whole => POLICY_NAMES,
        Sight::Local => LOCAL_NAMES,
    }
}

pub fn read_policies(bytes: &[u8]) -> Result<Policies, Refusal> {
    let begins = |sight: &Sight| bytes.starts_with(format!("{}\n", policy_names(*sight)).as_bytes());
    // a sheet with neither line is refused by either
    let sight = Sight::BOTH.into_iter().find(begins).unwrap_or(Sight::Whole);
    let edges = read(bytes, policy_names(sight), MOST_EDGES, edge_after)?;
    Ok(Policies { sight, edges })
}

/// The edge of a line after those above it: 3, and 14 for "an edge with on 3 that makes a third pair policy, at that line after 3".
fn edge_after(above: &[Edge], row: [u64; 6]) -> Result<Edge, u32> {
    let edge = within(Edge::new(row), Edge::fits)?;
    let pairs = pair_policies(&[above, &[edge]].concat());
    if pairs.len() > MOST_PAIRS { Err(14) } else { Ok(edge) }
}

/// 3 where some value is out of its range.
fn within<T>(record: T, fits: impl Fn(&T) -> bool) -> Result<T, u32> {
    if fits(&record) { Ok(record) } else { Err(3) }
}

pub fn read_trace(bytes: &[u8]) -> Result<Vec<Step>, Refusal> {
    read(bytes, TRACE_NAMES, MOST_STEPS, |_, [kind, a, b]| within(Step { kind, a, b }, Step::fits))
}

pub fn read_outline(bytes: &[u8]) -> Result<Vec<Node>, Refusal> {
    let nodes = read(bytes, OUTLINE_NAMES, MOST_NODES, |_, [number, kind, a, b]| {
        within(Node { number, kind, a, b }, Node::fits)
    })?;
    if nodes.is_empty() {
        return refuse(9, FIRST_LINE);
    }
    match outline::fault(&nodes) {
        Some((number, node)) => refuse(number, FIRST_LINE + node),
        None => Ok(nodes),
    }
}

/// Reads value lines of N fields; `record` makes one of a line's values, or tells the number of what is wrong with them after the lines above.
fn read<const N: usize, T>(
    bytes: &[u8],
    names: &str,
    most: usize,
    record: impl Fn(&[T], [u64; N]) -> Result<T, u32>,
) -> Result<Vec<T>, Refusal> {
    if bytes.len() > LONGEST {
        return refuse(5, 0);
    }
    let Some(values) = bytes.strip_prefix(format!("{names}\n").as_bytes()) else {
        return refuse(1, 1);
    };
    let mut records = Vec::new();
    for (index, line) in values.split_inclusive(|byte| *byte == b'\n').enumerate() {
        let number = FIRST_LINE + index;
        if index >= most {
            return refuse(4, number);
        }
        let row = fields(line).or_else(|fault| refuse(fault, number))?;
        let record = record(&records, row).or_else(|fault| refuse(fault, number))?;
        records.push(record);
    }
    Ok(records)
}

/// The N values of a line, or the number of what is wrong with it. One line may have several faults; the order is 13, 11, 12, 2.
fn fields<const N: usize>(line: &[u8]) -> Result<[u64; N], u32> {
    let bytes = line.strip_suffix(b"\n").ok_or(13_u32)?;
    if !bytes.iter().all(|byte| byte.is_ascii_digit() || *byte == b' ') {
        return Err(11);
    }
    // What stands between single spaces; it is empty before a space at the start, after one at the end and between two.
    let words: Vec<&[u8]> = bytes.split(|byte| *byte == b' ').collect();
    if words.iter().any(|word| word.len() > MOST_DIGITS) {
        return Err(12);
    }
    if words[0].is_empty() || words[words.len() - 1].is_empty() {
        return Err(2);
    }
    let values: Vec<u64> = words.into_iter().filter(|word| !word.is_empty()).map(value).collect();
    values.try_into().map_err(|_| 2)
}

fn value(digits: &[u8]) -> u64 {
    digits.iter().fold(0, |value, digit| 10 * value + u64::from(digit - b'0'))
}
