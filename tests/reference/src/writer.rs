//! A policy sheet written again: one way to write the edges of a sheet, whatever their order, their number and their spaces were.

use crate::damage::rows;
use crate::sheet::{policy_names, read_policies, Refusal, LONGEST};
use std::collections::BTreeSet;

/// A lent sheet that is shorter than a sheet may be.
const TOO_SHORT: Refusal = Refusal { number: 40, line: 0 };

/// The sheet with its own names line, single spaces, no leading zeros, the edges in the order of their six numbers, none twice.
pub fn written(sheet: &[u8]) -> Result<Vec<u8>, Refusal> {
    let policies = read_policies(sheet)?;
    let edges: BTreeSet<[u64; 6]> = policies.edges.iter().map(|edge| edge.row()).collect();
    Ok(rows(policy_names(policies.sight), edges))
}

/// The same into a lent sheet: how many bytes were written. A refusal changes nothing.
pub fn write_into(sheet: &[u8], lent: &mut [u8]) -> Result<usize, Refusal> {
    if lent.len() < LONGEST {
        return Err(TOO_SHORT);
    }
    let text = written(sheet)?;
    lent[..text.len()].copy_from_slice(&text);
    Ok(text.len())
}

/// What the calls of the function itself are lent and what they leave, a line for each: the number of the call; the length, or 0 and the
/// refusal's line and number; and how many bytes of the lent sheet are as they were.
pub fn calls() -> String {
    let names = b"policy from action on who to\n".to_vec();
    let local = b"local from action on who to\n".to_vec();
    let edges = [&names[..], b"0 0 2 1 0 6\n0 0 1 1 0 1\n"].concat();
    let broken = [&names[..], b"0 0 2 1 0 6\n0 0 1 4 0 1\n"].concat();
    let calls: [(&[u8], usize); 8] = [
        (&names, LONGEST - 1),
        (&names, LONGEST),
        (&local, LONGEST),
        (&edges, LONGEST - 1),
        (&edges, LONGEST),
        (&edges, LONGEST + 1),
        (&broken, LONGEST - 1),
        (&broken, LONGEST),
    ];
    calls.iter().enumerate().map(|(number, (sheet, room))| called(number, sheet, *room)).collect()
}

/// A byte that no sheet has.
const MARK: u8 = 7;

fn called(number: usize, sheet: &[u8], room: usize) -> String {
    let mut lent = vec![MARK; room];
    let (length, line, why) = match write_into(sheet, &mut lent) {
        Ok(length) => (length, 0, 0),
        Err(refusal) => (0, refusal.line, refusal.number),
    };
    let kept = lent.iter().filter(|byte| **byte == MARK).count();
    format!("{number} {length} {line} {why} {kept}\n")
}
