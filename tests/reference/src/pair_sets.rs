//! The sets of a pair policy as a state holds them: one for each two places, x's and then y's. A place of y that is not in use is one more
//! number that never occurs; a place of x that is not in use counts for nothing.

use crate::policy::{Own, Policy, MOST_PAIRS};
use crate::state::{INSTANCES, NEVER, RETIRED};

/// A row for each place of x, in it a mask for each place of y.
pub type Block = [[u8; INSTANCES]; INSTANCES];

/// The blocks of the pair policies, the lowest policy's first; one that is no policy's keeps its contents.
pub type Blocks = [Block; MOST_PAIRS];

pub const FRESH: Blocks = [[[1; INSTANCES]; INSTANCES]; MOST_PAIRS];

/// The pair policies, each with the place of its block.
pub fn blocks_of(policies: &[Policy]) -> impl Iterator<Item = (usize, &Policy)> {
    policies.iter().filter(|policy| policy.is_pair()).enumerate()
}

/// Each set of the rows in use becomes what is told for its mask, its x and its y.
pub fn change(block: &mut Block, owns: &[Own; INSTANCES], used: usize, told: impl Fn(u8, Own, Own) -> u8) {
    for (x, row) in block[..used].iter_mut().enumerate() {
        for (y, mask) in row.iter_mut().enumerate() {
            *mask = told(*mask, owns[x], owns[y]);
        }
    }
}

/// What some instance may be in.
pub fn union(block: &Block, used: usize) -> u8 {
    block[..used].iter().flatten().fold(0, |all, mask| all | mask)
}

/// "A create copies the unused partner's sets on both sides": as y it has a place already, as x it gets the row behind those in use.
pub fn create(block: &mut Block, used: usize) {
    block[used] = block[NEVER];
}

/// "Retired resources join one set per partner and side, unused partners included, and one set where both are retired."
pub fn retire(block: &mut Block, used: usize, at: usize) {
    let rows = &mut block[..used];
    leave(rows, at, |row, joining| row.iter_mut().zip(joining).for_each(|(mask, more)| *mask |= more));
    rows.iter_mut().for_each(|row| leave(row, at, |mask, more| *mask |= more));
}

/// On one side: what stood at the place joins what the retired ones had, those behind it move up by one, and the last place is one more for
/// a number that never occurs.
fn leave<T: Copy>(side: &mut [T], at: usize, join: impl Fn(&mut T, T)) {
    let left = side[at];
    join(&mut side[RETIRED], left);
    side[at..].rotate_left(1);
    side[side.len() - 1] = side[NEVER];
}

/// As numbers: how many runs of equal masks there are, then of each its length and its mask.
pub fn runs(blocks: &Blocks) -> Vec<u64> {
    let mut runs: Vec<[u64; 2]> = Vec::new();
    for mask in blocks.iter().flatten().flatten().map(|mask| u64::from(*mask)) {
        match runs.last_mut() {
            Some([length, same]) if *same == mask => *length += 1,
            _ => runs.push([1, mask]),
        }
    }
    [vec![runs.len() as u64], runs.concat()].concat()
}

/// The blocks of such numbers; none where they do not tell every set once.
pub fn from_runs(next: &mut impl FnMut() -> Option<u64>) -> Option<Blocks> {
    let mut masks = Vec::new();
    for _ in 0..next()? {
        let (length, mask) = (usize::try_from(next()?).ok()?, u8::try_from(next()?).ok()?);
        if length > MOST_PAIRS * INSTANCES * INSTANCES - masks.len() {
            return None;
        }
        masks.resize(masks.len() + length, mask);
    }
    of_masks(&masks)
}

/// The blocks whose sets these are, one after the other.
pub fn of_masks(masks: &[u8]) -> Option<Blocks> {
    let mut blocks = FRESH;
    if masks.len() != MOST_PAIRS * INSTANCES * INSTANCES {
        return None;
    }
    for (place, mask) in blocks.iter_mut().flatten().flatten().zip(masks) {
        *place = *mask;
    }
    Some(blocks)
}
