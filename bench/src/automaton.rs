//! Plain Rust: the rows of an event, as crates/automaton has them.

pub fn edge_table_ok(edges: &[u8]) -> bool {
    if edges.len() % 6 != 0 || edges.len() / 6 > 256 {
        return false;
    }
    // eight edges and a byte beyond them, without a branch, so that several bytes are compared at once
    let blocks = edges.len().saturating_sub(1) / BLOCK;
    (0..blocks).all(|i| block_ok(edges[BLOCK * i..=BLOCK * i + BLOCK].try_into().unwrap())) && edges[BLOCK * blocks..].chunks_exact(6).all(edge_ok)
}

const BLOCK: usize = 48;

/// A value for each byte of a block, by its field.
const fn by_field(fields: [u8; 6]) -> [u8; BLOCK] {
    let mut all = [0; BLOCK];
    let mut j = 0;
    while j < BLOCK {
        all[j] = fields[j % 6];
        j += 1;
    }
    all
}

/// The highest number of each field; and all bits at `on`, which is 0 or the next one is.
static MOST: [u8; BLOCK] = by_field([7, 7, 31, 2, 15, 7]);
static PAIRED: [u8; BLOCK] = by_field([0, 0, 0, 255, 0, 0]);

fn block_ok(bytes: &[u8; BLOCK + 1]) -> bool {
    let mut bad = 0;
    for j in 0..BLOCK {
        bad |= bytes[j].saturating_sub(MOST[j]) | (bytes[j].min(bytes[j + 1]) & PAIRED[j]);
    }
    bad == 0
}

fn edge_ok(edge: &[u8]) -> bool {
    let [policy, from, action, on, who, to] = edge[..] else { return false };
    if policy >= 8 || from >= 8 || action >= 32 || to >= 8 {
        return false;
    }
    match on {
        0 => who < 16,
        1 | 2 => who == 0,
        _ => false,
    }
}

/// The rows of an event for its own resource's instance, and for every other instance: eight sets to a policy.
pub fn rows(edges: &[u8], action: u32, resource: u32) -> ([u8; 64], [u8; 64]) {
    let mut own = [0; 64];
    let mut other = [0; 64];
    for edge in edges.chunks_exact(6) {
        if u32::from(edge[2]) != action {
            continue;
        }
        let at = usize::from(edge[0]) * 8 + usize::from(edge[1]);
        let end = 1 << edge[5];
        match edge[3] {
            0 if u32::from(edge[4]) == resource => {
                own[at] |= end;
                other[at] |= end;
            }
            1 => own[at] |= end,
            2 => other[at] |= end,
            _ => {}
        }
    }
    stay(&mut own);
    stay(&mut other);
    (own, other)
}

/// Where no edge leads out of a state, the state stays.
fn stay(rows: &mut [u8; 64]) {
    for (at, row) in rows.iter_mut().enumerate() {
        *row = if *row == 0 { 1 << (at % 8) } else { *row };
    }
}

/// The union of the rows of the states in a set.
pub fn image(set: u8, rows: &[u8; 8]) -> u8 {
    let mut moved = 0;
    for (state, row) in rows.iter().enumerate() {
        if set >> state & 1 == 1 {
            moved |= row;
        }
    }
    moved
}
