//! Plain Rust: the rules of a table of nodes, as crates/sheets has them.

fn fits(kind: u8, a: u8, b: u8) -> bool {
    match kind {
        0 => a == 0 && b == 0,
        1 => (1..=31).contains(&a) && b <= 15,
        2 => (1..=31).contains(&a) && b <= 3,
        3 | 4 => a <= 63 && b <= 63,
        5 | 6 => a <= 63 && b == 0,
        7 => a <= 3 && b <= 63,
        8 => a <= 7 && b <= 63,
        _ => false,
    }
}

/// The children of a node.
fn children(node: &[u8]) -> impl Iterator<Item = usize> {
    let (a, b) = match node[0] {
        3 | 4 => (Some(node[1]), Some(node[2])),
        5 => (Some(node[1]), None),
        7 | 8 => (None, Some(node[2])),
        _ => (None, None),
    };
    a.into_iter().chain(b).map(usize::from)
}

fn tree_ok(nodes: &[u8], k: usize) -> bool {
    let n = nodes.len() / 3;
    if !children(&nodes[3 * k..]).all(|child| k < child && child < n) {
        return false;
    }
    let times = nodes.chunks_exact(3).flat_map(children).filter(|child| *child == k).count();
    times == usize::from(k != 0)
}

/// Is node k inside one that is sought? Every parent is lower than its child, so one way down meets all of them.
fn inside(nodes: &[u8], k: usize, sought: impl Fn(usize) -> bool) -> bool {
    let mut at = k;
    for j in (0..k).rev() {
        if children(&nodes[3 * j..]).any(|child| child == at) {
            if sought(j) {
                return true;
            }
            at = j;
        }
    }
    false
}

fn gives(nodes: &[u8], name: u8, j: usize) -> bool {
    nodes[3 * j] == 7 && nodes[3 * j + 1] == name
}

fn back_ok(nodes: &[u8], k: usize) -> bool {
    let target = usize::from(nodes[3 * k + 1]);
    nodes[3 * k] != 6 || inside(nodes, k, |j| j == target && nodes[3 * j] == 5)
}

fn name_ok(nodes: &[u8], k: usize) -> bool {
    match nodes[3 * k] {
        2 => inside(nodes, k, |j| gives(nodes, nodes[3 * k + 2], j)),
        7 => !(0..k).rev().any(|j| gives(nodes, nodes[3 * k + 1], j)),
        _ => true,
    }
}

/// A table of nodes that some accepted sheet gives.
pub fn node_table_ok(nodes: &[u8]) -> bool {
    let n = nodes.len() / 3;
    nodes.len() % 3 == 0
        && (1..=64).contains(&n)
        && nodes.chunks_exact(3).all(|node| fits(node[0], node[1], node[2]))
        && (0..n).all(|k| tree_ok(nodes, k))
        && (0..n).all(|k| back_ok(nodes, k))
        && (0..n).all(|k| name_ok(nodes, k))
}

/// The number with which the nodes of an expression are refused, 3, 7 or 8; 0 where they are not.
pub fn expression_fault(nodes: &[u8]) -> usize {
    let n = nodes.len() / 3;
    if !nodes.chunks_exact(3).all(|node| fits(node[0], node[1], node[2])) {
        return 3;
    }
    // the proved reader tests the tree too, which an expression can't break
    if !(0..n).all(|k| tree_ok(nodes, k)) {
        return 6;
    }
    if !(0..n).all(|k| back_ok(nodes, k)) {
        return 7;
    }
    if !(0..n).all(|k| name_ok(nodes, k)) {
        return 8;
    }
    0
}
