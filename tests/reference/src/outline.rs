//! Outlines: nodes, their ranges and the shape of the tree.

use crate::sheet::MOST_NODES;

pub const END: u64 = 0;
pub const STATIC_EVENT: u64 = 1;
pub const NAMED_EVENT: u64 = 2;
pub const SEQUENCE: u64 = 3;
pub const CHOICE: u64 = 4;
pub const LOOP: u64 = 5;
pub const BACK: u64 = 6;
pub const FRESH: u64 = 7;
pub const SANDBOX: u64 = 8;

pub const NAMES: usize = 4;

/// One line of an outline. A node is meant by its place, not by `number`.
#[derive(Clone, Copy, Debug, PartialEq, Eq)]
pub struct Node {
    pub number: u64,
    pub kind: u64,
    pub a: u64,
    pub b: u64,
}

impl Node {
    pub fn row(&self) -> [u64; 4] {
        [self.number, self.kind, self.a, self.b]
    }

    pub fn fits(&self) -> bool {
        let place = |number: u64| number <= 63;
        place(self.number)
            && match self.kind {
                END => self.a == 0 && self.b == 0,
                STATIC_EVENT => (1..=31).contains(&self.a) && self.b <= 15,
                NAMED_EVENT => (1..=31).contains(&self.a) && self.b <= 3,
                SEQUENCE | CHOICE => place(self.a) && place(self.b),
                LOOP | BACK => place(self.a) && self.b == 0,
                FRESH => self.a <= 3 && place(self.b),
                SANDBOX => self.a <= 7 && place(self.b),
                _ => false,
            }
    }

    pub fn children(&self) -> Vec<usize> {
        match self.kind {
            SEQUENCE | CHOICE => vec![self.a as usize, self.b as usize],
            LOOP => vec![self.a as usize],
            FRESH | SANDBOX => vec![self.b as usize],
            _ => vec![],
        }
    }
}

/// The first of the refusals 6, 7 and 8, with the lowest node that has it.
pub fn fault(nodes: &[Node]) -> Option<(u32, usize)> {
    let lowest = |faulty: fn(&[Node], usize) -> bool| (0..nodes.len()).find(|n| faulty(nodes, *n));
    if let Some(node) = lowest(misplaced) {
        return Some((6, node));
    }
    if let Some(node) = lowest(strayed) {
        return Some((7, node));
    }
    lowest(misnamed).map(|node| (8, node))
}

/// Is this a table of nodes that an accepted sheet gives?
pub fn nodes_fit(nodes: &[Node]) -> bool {
    (1..=MOST_NODES).contains(&nodes.len())
        && nodes.iter().all(Node::fits)
        && fault(nodes).is_none()
}

/// A number that is not the place, a wrong child, or not a child as often as due.
fn misplaced(nodes: &[Node], place: usize) -> bool {
    let wrong = |child: &usize| *child <= place || *child >= nodes.len();
    let times = nodes.iter().flat_map(Node::children).filter(|child| *child == place).count();
    nodes[place].number != place as u64
        || nodes[place].children().iter().any(wrong)
        || times != usize::from(place != 0)
}

/// A back that is not inside a loop of its number.
fn strayed(nodes: &[Node], place: usize) -> bool {
    let target = nodes[place].a as usize;
    nodes[place].kind == BACK
        && !ancestors(nodes, place).iter().any(|n| *n == target && nodes[*n].kind == LOOP)
}

/// A name used outside its fresh node, or given by a lower node too.
fn misnamed(nodes: &[Node], place: usize) -> bool {
    let node = nodes[place];
    let gives = |n: usize, name: u64| nodes[n].kind == FRESH && nodes[n].a == name;
    match node.kind {
        NAMED_EVENT => !ancestors(nodes, place).iter().any(|n| gives(*n, node.b)),
        FRESH => (0..place).any(|n| gives(n, node.a)),
        _ => false,
    }
}

/// The nodes that a node lies inside; the tree must have passed 6.
fn ancestors(nodes: &[Node], place: usize) -> Vec<usize> {
    let parent = |child: usize| (0..child).find(|n| nodes[*n].children().contains(&child));
    std::iter::successors(parent(place), |n| parent(*n)).collect()
}
