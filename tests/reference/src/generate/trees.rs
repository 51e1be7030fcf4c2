//! Random outlines, grown as trees and then numbered.

use super::policies::Palette;
use crate::outline::{
    Node, BACK, CHOICE, END, FRESH, LOOP, NAMED_EVENT, NAMES, SANDBOX, SEQUENCE, STATIC_EVENT,
};
use crate::rng::Rng;

pub enum Tree {
    End,
    Static(u64, u64),
    Named(u64, u64),
    Sequence(Box<Tree>, Box<Tree>),
    Choice(Box<Tree>, Box<Tree>),
    /// A loop with a mark that its backs carry.
    Loop(u64, Box<Tree>),
    Back(u64),
    Fresh(u64, Box<Tree>),
    Sandbox(u64, Box<Tree>),
}

pub fn sequence(first: Tree, second: Tree) -> Tree {
    Tree::Sequence(Box::new(first), Box::new(second))
}

pub fn choice(left: Tree, right: Tree) -> Tree {
    Tree::Choice(Box::new(left), Box::new(right))
}

pub fn looped(mark: u64, body: Tree) -> Tree {
    Tree::Loop(mark, Box::new(body))
}

pub fn fresh(name: u64, body: Tree) -> Tree {
    Tree::Fresh(name, Box::new(body))
}

pub fn sandbox(policy: u64, body: Tree) -> Tree {
    Tree::Sandbox(policy, Box::new(body))
}

/// Grows a tree of a given size.
pub struct Grower<'a> {
    rng: &'a mut Rng,
    palette: &'a Palette,
    ungiven: Vec<u64>,
    names: Vec<u64>,
    loops: Vec<u64>,
    next_mark: u64,
}

impl<'a> Grower<'a> {
    pub fn new(rng: &'a mut Rng, palette: &'a Palette) -> Grower<'a> {
        let ungiven = (0..NAMES as u64).collect();
        Grower { rng, palette, ungiven, names: vec![], loops: vec![], next_mark: 0 }
    }

    pub fn grow(&mut self, size: usize) -> Tree {
        match (size, self.rng.below(100)) {
            (0 | 1, _) => self.leaf(),
            (2, _) | (_, 0..=34) => self.single(size - 1),
            (_, 35..=69) => self.pair(size - 1, sequence),
            _ => self.pair(size - 1, choice),
        }
    }

    fn leaf(&mut self) -> Tree {
        let action = self.rng.pick(&self.palette.actions);
        match self.rng.below(10) {
            0..=2 if !self.loops.is_empty() => Tree::Back(self.rng.pick(&self.loops)),
            0..=6 if !self.names.is_empty() => Tree::Named(action, self.rng.pick(&self.names)),
            9 => Tree::End,
            _ => Tree::Static(action, self.rng.pick(&self.palette.statics)),
        }
    }

    fn pair(&mut self, size: usize, join: fn(Tree, Tree) -> Tree) -> Tree {
        let left = self.rng.between(1, size as u64 - 1) as usize;
        let first = self.grow(left);
        join(first, self.grow(size - left))
    }

    fn single(&mut self, size: usize) -> Tree {
        match self.rng.below(10) {
            0..=2 if !self.ungiven.is_empty() => self.fresh(size),
            0..=5 => self.looped(size),
            _ => sandbox(self.rng.pick(&self.palette.policies), self.grow(size)),
        }
    }

    fn fresh(&mut self, size: usize) -> Tree {
        let at = self.rng.below(self.ungiven.len() as u64) as usize;
        let name = self.ungiven.remove(at);
        self.names.push(name);
        let body = self.grow(size);
        self.names.pop();
        fresh(name, body)
    }

    /// A loop, mostly with a way to leave it at once.
    fn looped(&mut self, size: usize) -> Tree {
        let mark = self.next_mark;
        self.next_mark += 1;
        self.loops.push(mark);
        let body = match size {
            3.. if self.rng.percent(60) => choice(Tree::End, self.grow(size - 2)),
            _ => self.grow(size),
        };
        self.loops.pop();
        looped(mark, body)
    }
}

/// Numbers the nodes in a random order in which each parent comes before its children.
pub fn number(rng: &mut Rng, tree: &Tree) -> Vec<Node> {
    let mut order: Vec<&Tree> = Vec::new();
    let mut parents: Vec<Option<(usize, usize)>> = Vec::new();
    let mut ready: Vec<(&Tree, Option<(usize, usize)>)> = vec![(tree, None)];
    let in_order = rng.percent(40);
    while !ready.is_empty() {
        let at = if in_order { ready.len() - 1 } else { rng.below(ready.len() as u64) as usize };
        let (taken, parent) = ready.remove(at);
        let place = order.len();
        order.push(taken);
        parents.push(parent);
        for (field, child) in children(taken).into_iter().enumerate().rev() {
            ready.push((child, Some((place, field))));
        }
    }
    link(&order, &parents)
}

fn children(tree: &Tree) -> Vec<&Tree> {
    match tree {
        Tree::Sequence(a, b) | Tree::Choice(a, b) => vec![a, b],
        Tree::Loop(_, a) | Tree::Fresh(_, a) | Tree::Sandbox(_, a) => vec![a],
        _ => vec![],
    }
}

fn link(order: &[&Tree], parents: &[Option<(usize, usize)>]) -> Vec<Node> {
    let child = |place: usize, field: usize| {
        parents.iter().position(|p| *p == Some((place, field))).unwrap_or(0) as u64
    };
    let place_of = |mark: u64| {
        order.iter().position(|t| matches!(t, Tree::Loop(m, _) if *m == mark)).unwrap_or(0) as u64
    };
    let fields = |place: usize, tree: &Tree| match tree {
        Tree::End => (END, 0, 0),
        Tree::Static(action, who) => (STATIC_EVENT, *action, *who),
        Tree::Named(action, name) => (NAMED_EVENT, *action, *name),
        Tree::Sequence(..) => (SEQUENCE, child(place, 0), child(place, 1)),
        Tree::Choice(..) => (CHOICE, child(place, 0), child(place, 1)),
        Tree::Loop(..) => (LOOP, child(place, 0), 0),
        Tree::Back(mark) => (BACK, place_of(*mark), 0),
        Tree::Fresh(name, _) => (FRESH, *name, child(place, 0)),
        Tree::Sandbox(policy, _) => (SANDBOX, *policy, child(place, 0)),
    };
    order
        .iter()
        .enumerate()
        .map(|(place, tree)| {
            let (kind, a, b) = fields(place, tree);
            Node { number: place as u64, kind, a, b }
        })
        .collect()
}
