//! Runs of an outline: the steps so far and the parts still to run.

use crate::judge::{breaks, events, Step, CREATE};
use crate::outline::{
    Node, BACK, CHOICE, END, FRESH, LOOP, NAMED_EVENT, NAMES, SANDBOX, SEQUENCE, STATIC_EVENT,
};
use crate::policy::{Policy, POLICIES, STATICS};

/// What each name means.
pub type Meaning = [Option<u64>; NAMES];

#[derive(Clone, Debug, PartialEq, Eq, PartialOrd, Ord, Hash)]
pub enum Part {
    Node(usize, Meaning),
    Closing(u64),
}

/// The first part is the last of the list.
#[derive(Clone, Debug, PartialEq, Eq)]
pub struct Run {
    pub steps: Vec<Step>,
    parts: Vec<Part>,
}

/// Which way a choice goes.
#[derive(Clone, Copy, Debug, PartialEq, Eq)]
pub enum Way {
    Left,
    Right,
}

impl Run {
    pub fn start() -> Run {
        Run { steps: vec![], parts: vec![Part::Node(0, [None; NAMES])] }
    }

    pub fn is_over(&self) -> bool {
        self.parts.is_empty()
    }

    pub fn parts(&self) -> &[Part] {
        &self.parts
    }

    /// Is the first part a node that is not there, or an event on a name that means nothing? No run of an outline comes to that.
    pub fn is_stuck(&self, nodes: &[Node]) -> bool {
        match self.parts.last() {
            Some(Part::Node(n, meaning)) => match nodes.get(*n) {
                None => true,
                Some(node) => node.kind == NAMED_EVENT && meaning[node.b as usize].is_none(),
            },
            _ => false,
        }
    }

    /// Is the first part a choice?
    pub fn chooses(&self, nodes: &[Node]) -> bool {
        matches!(self.parts.last(), Some(Part::Node(n, _)) if nodes[*n].kind == CHOICE)
    }

    /// A run that holds these parts, of which the steps so far are not kept.
    pub fn holding(parts: Vec<Part>) -> Run {
        Run { steps: vec![], parts }
    }

    /// One move. A fresh node picks the lowest resource not used so far.
    pub fn advance(&mut self, nodes: &[Node], way: Way) {
        self.advance_giving(nodes, way, self.unused());
    }

    /// One move. A fresh node gives this resource.
    pub fn advance_giving(&mut self, nodes: &[Node], way: Way, resource: u64) {
        match self.parts.pop() {
            None => {}
            Some(Part::Closing(policy)) => self.steps.push(Step::close(policy)),
            Some(Part::Node(number, meaning)) => self.enter(nodes[number], meaning, way, resource),
        }
    }

    fn enter(&mut self, node: Node, meaning: Meaning, way: Way, unused: u64) {
        match node.kind {
            END => {}
            STATIC_EVENT => self.steps.push(Step::event(node.a, node.b)),
            NAMED_EVENT => {
                let resource = meaning[node.b as usize].expect("a name is used inside its fresh");
                self.steps.push(Step::event(node.a, resource));
            }
            SEQUENCE => {
                self.put(node.b, meaning);
                self.put(node.a, meaning);
            }
            CHOICE => self.put(if way == Way::Left { node.a } else { node.b }, meaning),
            LOOP | BACK => self.put(node.a, meaning),
            FRESH => {
                self.steps.push(Step::event(CREATE, unused));
                let mut given = meaning;
                given[node.a as usize] = Some(unused);
                self.put(node.b, given);
            }
            SANDBOX => {
                self.steps.push(Step::open(node.a));
                self.parts.push(Part::Closing(node.a));
                self.put(node.b, meaning);
            }
            _ => unreachable!("a kind above 8"),
        }
    }

    fn put(&mut self, node: u64, meaning: Meaning) {
        self.parts.push(Part::Node(node as usize, meaning));
    }

    fn unused(&self) -> u64 {
        let highest = events(&self.steps).iter().map(|e| e.resource).max();
        highest.map_or(STATICS, |r| STATICS.max(r + 1))
    }

    /// The policies that the trace leaves open and not respected.
    pub fn broken(&self, policies: &[Policy]) -> Vec<usize> {
        (0..POLICIES).filter(|number| breaks(&policies[*number], &self.steps)).collect()
    }
}
