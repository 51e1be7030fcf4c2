//! Shortest counterexamples by least weights on the pushdown system of `system.rs`.
//!
//! A move that adds a step weighs 1, any other 0. The weight of a transition (from, symbol, to) of the
//! automaton is the fewest steps in which a run can take the symbol away, from control `from` to
//! control `to`; or, where `to` is the accepting state, come to a bad configuration. A rule that
//! puts two symbols adds the weights of both to its own. No rule gives less than any of its parts,
//! so weights are settled in rising order (Knuth, *A generalization of Dijkstra's algorithm*, 1977). They
//! are exact for all outlines, however long the runs; only sums beyond `u64` stay at its end.

use crate::outline::{Node, SANDBOX};
use crate::policy::{Policies, Policy};
use crate::pushdown::{by_rule, heads, replacement, Reason, Transition};
use crate::run::{Run, Way};
use crate::system::{Choice, Rule, System};
use std::cmp::Reverse;
use std::collections::BinaryHeap;

struct Least {
    rules: Vec<Rule>,
    symbols: usize,
    /// The configuration in which every run begins.
    first: (usize, usize),
    /// The one accepting state of the automaton, after the controls.
    accept: usize,
    /// The least weight found so far of each transition, and why.
    weights: Vec<u64>,
    reasons: Vec<Reason>,
    settled: Vec<bool>,
    waiting: BinaryHeap<Reverse<(u64, usize)>>,
    /// The rules that put a symbol at a control, first of all.
    heads: Vec<Vec<u32>>,
    /// The rules that await their second symbol at a place, with the weight up to it.
    awaiting: Vec<Vec<(u32, u64)>>,
    /// Where each place goes by each symbol, of what is settled.
    targets: Vec<Vec<usize>>,
}

impl Least {
    fn new(system: &System) -> Least {
        let rules = system.rules();
        let symbols = system.symbols();
        let heads = heads(&rules, system);
        let (accept, places) = (system.controls(), system.controls() + 1);
        let slots = places * symbols * places;
        let mut least = Least {
            rules,
            symbols,
            first: system.first(),
            accept,
            weights: vec![u64::MAX; slots],
            reasons: vec![Reason::Absent; slots],
            settled: vec![false; slots],
            waiting: BinaryHeap::new(),
            heads,
            awaiting: vec![Vec::new(); places * symbols],
            targets: vec![Vec::new(); places * symbols],
        };
        least.seed(&system.bad_controls());
        least.settle();
        least
    }

    fn places(&self) -> usize {
        self.accept + 1
    }

    fn slot(&self, (from, symbol, to): Transition) -> usize {
        (from * self.symbols + symbol) * self.places() + to
    }

    fn offer(&mut self, transition: Transition, weight: u64, reason: Reason) {
        let slot = self.slot(transition);
        let unknown = matches!(self.reasons[slot], Reason::Absent);
        if unknown || weight < self.weights[slot] {
            self.weights[slot] = weight;
            self.reasons[slot] = reason;
            self.waiting.push(Reverse((weight, slot)));
        }
    }

    /// What is bad already, and the rules that put nothing.
    fn seed(&mut self, bad: &[usize]) {
        for symbol in 0..self.symbols {
            self.offer((self.accept, symbol, self.accept), 0, Reason::Bad);
            bad.iter().for_each(|control| self.offer((*control, symbol, self.accept), 0, Reason::Bad));
        }
        for index in 0..self.rules.len() {
            let rule = &self.rules[index];
            if rule.put.is_empty() {
                let (transition, steps) = ((rule.control, rule.symbol, rule.next), rule.steps);
                self.offer(transition, steps, by_rule(index as u32, 0));
            }
        }
    }

    fn settle(&mut self) {
        while let Some(Reverse((weight, slot))) = self.waiting.pop() {
            if self.settled[slot] {
                continue;
            }
            self.settled[slot] = true;
            let (place, to) = (slot / self.places(), slot % self.places());
            self.targets[place].push(to);
            self.complete(place, to, weight);
            if place / self.symbols != self.accept {
                self.begin(place, to, weight);
            }
        }
    }

    /// A second symbol settled: rules that came to this place with their first one.
    fn complete(&mut self, place: usize, to: usize, weight: u64) {
        let from = place / self.symbols;
        for (index, before) in self.awaiting[place].clone() {
            let rule = &self.rules[index as usize];
            let transition = (rule.control, rule.symbol, to);
            self.offer(transition, before.saturating_add(weight), by_rule(index, from));
        }
    }

    /// A first symbol settled, leading to `to`.
    fn begin(&mut self, place: usize, to: usize, weight: u64) {
        for index in self.heads[place].clone() {
            let rule = &self.rules[index as usize];
            let (control, symbol) = (rule.control, rule.symbol);
            let before = rule.steps.saturating_add(weight);
            match rule.put.get(1).copied() {
                None => self.offer((control, symbol, to), before, by_rule(index, 0)),
                Some(second) => {
                    let waiting_at = to * self.symbols + second;
                    self.awaiting[waiting_at].push((index, before));
                    for end in self.targets[waiting_at].clone() {
                        let rest = self.weights[waiting_at * self.places() + end];
                        let whole = before.saturating_add(rest);
                        self.offer((control, symbol, end), whole, by_rule(index, to));
                    }
                }
            }
        }
    }

    fn start(&self) -> Transition {
        let (control, symbol) = self.first;
        (control, symbol, self.accept)
    }

    /// The fewest steps from the start into a bad configuration.
    fn length(&self) -> Option<u64> {
        let slot = self.slot(self.start());
        self.settled[slot].then_some(self.weights[slot])
    }

    /// The ways of a run with that many steps.
    fn ways(&self) -> Vec<Way> {
        let mut ways = Vec::new();
        let mut path = vec![self.start()];
        while let Some(transition) = path.pop() {
            match self.reasons[self.slot(transition)] {
                Reason::Absent => unreachable!("a path uses known transitions"),
                Reason::Bad => return ways,
                Reason::Rule { rule, middle } => {
                    let rule = &self.rules[rule as usize];
                    ways.push(rule.way);
                    path.extend(replacement(rule, middle as usize, transition.2));
                }
            }
        }
        unreachable!("the last transition of a path is a bad one or comes by a rule")
    }
}

fn least(policies: &Policies, nodes: &[Node], number: usize, watched: Choice) -> Least {
    let policy = &Policy::of(policies, number);
    Least::new(&System { nodes, policy, watched })
}

/// The choices of resources to watch; none where no node opens the policy.
fn watched(policies: &Policies, nodes: &[Node], number: usize) -> Vec<Choice> {
    let opened = |node: &Node| node.kind == SANDBOX && node.a == number as u64;
    if nodes.iter().any(opened) {
        Choice::of(&Policy::of(policies, number), nodes)
    } else {
        vec![]
    }
}

/// The fewest steps of a trace that leaves the policy open and not respected.
pub fn shortest_length(policies: &Policies, nodes: &[Node], number: usize) -> Option<u64> {
    let each = watched(policies, nodes, number).into_iter();
    each.filter_map(|watched| least(policies, nodes, number, watched).length()).min()
}

/// A run of the fewest steps whose trace leaves the policy open and not respected, if one of at
/// most `most` steps is there; with the fewest steps in any case.
pub fn shortest_run(
    policies: &Policies,
    nodes: &[Node],
    number: usize,
    most: u64,
) -> Option<(u64, Option<Run>)> {
    let each = watched(policies, nodes, number).into_iter();
    let found = each.map(|watched| least(policies, nodes, number, watched));
    let (length, shortest) = found
        .filter_map(|least| Some((least.length()?, least)))
        .min_by_key(|(length, _)| *length)?;
    let run = (length <= most).then(|| crate::pushdown::replay(nodes, &shortest.ways()));
    Some((length, run))
}
