//! The check by saturation of the pushdown system of `system.rs`.
//!
//! The predecessors pre* of the bad configurations are found as a finite automaton over the
//! stack (Bouajjani, Esparza and Maler 1997; Schwoon 2002, Algorithm 1). Each transition
//! keeps the rule that gave it, so that a run into a bad configuration can be read off and
//! replayed.

use crate::outline::{nodes_fit, Node, SANDBOX};
use crate::policy::{edges_fit, Edge, Policies, Policy, Sight, POLICIES};
use crate::run::{Run, Way};
use crate::system::{Choice, Rule, System};

/// A transition of the automaton over the stack.
pub(crate) type Transition = (usize, usize, usize);

/// Why a transition is there.
#[derive(Clone, Copy)]
pub(crate) enum Reason {
    Absent,
    /// It belongs to the bad configurations.
    Bad,
    /// By a rule; with two symbols put, the automaton is at `middle` between them.
    Rule {
        rule: u32,
        middle: u8,
    },
}

/// pre* of the bad configurations.
struct Saturation {
    rules: Vec<Rule>,
    symbols: usize,
    /// The configuration in which every run begins.
    first: (usize, usize),
    /// The one accepting state of the automaton, after the controls.
    accept: usize,
    reasons: Vec<Reason>,
    waiting: Vec<Transition>,
    /// The rules that put a symbol at a control, first of all.
    heads: Vec<Vec<u32>>,
    /// The rules that await their second symbol at a place, with the control before them.
    awaiting: Vec<Vec<u32>>,
    /// Where each place goes by each symbol.
    targets: Vec<Vec<u8>>,
}

impl Saturation {
    fn new(system: &System) -> Saturation {
        let symbols = system.symbols();
        let bad = system.bad_controls().into_iter();
        let heads: Vec<_> = bad.flat_map(|control| (0..symbols).map(move |symbol| (control, symbol))).collect();
        Saturation::of_heads(system, &heads)
    }

    /// pre* of the configurations with one of these controls and first symbols, whatever stands below.
    fn of_heads(system: &System, bad: &[(usize, usize)]) -> Saturation {
        let rules = system.rules();
        let symbols = system.symbols();
        let (accept, places) = (system.controls(), system.controls() + 1);
        let heads = heads(&rules, system);
        let mut saturation = Saturation {
            rules,
            symbols,
            first: system.first(),
            accept,
            reasons: vec![Reason::Absent; places * symbols * places],
            waiting: Vec::new(),
            heads,
            awaiting: vec![Vec::new(); places * symbols],
            targets: vec![Vec::new(); places * symbols],
        };
        saturation.seed(bad);
        saturation.saturate();
        saturation
    }

    fn slot(&self, (from, symbol, to): Transition) -> usize {
        (from * self.symbols + symbol) * (self.accept + 1) + to
    }

    fn add(&mut self, transition: Transition, reason: Reason) {
        let slot = self.slot(transition);
        if matches!(self.reasons[slot], Reason::Absent) {
            self.reasons[slot] = reason;
            self.waiting.push(transition);
        }
    }

    /// The bad configurations, and the rules that put nothing.
    fn seed(&mut self, bad: &[(usize, usize)]) {
        for symbol in 0..self.symbols {
            self.add((self.accept, symbol, self.accept), Reason::Bad);
        }
        for (control, symbol) in bad {
            self.add((*control, *symbol, self.accept), Reason::Bad);
        }
        for index in 0..self.rules.len() {
            let rule = &self.rules[index];
            if rule.put.is_empty() {
                let transition = (rule.control, rule.symbol, rule.next);
                self.add(transition, by_rule(index as u32, 0));
            }
        }
    }

    fn saturate(&mut self) {
        while let Some((from, symbol, to)) = self.waiting.pop() {
            let place = from * self.symbols + symbol;
            self.targets[place].push(to as u8);
            self.complete(place, from, to);
            if from != self.accept {
                self.begin(place, to);
            }
        }
    }

    /// A second symbol found: rules that reached `from` with their first one.
    fn complete(&mut self, place: usize, from: usize, to: usize) {
        for index in self.awaiting[place].clone() {
            let rule = &self.rules[index as usize];
            self.add((rule.control, rule.symbol, to), by_rule(index, from));
        }
    }

    /// A first symbol found, leading to `to`.
    fn begin(&mut self, place: usize, to: usize) {
        for index in self.heads[place].clone() {
            let rule = &self.rules[index as usize];
            let (control, symbol) = (rule.control, rule.symbol);
            match rule.put.get(1) {
                None => self.add((control, symbol, to), by_rule(index, 0)),
                Some(second) => {
                    let waiting_at = to * self.symbols + second;
                    self.awaiting[waiting_at].push(index);
                    for end in self.targets[waiting_at].clone() {
                        self.add((control, symbol, end as usize), by_rule(index, to));
                    }
                }
            }
        }
    }

    /// Does some run lead there?
    fn reached(&self) -> bool {
        let (control, symbol) = self.first;
        !matches!(self.reasons[self.slot((control, symbol, self.accept))], Reason::Absent)
    }

    /// The rules of a run from the start into a bad configuration.
    fn witness(&self, most: usize) -> Witness {
        let (control, symbol) = self.first;
        let first = (control, symbol, self.accept);
        if matches!(self.reasons[self.slot(first)], Reason::Absent) {
            return Witness::None;
        }
        let mut ways = Vec::new();
        let mut path = vec![first];
        while let Some(transition) = path.pop() {
            match self.reasons[self.slot(transition)] {
                Reason::Absent => unreachable!("a path uses known transitions"),
                Reason::Bad => return Witness::Ways(ways),
                Reason::Rule { rule, middle } => {
                    let rule = &self.rules[rule as usize];
                    ways.push(rule.way);
                    path.extend(replacement(rule, middle as usize, transition.2));
                }
            }
            if ways.len() > most {
                return Witness::TooLong;
            }
        }
        unreachable!("the last transition of a path is a bad one or comes by a rule")
    }
}

/// Does some run come to one of these controls with this symbol next?
pub(crate) fn reaches(system: &System, heads: &[(usize, usize)]) -> bool {
    Saturation::of_heads(system, heads).reached()
}

/// For each control and symbol the rules that put the symbol first of all, at that control.
pub(crate) fn heads(rules: &[Rule], system: &System) -> Vec<Vec<u32>> {
    let symbols = system.symbols();
    let mut heads = vec![Vec::new(); system.controls() * symbols];
    for (index, rule) in rules.iter().enumerate() {
        if let Some(first) = rule.put.first() {
            heads[rule.next * symbols + first].push(index as u32);
        }
    }
    heads
}

/// The transitions that stand for one gained by a rule, the first one last.
pub(crate) fn replacement(rule: &Rule, middle: usize, to: usize) -> Vec<Transition> {
    match rule.put[..] {
        [] => vec![],
        [only] => vec![(rule.next, only, to)],
        [first, second] => vec![(middle, second, to), (rule.next, first, middle)],
        _ => unreachable!("at most two symbols are put"),
    }
}

pub(crate) fn by_rule(rule: u32, middle: usize) -> Reason {
    Reason::Rule { rule, middle: middle as u8 }
}

/// A run into a bad configuration, as the way that each move takes.
pub enum Witness {
    None,
    Ways(Vec<Way>),
    TooLong,
}

/// A run of at most `most` moves that leaves the policy open with the instance offending.
pub fn witness(
    policies: &Policies,
    nodes: &[Node],
    number: usize,
    watched: Choice,
    most: usize,
) -> Witness {
    let policy = &Policy::of(policies, number);
    Saturation::new(&System { nodes, policy, watched }).witness(most)
}

/// Does some trace leave the policy open and not respected?
pub fn breaks(policies: &Policies, nodes: &[Node], number: usize) -> bool {
    // A policy that no node opens is never open.
    let opened = |node: &Node| node.kind == SANDBOX && node.a == number as u64;
    nodes.iter().any(opened)
        && Choice::of(&Policy::of(policies, number), nodes)
            .into_iter()
            .any(|watched| !matches!(witness(policies, nodes, number, watched, 0), Witness::None))
}

/// The lowest policy that some trace leaves open and not respected.
pub fn check(policies: &Policies, nodes: &[Node]) -> Option<usize> {
    (0..POLICIES).find(|number| breaks(policies, nodes, *number))
}

/// The tables that any caller may lend, the choice of past as a number: 41 where no accepted sheet gives them.
pub fn tables(edges: &[Edge], local: u64, nodes: &[Node]) -> Result<Policies, u32> {
    match Sight::told(local) {
        Some(sight) if edges_fit(edges) && nodes_fit(nodes) => {
            Ok(Policies { sight, edges: edges.to_vec() })
        }
        _ => Err(41),
    }
}

/// The check on such tables.
pub fn check_tables(edges: &[Edge], local: u64, nodes: &[Node]) -> Result<Option<usize>, u32> {
    tables(edges, local, nodes).map(|policies| check(&policies, nodes))
}

/// The run that takes these ways.
pub fn replay(nodes: &[Node], ways: &[Way]) -> Run {
    let mut run = Run::start();
    ways.iter().for_each(|way| run.advance(nodes, *way));
    run
}
