//! Sequences of calls of the routine desk: sheets and steps, on the outline and off it, at both limits.

use super::fixed::{outline, policies, trace};
use super::outlines;
use super::traces::write_policies;
use super::trees::{choice, fresh, looped, number, sandbox, sequence, Tree};
use super::Case;
use crate::damage::{random_damage, rows, Text};
use crate::desk::Desk;
use crate::desk_bytes::Call;
use crate::judge::{created, live, unclosed, Answer, Step, CREATE, LARGEST_RESOURCE};
use crate::outline::Node;
use crate::policy::{Policies, Sight, STATICS};
use crate::positions::next_steps;
use crate::rng::Rng;
use crate::sheet::OUTLINE_NAMES;

/// The steps after which a sequence begins anew.
const MOST_STEPS: usize = 70;

fn event(action: u64) -> Tree {
    Tree::Static(action, 3)
}

/// A choice of so many trees, in a chain.
fn one_of(mut trees: Vec<Tree>) -> Tree {
    let last = trees.pop().expect("a choice has a tree");
    trees.into_iter().rev().fold(last, |rest, tree| choice(tree, rest))
}

/// All of them, the first one innermost: as many parts as trees stand there before the first step.
fn nested(trees: u64) -> Tree {
    (2..=trees).fold(event(1), |tree, action| sequence(tree, event(action)))
}

/// A loop that each back leaves with one more part, on either of two ways, beside so many events: the lists of parts double with each step. Another
/// way has so many lists more after two steps, the empty one among them or not.
fn doubling(beside: u64, other: u64, last: Tree) -> Tree {
    let deeper = |last: u64| sequence(event(1), sequence(Tree::Back(0), event(last)));
    let mut ways = vec![Tree::End, deeper(2), deeper(3)];
    ways.extend((0..beside).map(|action| event(4 + action)));
    let chain = (0..other).fold(last, |tree, _| choice(tree, event(31)));
    choice(looped(0, one_of(ways)), sequence(event(1), sequence(event(1), chain)))
}

/// Outlines at both limits, and just beyond: before the first step, after some, and without end.
pub fn limits() -> Vec<Vec<Node>> {
    let leaves = |count: u64| (0..count).map(|action| event(1 + action % 31));
    let with_end = |count: u64| leaves(count - 1).chain([Tree::End]);
    let mut trees: Vec<Tree> = vec![
        // 64 nodes, each a list of its own; with an end among them there is the empty list too
        looped(0, one_of(leaves(32).collect())),
        looped(0, one_of(with_end(32).collect())),
        one_of(with_end(32).collect()),
        // 16 and 17 parts, at the load
        nested(16),
        nested(17),
        // and after a step, an opening and a create
        sequence(event(9), nested(16)),
        sequence(event(9), nested(17)),
        sandbox(0, nested(15)),
        sandbox(0, nested(16)),
        fresh(0, nested(16)),
        fresh(2, nested(17)),
        // one more part with each round
        looped(0, choice(Tree::End, sequence(event(1), sequence(Tree::Back(0), event(2))))),
        looped(0, choice(Tree::End, sandbox(1, Tree::Back(0)))),
        looped(0, choice(event(3), fresh(1, sequence(Tree::Named(1, 1), sequence(Tree::Back(0), Tree::Named(2, 1)))))),
        // lists without end before the first step
        looped(0, sequence(Tree::Back(0), event(1))),
        looped(0, choice(event(2), sequence(Tree::Back(0), event(1)))),
        // none: a loop whose body is its own back
        looped(0, Tree::Back(0)),
        // a name that is used no more tells lists apart
        looped(0, choice(Tree::End, fresh(0, sequence(Tree::Named(1, 0), sequence(Tree::Back(0), Tree::End))))),
        // the same step on two ways
        choice(sequence(event(1), event(2)), sequence(event(1), sequence(event(3), Tree::End))),
    ];
    for beside in 1..=3 {
        for other in 1..=2 {
            trees.push(doubling(beside, other, event(30)));
            trees.push(doubling(beside, other, Tree::End));
        }
    }
    let mut rng = Rng::new(0);
    trees.iter().map(|tree| number(&mut rng, tree)).filter(|nodes| crate::outline::nodes_fit(nodes)).collect()
}

fn write_outline(nodes: &[Node]) -> Text {
    rows(OUTLINE_NAMES, nodes.iter().map(Node::row))
}

/// Sheets that calls are made of.
pub struct Stock {
    case: Case,
    limits: Vec<Vec<Node>>,
    /// The calls since they were drawn.
    steps: usize,
    /// How many of the two are to be loaded next.
    due: usize,
}

/// How the routine stands on its outline.
#[derive(PartialEq, Eq)]
enum Standing {
    Nowhere,
    On,
    Over,
    Off,
    Halted,
}

impl Standing {
    fn of(desk: &Desk) -> Standing {
        let Some(loaded) = &desk.loaded else {
            return Standing::Nowhere;
        };
        match loaded.outline.as_ref().map(|outline| (outline, &outline.positions)) {
            _ if loaded.judge.halted() => Standing::Halted,
            None => Standing::Nowhere,
            Some((_, None)) => Standing::Off,
            Some((_, Some(positions))) if positions.is_empty() => Standing::Off,
            Some((outline, Some(positions))) if next_steps(&outline.nodes, positions, STATICS).is_empty() => Standing::Over,
            Some(_) => Standing::On,
        }
    }

    fn chance_of_loads(&self) -> u64 {
        match self {
            Standing::Nowhere => 10,
            Standing::On => 0,
            Standing::Over => 50,
            Standing::Off => 12,
            Standing::Halted => 40,
        }
    }
}

impl Stock {
    pub fn new(rng: &mut Rng) -> Stock {
        let limits = limits();
        let mut stock = Stock { case: Case { policies: vec![], other: vec![] }, limits, steps: 0, due: 2 };
        stock.draw(rng);
        stock
    }

    /// Other sheets: a random pair, or an outline at the limits under few policies.
    fn draw(&mut self, rng: &mut Rng) {
        self.case = match rng.below(3) {
            0 => {
                let values = rng.pick(&["", "0 0 1 1 0 1; 0 1 1 1 0 6", "1 0 2 2 0 1; 1 1 2 2 0 6; 0 0 30 0 3 7", "0 0 0 1 0 1; 0 1 1 2 0 6"]);
                let at = rng.below(self.limits.len() as u64) as usize;
                Case { policies: policies(values), other: write_outline(&self.limits[at]) }
            }
            _ => {
                let cases = outlines::random_cases(rng);
                cases[rng.below(cases.len() as u64) as usize].clone()
            }
        };
        if rng.percent(30) {
            let local = String::from_utf8_lossy(&self.case.policies).replacen("policy ", "local ", 1);
            self.case.policies = local.into_bytes();
        }
        self.steps = 0;
    }

    /// A call that is often taken where the desk stands like this. Where the routine is over, has strayed, is halted or goes on for long, other
    /// sheets are loaded soon, mostly after what is open was closed.
    pub fn next_call(&mut self, rng: &mut Rng, desk: &Desk) -> Call {
        self.steps += 1;
        let standing = Standing::of(desk);
        if self.due == 0 && (self.steps > MOST_STEPS || rng.percent(standing.chance_of_loads())) {
            self.draw(rng);
            self.due = 2;
        }
        if self.due > 0 && desk.is_busy() && rng.percent(90) {
            let past = desk.loaded.as_ref().map_or(&[][..], |loaded| loaded.judge.past());
            return Call::Step(Step::close(unclosed(past).last().copied().unwrap_or(0)));
        }
        match (self.due, rng.below(100)) {
            (2, 0..=79) | (_, 80..=81) => self.policies(rng),
            (1, 0..=79) | (_, 82..=84) => self.outline(rng),
            _ => Call::Step(self.step(rng, desk)),
        }
    }

    fn policies(&mut self, rng: &mut Rng) -> Call {
        self.due = 1;
        Call::Policies(damaged(rng, &self.case.policies))
    }

    fn outline(&mut self, rng: &mut Rng) -> Call {
        self.due = 0;
        Call::Outline(damaged(rng, &self.case.other))
    }

    /// Mostly one that the outline has next, and that is allowed.
    fn step(&mut self, rng: &mut Rng, desk: &Desk) -> Step {
        let Some(loaded) = &desk.loaded else {
            return random_step(rng, &[]);
        };
        let past = loaded.judge.past();
        let highest = created(past).into_iter().max().unwrap_or(STATICS - 1);
        let next = match loaded.outline.as_ref().and_then(|outline| Some((outline, outline.positions.as_ref()?))) {
            Some((outline, positions)) => next_steps(&outline.nodes, positions, (highest + 1 + rng.below(3)).min(LARGEST_RESOURCE)),
            None => vec![],
        };
        for _ in 0..4 {
            let step = match rng.below(100) {
                0..=89 if !next.is_empty() => next[rng.below(next.len() as u64) as usize],
                90..=95 if !live(past).is_empty() => Step::retire(rng.pick(&live(past))),
                _ => random_step(rng, past),
            };
            let violated = matches!(loaded.judge.clone().judge(step), Answer::Violated(_));
            if !violated || rng.percent(40) {
                return step;
            }
        }
        random_step(rng, past)
    }
}

fn damaged(rng: &mut Rng, text: &Text) -> Text {
    if rng.percent(12) {
        random_damage(rng, text)
    } else {
        text.clone()
    }
}

/// A step of any kind, one that closes what was opened last among them.
fn random_step(rng: &mut Rng, past: &[Step]) -> Step {
    let highest = created(past).into_iter().max().unwrap_or(STATICS - 1);
    let above = (highest + 1).min(LARGEST_RESOURCE);
    match rng.below(12) {
        0 => Step::event(CREATE, rng.pick(&[highest, above, above, above, 3, 16, LARGEST_RESOURCE - 40])),
        1..=4 => Step::event(rng.below(32), rng.pick(&[0, 3, highest, 16])),
        5 => Step::open(rng.below(8)),
        6..=7 => Step::close(unclosed(past).last().copied().unwrap_or(0)),
        8 => Step::close(rng.below(8)),
        9 => Step::retire(rng.pick(&[highest, 3, 16, LARGEST_RESOURCE])),
        10 => Step { kind: rng.pick(&[0, 1, 2, 3, 4, u64::from(u32::MAX)]), a: rng.below(40), b: rng.below(3) },
        _ => Step { kind: rng.below(4), a: rng.pick(&[7, 8, 31, 32, u64::from(u32::MAX)]), b: rng.pick(&[0, 0, 1]) },
    }
}

/// A part of a stored sequence: the sheets that are loaded, and a trace sheet whose steps are taken. No call is made for an empty one.
#[derive(Clone, Debug, Default, PartialEq, Eq)]
pub struct Round {
    pub policies: Text,
    pub outline: Text,
    pub trace: Text,
}

/// A stored sequence from the zero state. At the end a step is taken with one byte changed, for each of the pokes: 256 times its place, and the
/// value.
#[derive(Clone, Debug, Default, PartialEq, Eq)]
pub struct Session {
    pub rounds: Vec<Round>,
    pub pokes: Vec<u64>,
}

/// The rounds that a stored sequence can have.
pub const MOST_ROUNDS: usize = 3;

pub fn sessions(seed: u64, count: usize) -> Vec<Session> {
    let mut rng = Rng::new(seed);
    let mut sessions = super::desk_cases::fixed();
    while sessions.len() < count {
        sessions.push(random_session(&mut rng));
    }
    sessions.truncate(count);
    sessions
}

fn random_session(rng: &mut Rng) -> Session {
    let mut stock = Stock::new(rng);
    let mut desk = Desk::default();
    let mut rounds = Vec::new();
    for _ in 0..rng.between(1, MOST_ROUNDS as u64) {
        let mut round = Round::default();
        stock.draw(rng);
        if rounds.is_empty() || rng.percent(60) {
            round.policies = damaged(rng, &stock.case.policies);
            let _ = desk.load_policies(&round.policies);
        }
        if rng.percent(85) {
            round.outline = damaged(rng, &stock.case.other);
            let _ = desk.load_outline(&round.outline);
        }
        let mut steps = Vec::new();
        for _ in 0..rng.between(1, 40) {
            let step = stock.step(rng, &desk);
            if step.fits() {
                let _ = desk.step(step);
                steps.push(step);
            }
        }
        round.trace = rows(crate::sheet::TRACE_NAMES, steps.iter().map(Step::row));
        rounds.push(round);
    }
    Session { rounds, pokes: vec![] }
}

/// Policies of a sight as a sheet.
pub fn sheet_of(sight: Sight, values: &str) -> Text {
    let read = crate::sheet::read_policies(&policies(values)).expect("a good sheet");
    write_policies(&Policies { sight, edges: read.edges })
}

/// One round of sheets given by their values.
pub fn round(policy_values: &str, outline_values: &str, steps: &str) -> Round {
    Round { policies: policies(policy_values), outline: outline(outline_values), trace: trace(steps) }
}

/// The sheet of an outline's nodes.
pub fn nodes_sheet(nodes: &[Node]) -> Text {
    write_outline(nodes)
}
