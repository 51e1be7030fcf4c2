//! Counterexamples: what is shown for an outline, and whether a list of steps is one.

use crate::judge::{breaks, is_open, Answer, Judge, Step, CREATE, EVENT};
use crate::least::shortest_run;
use crate::outline::{
    Node, BACK, CHOICE, END, FRESH, LOOP, NAMED_EVENT, NAMES, SANDBOX, SEQUENCE,
    STATIC_EVENT,
};
use crate::policy::{is_static, Edge, Policies, Policy, STATICS};
use crate::pushdown::{check, tables};
use crate::run::Meaning;
use std::collections::{BTreeSet, HashMap};

/// The longest trace that is shown.
pub const MOST_SHOWN: u64 = 200;
/// The numbers of a table lent for it: three to a step.
pub const TABLE_NUMBERS: usize = 3 * MOST_SHOWN as usize;

#[derive(Clone, Debug, PartialEq, Eq)]
pub enum Counterexample {
    Accepted,
    /// A shortest trace that leaves the lowest such policy open and not respected.
    Shown {
        policy: usize,
        steps: Vec<Step>,
    },
    /// Every such trace has more than [`MOST_SHOWN`] steps; the fewest.
    Longer {
        policy: usize,
        length: u64,
    },
}

impl Counterexample {
    /// The verdict's two numbers, and the length shown; 0 where nothing is shown.
    pub fn numbers(&self) -> (u32, usize, usize) {
        match self {
            Counterexample::Accepted => (0, 0, 0),
            Counterexample::Shown { policy, steps } => (1, *policy, steps.len()),
            Counterexample::Longer { policy, .. } => (1, *policy, 0),
        }
    }
}

pub fn counterexample(policies: &Policies, nodes: &[Node]) -> Counterexample {
    let Some(policy) = check(policies, nodes) else {
        return Counterexample::Accepted;
    };
    match shortest_run(policies, nodes, policy, MOST_SHOWN) {
        None => unreachable!("a policy that some trace breaks has a shortest such trace"),
        Some((_, Some(run))) => Counterexample::Shown { policy, steps: run.steps },
        Some((length, None)) => Counterexample::Longer { policy, length },
    }
}

/// The same on tables that any caller may lend, with a trace table of so many numbers: 40, then 41.
pub fn counterexample_tables(
    edges: &[Edge],
    local: u64,
    nodes: &[Node],
    numbers: usize,
) -> Result<Counterexample, u32> {
    if numbers < TABLE_NUMBERS {
        return Err(40);
    }
    tables(edges, local, nodes).map(|policies| counterexample(&policies, nodes))
}

/// Why a list of steps is no counterexample. Places are counted from 0.
#[derive(Clone, Copy, Debug, PartialEq, Eq)]
pub enum Fault {
    /// The steps before this place are a trace of the outline; with the one at it they are none.
    NotATrace(usize),
    /// The create at this place is not on 16 + the number of creates before it.
    Misnumbered(usize),
    /// The policy is not open at the end.
    NotOpen,
    /// No instance of the policy may be in an offending state at the end.
    Respected,
}

/// Why these steps are not a trace of the outline that leaves the policy open and not respected, with
/// its fresh resources numbered from 16 on; none where they are.
pub fn fault(policies: &Policies, nodes: &[Node], policy: usize, steps: &[Step]) -> Option<Fault> {
    let made = longest_trace(nodes, steps);
    if made < steps.len() {
        return Some(Fault::NotATrace(made));
    }
    if let Some(place) = misnumbered(steps) {
        return Some(Fault::Misnumbered(place));
    }
    if !is_open(steps, policy) {
        return Some(Fault::NotOpen);
    }
    (!breaks(&Policy::of(policies, policy), steps)).then_some(Fault::Respected)
}

/// Why these steps may not be shown for the outline, in words; none where they may.
pub fn shown_fault(policies: &Policies, nodes: &[Node], steps: &[Step]) -> Option<String> {
    let due = counterexample(policies, nodes);
    let (_, policy, length) = due.numbers();
    if steps.len() != length {
        return Some(format!("{} steps, but {length} are to be shown", steps.len()));
    }
    match due {
        Counterexample::Shown { .. } => {
            fault(policies, nodes, policy, steps).map(|why| format!("policy {policy}: {why:?}"))
        }
        _ => None,
    }
}

/// How many of these steps the judge is past, from the first on, when it does not allow one, and its answer to that one. Those that
/// `judged` leaves out are passed over.
fn follow(policies: &Policies, steps: &[Step], judged: impl Fn(&Step) -> bool) -> (usize, Answer) {
    let mut judge = Judge::new(policies);
    let mut answer = |step: &Step| if judged(step) { judge.judge(*step) } else { Answer::Allowed };
    let answers = steps.iter().map(|step| answer(step)).enumerate();
    let mut stops = answers.filter(|(_, answer)| *answer != Answer::Allowed);
    stops.next().unwrap_or((steps.len(), Answer::Allowed))
}

/// The same where other policies are never opened. Every shortest counterexample to the policy is followed to its last step, which
/// violates the policy; or, with more than 64 creates or openings unclosed, to the 65th.
pub fn follow_alone(policies: &Policies, policy: usize, steps: &[Step]) -> (usize, Answer) {
    follow(policies, steps, |step| step.kind == EVENT || step.a == policy as u64)
}

/// Does the judge stop where it may, on a shortest counterexample to the lowest policy that any trace breaks? At the last step, for that
/// policy; before, for a higher one; or at a create or an opening beyond its limit. Which of these it is depends on the trace that is shown.
pub fn stops_rightly(policies: &Policies, policy: usize, steps: &[Step]) -> bool {
    match follow(policies, steps, |_| true) {
        (_, Answer::Refused(number)) => number == 30 || number == 32,
        (past, Answer::Violated(named)) if past + 1 == steps.len() => named == policy,
        (_, Answer::Violated(named)) => named > policy,
        (_, Answer::Allowed) => false,
    }
}

fn is_create(step: &Step) -> bool {
    step.kind == EVENT && step.a == CREATE
}

fn misnumbered(steps: &[Step]) -> Option<usize> {
    let before = |place: usize| steps[..place].iter().filter(|step| is_create(step)).count() as u64;
    (0..steps.len())
        .find(|place| is_create(&steps[*place]) && steps[*place].b != STATICS + before(*place))
}

/// How many of these steps, from the first on, are a trace of the outline.
pub fn longest_trace(nodes: &[Node], steps: &[Step]) -> usize {
    let mut recogniser =
        Recogniser { nodes, steps, items: vec![], ends: vec![], places: HashMap::new(), made: 0 };
    recogniser.visit((0, [None; NAMES], 0));
    recogniser.saturate();
    recogniser.made
}

/// A node with what each name means, and how many steps were made when it is the first part.
type Item = (usize, Meaning, usize);

/// Which items runs that make these steps come to, and how many steps were made when an item's node
/// has been taken away with all that took its place. A least fixed point, so it ends although lists
/// of parts may grow without a step.
struct Recogniser<'a> {
    nodes: &'a [Node],
    steps: &'a [Step],
    items: Vec<Item>,
    ends: Vec<BTreeSet<usize>>,
    places: HashMap<Item, usize>,
    made: usize,
}

impl Recogniser<'_> {
    /// The place of an item among those that runs come to.
    fn visit(&mut self, item: Item) -> usize {
        let next = self.items.len();
        let place = *self.places.entry(item).or_insert(next);
        if place == next {
            self.items.push(item);
            self.ends.push(BTreeSet::new());
        }
        place
    }

    fn saturate(&mut self) {
        loop {
            let before = (self.items.len(), self.ends.iter().map(BTreeSet::len).sum::<usize>());
            for place in (0..self.items.len()).rev() {
                let found = self.found(self.items[place]);
                self.ends[place].extend(found);
            }
            if before == (self.items.len(), self.ends.iter().map(BTreeSet::len).sum::<usize>()) {
                return;
            }
        }
    }

    /// Is this the step at this place? Then it is made.
    fn makes(&mut self, at: usize, step: Step) -> bool {
        let made = self.steps.get(at) == Some(&step);
        if made {
            self.made = self.made.max(at + 1);
        }
        made
    }

    /// The dynamic resource that the step at this place creates, if it is in no step before.
    fn created(&self, at: usize) -> Option<u64> {
        let step = self.steps.get(at).filter(|step| is_create(step) && !is_static(step.b))?;
        let used = |before: &Step| before.kind == EVENT && before.b == step.b;
        (!self.steps[..at].iter().any(used)).then_some(step.b)
    }

    fn ends_of(&mut self, item: Item) -> Vec<usize> {
        let place = self.visit(item);
        self.ends[place].iter().copied().collect()
    }

    /// How many steps are made when the item is done, as far as is known.
    fn found(&mut self, (number, meaning, at): Item) -> Vec<usize> {
        let node = self.nodes[number];
        let (a, b) = (node.a as usize, node.b as usize);
        match node.kind {
            END => vec![at],
            STATIC_EVENT => self.event(at, Step::event(node.a, node.b)),
            NAMED_EVENT => {
                let resource = meaning[b].expect("a name is used inside its fresh");
                self.event(at, Step::event(node.a, resource))
            }
            SEQUENCE => {
                let middles = self.ends_of((a, meaning, at));
                middles.into_iter().flat_map(|middle| self.ends_of((b, meaning, middle))).collect()
            }
            CHOICE => {
                let mut ends = self.ends_of((a, meaning, at));
                ends.extend(self.ends_of((b, meaning, at)));
                ends
            }
            LOOP | BACK => self.ends_of((a, meaning, at)),
            FRESH => match self.created(at) {
                None => vec![],
                Some(resource) => {
                    self.makes(at, Step::event(CREATE, resource));
                    let mut given = meaning;
                    given[a] = Some(resource);
                    self.ends_of((b, given, at + 1))
                }
            },
            SANDBOX if !self.makes(at, Step::open(node.a)) => vec![],
            SANDBOX => {
                let inner = self.ends_of((b, meaning, at + 1));
                let closed = inner.into_iter().filter(|end| self.makes(*end, Step::close(node.a)));
                closed.map(|end| end + 1).collect()
            }
            _ => unreachable!("a kind above 8"),
        }
    }

    fn event(&mut self, at: usize, step: Step) -> Vec<usize> {
        if self.makes(at, step) {
            vec![at + 1]
        } else {
            vec![]
        }
    }
}
