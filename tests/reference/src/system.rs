//! The runs of an outline as those of a pushdown system.
//!
//! For one policy and one choice of the resources of its instance, x alone or x and y, the runs of
//! an outline are the runs of a pushdown system. Its control holds one state that the instance may
//! be in, whether the policy is open, and which of its dynamic resources have been created. Its
//! stack is the list of parts. A name matters only in whether it means x, or y, so a part is a
//! node with the names that mean them, if any do. The outermost closing of the policy is told
//! apart from the others.
//!
//! All stacks under an open control with an offending state are bad.

use crate::outline::{
    Node, BACK, CHOICE, END, FRESH, LOOP, NAMED_EVENT, NAMES, SANDBOX, SEQUENCE, STATIC_EVENT,
};
use crate::policy::{is_offending, Event, Instance, Policy, Sight, STATES, STATICS};
use crate::run::Way;

/// A resource watched.
#[derive(Clone, Copy, Debug, PartialEq, Eq)]
pub enum Watched {
    Static(u64),
    /// A dynamic resource, created once or never. Two of the same number are the same one.
    Dynamic(usize),
}

/// How many dynamic resources an instance can have.
const MOST_DYNAMIC: usize = 2;

/// Stand-ins for the watched dynamic resources, from `OWN` on, and for any other one.
const OWN: u64 = 16;
const OTHER: u64 = OWN + MOST_DYNAMIC as u64;

impl Watched {
    fn stand_in(self) -> u64 {
        match self {
            Watched::Static(resource) => resource,
            Watched::Dynamic(number) => OWN + number as u64,
        }
    }
}

/// The resources of the instance that is watched.
#[derive(Clone, Copy, Debug, PartialEq, Eq)]
pub struct Choice {
    x: Watched,
    y: Option<Watched>,
}

impl Choice {
    /// Every choice of statics, of one dynamic resource, and for a pair policy of two different ones.
    pub fn all(policy: &Policy) -> Vec<Choice> {
        Choice::among(policy, (0..STATICS).collect())
    }

    /// The choices for an outline. A static in none of its events moves as a dynamic resource that is never created.
    pub(crate) fn of(policy: &Policy, nodes: &[Node]) -> Vec<Choice> {
        let fired = |who: &u64| nodes.iter().any(|n| n.kind == STATIC_EVENT && n.b == *who);
        Choice::among(policy, (0..STATICS).filter(fired).collect())
    }

    fn among(policy: &Policy, statics: Vec<u64>) -> Vec<Choice> {
        let one: Vec<Watched> = statics.into_iter().map(Watched::Static).chain([Watched::Dynamic(0)]).collect();
        if !policy.is_pair() {
            return one.into_iter().map(|x| Choice { x, y: None }).collect();
        }
        let with_each = |x: &Watched| one.iter().map(|y| Choice { x: *x, y: Some(*y) }).collect::<Vec<_>>();
        let apart = Choice { x: Watched::Dynamic(0), y: Some(Watched::Dynamic(1)) };
        one.iter().flat_map(with_each).chain([apart]).collect()
    }

    fn instance(self) -> Instance {
        Instance { x: Some(self.x.stand_in()), y: self.y.map(|y| Some(y.stand_in())) }
    }

    /// How many dynamic resources it has.
    fn dynamic(self) -> usize {
        let number = |watched: Watched| match watched {
            Watched::Static(_) => 0,
            Watched::Dynamic(number) => number + 1,
        };
        number(self.x).max(self.y.map_or(0, number))
    }
}

#[derive(Clone, Copy, PartialEq, Eq)]
struct Control {
    state: usize,
    open: bool,
    created: [bool; MOST_DYNAMIC],
}

impl Control {
    const FIRST: Control = Control { state: 0, open: false, created: [false; MOST_DYNAMIC] };

    fn index(self) -> usize {
        let created = usize::from(self.created[0]) + 2 * usize::from(self.created[1]);
        self.state + STATES * usize::from(self.open) + 2 * STATES * created
    }

    fn at(index: usize) -> Control {
        let created = index / (2 * STATES);
        Control {
            state: index % STATES,
            open: index / STATES % 2 == 1,
            created: [created % 2 == 1, created / 2 == 1],
        }
    }

    fn with_state(self, state: usize) -> Control {
        Control { state, ..self }
    }

    fn is_bad(self) -> bool {
        self.open && is_offending(self.state)
    }
}

/// For each dynamic resource that is watched the name that means it.
type Mine = [Option<usize>; MOST_DYNAMIC];

/// A part.
#[derive(Clone, Copy, PartialEq, Eq)]
enum Symbol {
    /// A closing that leaves the policy as open as it was.
    InnerClosing,
    /// The closing after which the policy is no longer open.
    LastClosing,
    Node {
        number: usize,
        mine: Mine,
    },
}

const CLOSINGS: usize = 2;
/// A name, or none.
const MEANINGS: usize = NAMES + 1;

/// A rule: control and top symbol, and what takes their place. `steps` is how many steps the move
/// adds, 0 or 1.
pub(crate) struct Rule {
    pub(crate) control: usize,
    pub(crate) symbol: usize,
    pub(crate) next: usize,
    pub(crate) put: Vec<usize>,
    pub(crate) way: Way,
    pub(crate) steps: u64,
}

pub(crate) struct System<'a> {
    pub(crate) nodes: &'a [Node],
    pub(crate) policy: &'a Policy,
    pub(crate) watched: Choice,
}

impl System<'_> {
    /// The configuration of one symbol in which every run begins.
    pub(crate) fn first(&self) -> (usize, usize) {
        let root = Symbol::Node { number: 0, mine: [None; MOST_DYNAMIC] };
        (Control::FIRST.index(), self.index(root))
    }

    /// In how many ways names can mean the watched resources.
    fn meanings(&self) -> usize {
        MEANINGS.pow(self.watched.dynamic() as u32)
    }

    fn index(&self, symbol: Symbol) -> usize {
        match symbol {
            Symbol::InnerClosing => 0,
            Symbol::LastClosing => 1,
            Symbol::Node { number, mine } => {
                let [first, second] = mine.map(|name| name.map_or(0, |name| name + 1));
                CLOSINGS + self.meanings() * number + first + MEANINGS * second
            }
        }
    }

    fn symbol(&self, index: usize) -> Symbol {
        match index {
            0 => Symbol::InnerClosing,
            1 => Symbol::LastClosing,
            _ => {
                let (number, names) = ((index - CLOSINGS) / self.meanings(), (index - CLOSINGS) % self.meanings());
                Symbol::Node { number, mine: [names % MEANINGS, names / MEANINGS].map(|name| name.checked_sub(1)) }
            }
        }
    }

    pub(crate) fn bad_controls(&self) -> Vec<usize> {
        (0..self.controls()).filter(|control| Control::at(*control).is_bad()).collect()
    }

    pub(crate) fn symbols(&self) -> usize {
        CLOSINGS + self.meanings() * self.nodes.len()
    }

    pub(crate) fn controls(&self) -> usize {
        2 * STATES << self.watched.dynamic()
    }

    pub(crate) fn rules(&self) -> Vec<Rule> {
        let mut rules = Vec::new();
        for control in 0..self.controls() {
            for symbol in 0..self.symbols() {
                self.add_rules(Control::at(control), self.symbol(symbol), &mut rules);
            }
        }
        rules
    }

    fn add_rules(&self, control: Control, symbol: Symbol, rules: &mut Vec<Rule>) {
        let steps = self.steps(symbol);
        let mut add = |next: Control, put: &[Symbol], way: Way| {
            rules.push(Rule {
                steps,
                control: control.index(),
                symbol: self.index(symbol),
                next: next.index(),
                put: put.iter().map(|s| self.index(*s)).collect(),
                way,
            })
        };
        let (number, mine) = match symbol {
            Symbol::InnerClosing => return add(control, &[], Way::Left),
            Symbol::LastClosing => return add(Control { open: false, ..control }, &[], Way::Left),
            Symbol::Node { number, mine } => (number, mine),
        };
        let node = self.nodes[number];
        let part = |n: u64| Symbol::Node { number: n as usize, mine };
        match node.kind {
            END => add(control, &[], Way::Left),
            STATIC_EVENT => {
                for next in self.fired(control, node.a, node.b) {
                    add(next, &[], Way::Left);
                }
            }
            NAMED_EVENT => {
                let meant = mine.iter().position(|name| *name == Some(node.b as usize));
                let resource = meant.map_or(OTHER, |number| OWN + number as u64);
                for next in self.fired(control, node.a, resource) {
                    add(next, &[], Way::Left);
                }
            }
            SEQUENCE => add(control, &[part(node.a), part(node.b)], Way::Left),
            CHOICE => {
                add(control, &[part(node.a)], Way::Left);
                add(control, &[part(node.b)], Way::Right);
            }
            LOOP | BACK => add(control, &[part(node.a)], Way::Left),
            FRESH => {
                for (next, mine) in self.given(control, node.a as usize, mine) {
                    add(next, &[Symbol::Node { number: node.b as usize, mine }], Way::Left);
                }
            }
            SANDBOX if node.a != self.policy.number || control.open => {
                add(control, &[part(node.b), Symbol::InnerClosing], Way::Left)
            }
            SANDBOX => add(self.opened(control), &[part(node.b), Symbol::LastClosing], Way::Left),
            _ => unreachable!("a kind above 8"),
        }
    }

    /// The control after an opening of the policy, which was not open: "all its instances go back to state 0", where they see only that.
    fn opened(&self, control: Control) -> Control {
        let state = match self.policy.sight {
            Sight::Whole => control.state,
            Sight::Local => 0,
        };
        Control { state, open: true, ..control }
    }

    /// The last step, as a bit of a summary, that a rule brings about, if it leaves the policy open with the instance offending: an event's
    /// action, a create's 0, or 32 for the policy's own opening.
    pub(crate) fn strikes(&self, rule: &Rule) -> Option<u32> {
        let Symbol::Node { number, .. } = self.symbol(rule.symbol) else {
            return None;
        };
        let node = self.nodes[number];
        let bit = match node.kind {
            STATIC_EVENT | NAMED_EVENT => node.a as u32,
            FRESH => 0,
            SANDBOX if node.a == self.policy.number => 32,
            _ => return None,
        };
        Control::at(rule.next).is_bad().then_some(bit)
    }

    /// How many steps the move of a part adds.
    fn steps(&self, symbol: Symbol) -> u64 {
        match symbol {
            Symbol::InnerClosing | Symbol::LastClosing => 1,
            Symbol::Node { number, .. } => match self.nodes[number].kind {
                STATIC_EVENT | NAMED_EVENT | FRESH | SANDBOX => 1,
                _ => 0,
            },
        }
    }

    /// The controls after an event.
    fn fired(&self, control: Control, action: u64, resource: u64) -> Vec<Control> {
        let event = Event { action, resource };
        let ends = self.policy.successors(self.watched.instance(), control.state, event);
        ends.into_iter().map(|state| control.with_state(state)).collect()
    }

    /// A fresh node gives another resource, or a watched one that may still be created.
    fn given(&self, control: Control, name: usize, mine: Mine) -> Vec<(Control, Mine)> {
        let kept = mine.map(|meant| meant.filter(|n| *n != name));
        let mut given: Vec<_> =
            self.fired(control, 0, OTHER).into_iter().map(|next| (next, kept)).collect();
        for number in (0..self.watched.dynamic()).filter(|number| !control.created[*number]) {
            let (mut created, mut mine) = (control.created, kept);
            created[number] = true;
            mine[number] = Some(name);
            for next in self.fired(control, 0, OWN + number as u64) {
                given.push((Control { created, ..next }, mine));
            }
        }
        given
    }
}
