//! The judge over the whole past: nothing but the steps is kept.

use crate::policy::{is_static, Event, Policies, Policy, Sight, POLICIES};

pub const MOST_CREATED: usize = 64;
/// The openings that can be unclosed, in all.
pub const MOST_UNCLOSED: usize = 64;
pub const LARGEST_RESOURCE: u64 = 4_294_967_295;

pub const EVENT: u64 = 0;
pub const OPEN: u64 = 1;
pub const CLOSE: u64 = 2;
pub const RETIRE: u64 = 3;
pub const CREATE: u64 = 0;

/// A step as the sheet writes it.
#[derive(Clone, Copy, Debug, PartialEq, Eq)]
pub struct Step {
    pub kind: u64,
    pub a: u64,
    pub b: u64,
}

#[derive(Clone, Copy, Debug, PartialEq, Eq)]
pub enum Answer {
    Allowed,
    Violated(usize),
    Refused(u32),
}

impl Step {
    pub fn event(action: u64, resource: u64) -> Step {
        Step { kind: EVENT, a: action, b: resource }
    }

    pub fn open(policy: u64) -> Step {
        Step { kind: OPEN, a: policy, b: 0 }
    }

    pub fn close(policy: u64) -> Step {
        Step { kind: CLOSE, a: policy, b: 0 }
    }

    pub fn retire(resource: u64) -> Step {
        Step { kind: RETIRE, a: resource, b: 0 }
    }

    pub fn row(&self) -> [u64; 3] {
        [self.kind, self.a, self.b]
    }

    pub fn fits(&self) -> bool {
        match self.kind {
            EVENT => self.a <= 31 && self.b <= LARGEST_RESOURCE,
            OPEN | CLOSE => self.a <= 7 && self.b == 0,
            RETIRE => self.a <= LARGEST_RESOURCE && self.b == 0,
            _ => false,
        }
    }

    pub fn as_event(&self) -> Option<Event> {
        (self.kind == EVENT).then_some(Event { action: self.a, resource: self.b })
    }
}

impl Answer {
    /// The answer and its detail as printed.
    pub fn numbers(&self) -> (u32, usize) {
        match *self {
            Answer::Allowed => (0, 0),
            Answer::Violated(policy) => (1, policy),
            Answer::Refused(number) => (2, number as usize),
        }
    }
}

/// The numbers that were created, live or retired, in the order of their creation.
pub fn created(steps: &[Step]) -> Vec<u64> {
    steps.iter().filter(|s| s.kind == EVENT && s.a == CREATE).map(|s| s.b).collect()
}

/// Those of them that no later step retires.
pub fn live(steps: &[Step]) -> Vec<u64> {
    let retired = |resource: &u64| count(steps, Step::retire(*resource)) > 0;
    created(steps).into_iter().filter(|resource| !retired(resource)).collect()
}

/// The events among the steps.
pub fn events(steps: &[Step]) -> Vec<Event> {
    steps.iter().filter_map(Step::as_event).collect()
}

/// Has the policy more openings than closings?
pub fn is_open(steps: &[Step], policy: usize) -> bool {
    count(steps, Step::open(policy as u64)) > count(steps, Step::close(policy as u64))
}

/// The policies of the openings that are not closed, the one opened last at the end. A closing is that of the last opening of its policy.
pub fn unclosed(steps: &[Step]) -> Vec<u64> {
    let mut open = Vec::new();
    for step in steps {
        match step.kind {
            OPEN => open.push(step.a),
            CLOSE => {
                if let Some(last) = open.iter().rposition(|policy| *policy == step.a) {
                    open.remove(last);
                }
            }
            _ => {}
        }
    }
    open
}

/// The events that a policy sees: all, or those since it was last opened while it was not open. Before its first opening a policy that
/// sees only its sandbox is in state 0 at the beginning, as any other.
pub fn seen(policy: &Policy, steps: &[Step]) -> Vec<Event> {
    let forgotten = |place: &usize| {
        steps[*place] == Step::open(policy.number) && !is_open(&steps[..*place], policy.number as usize)
    };
    let from = match policy.sight {
        Sight::Whole => None,
        Sight::Local => (0..steps.len()).rev().find(forgotten),
    };
    events(&steps[from.unwrap_or(0)..])
}

/// Do these steps leave the policy open and not respected?
pub fn breaks(policy: &Policy, steps: &[Step]) -> bool {
    is_open(steps, policy.number as usize) && !policy.respected(&seen(policy, steps))
}

/// The lowest policy that these steps leave open and not respected.
pub fn lowest_broken(policies: &[Policy], steps: &[Step]) -> Option<usize> {
    (0..POLICIES).find(|number| breaks(&policies[*number], steps))
}

fn count(steps: &[Step], step: Step) -> usize {
    steps.iter().filter(|s| **s == step).count()
}

#[derive(Clone)]
pub struct Judge {
    policies: Vec<Policy>,
    past: Vec<Step>,
    halted: bool,
}

impl Judge {
    pub fn new(policies: &Policies) -> Judge {
        Judge { policies: Policy::all(policies), past: Vec::new(), halted: false }
    }

    pub fn past(&self) -> &[Step] {
        &self.past
    }

    pub fn halted(&self) -> bool {
        self.halted
    }

    pub fn judge(&mut self, step: Step) -> Answer {
        self.judge_by(step, |_| true)
    }

    /// The step is judged only by the policies that are looked at.
    pub fn judge_by(&mut self, step: Step, looked: impl Fn(usize) -> bool) -> Answer {
        if let Some(number) = refusal(self, step) {
            return Answer::Refused(number);
        }
        self.past.push(step);
        let broken = |number: &usize| looked(*number) && breaks(&self.policies[*number], &self.past);
        match (0..POLICIES).find(broken) {
            None => Answer::Allowed,
            Some(policy) => {
                self.past.pop();
                self.halted = true;
                Answer::Violated(policy)
            }
        }
    }
}

/// What the refusals of a step depend on: of a past, or of a state that is handed over.
pub trait Standing {
    fn is_halted(&self) -> bool;
    /// The resources that are created and not retired.
    fn live(&self) -> Vec<u64>;
    /// Is the number above every one that was created, live or retired?
    fn is_above(&self, resource: u64) -> bool;
    /// The policies of the openings that are not closed, the one opened last at the end.
    fn unclosed(&self) -> Vec<u64>;
}

impl Standing for Judge {
    fn is_halted(&self) -> bool {
        self.halted
    }

    fn live(&self) -> Vec<u64> {
        live(&self.past)
    }

    fn is_above(&self, resource: u64) -> bool {
        created(&self.past).into_iter().all(|earlier| earlier < resource)
    }

    fn unclosed(&self) -> Vec<u64> {
        unclosed(&self.past)
    }
}

/// "The running routine, in order", and "The limits, last of all": 20, 21, 22, 27, 28, 24, 25, 26, 30, 32.
pub fn refusal(standing: &impl Standing, step: Step) -> Option<u32> {
    if standing.is_halted() {
        return Some(20);
    }
    if !step.fits() {
        return Some(21);
    }
    match step.kind {
        EVENT => event_refusal(standing, step.a, step.b),
        OPEN => (standing.unclosed().len() >= MOST_UNCLOSED).then_some(32),
        CLOSE => closing_refusal(&standing.unclosed(), step.a),
        // "retiring a static resource or one not live"
        _ => (is_static(step.a) || !standing.live().contains(&step.a)).then_some(28),
    }
}

/// "only the policy opened last, among those not yet closed, can be closed".
fn closing_refusal(unclosed: &[u64], policy: u64) -> Option<u32> {
    if !unclosed.contains(&policy) {
        return Some(25);
    }
    (unclosed.last() != Some(&policy)).then_some(26)
}

fn event_refusal(standing: &impl Standing, action: u64, resource: u64) -> Option<u32> {
    match (action == CREATE, is_static(resource)) {
        (true, true) => Some(22),
        // "create with a number not above all earlier ones"
        (true, false) if !standing.is_above(resource) => Some(27),
        // "The limit of 64 counts live resources."
        (true, false) => (standing.live().len() >= MOST_CREATED).then_some(30),
        (false, true) => None,
        (false, false) => (!standing.live().contains(&resource)).then_some(24),
    }
}
