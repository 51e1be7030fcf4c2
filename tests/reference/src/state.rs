//! The judge on a state that is handed to it, reached or not.

use crate::judge::{
    refusal, Answer, Standing, Step, CLOSE, CREATE, EVENT, LARGEST_RESOURCE, MOST_CREATED,
    MOST_UNCLOSED, OPEN,
};
use crate::pair_sets::{self, blocks_of, Blocks};
use crate::policy::{
    edges_fit, offends, Edge, Event, Instance, Own, Policies, Policy, Sight, States, POLICIES, START,
    STATES, STATICS,
};

pub const NEVER: usize = STATICS as usize;
/// "one set per policy that moves on as an instance other than any resource used".
pub const RETIRED: usize = NEVER + 1;
pub const FIRST_LIVE: usize = RETIRED + 1;
pub const INSTANCES: usize = FIRST_LIVE + MOST_CREATED;

#[derive(Clone, Debug, PartialEq, Eq)]
pub struct State {
    /// 1 where the state is halted, 0 where it is not; no state is told by another number.
    pub halted: u64,
    /// How many resources are live, and their numbers, in the order of their creation.
    pub count: u64,
    pub created: [u64; MOST_CREATED],
    /// The highest number that was created, live or retired; 0 before the first. A state keeps 32 bits of it.
    pub highest: u64,
    /// For each policy how many of its openings are not closed.
    pub openings: [u64; POLICIES],
    /// How many openings are not closed, in all, and their policies, the one opened first in the first place.
    pub depth: u64,
    pub order: [u64; MOST_UNCLOSED],
    /// Bit s of a mask: the instance may be in state s.
    pub sets: [[u8; POLICIES]; INSTANCES],
    /// The same for two places, of the two policies that may be pair policies.
    pub pairs: Blocks,
    /// For each policy the states that any instance may be in, as the last event gathered them.
    pub kept: [u8; POLICIES],
}

impl State {
    pub fn start() -> State {
        State {
            halted: 0,
            count: 0,
            created: [0; MOST_CREATED],
            highest: 0,
            openings: [0; POLICIES],
            depth: 0,
            order: [0; MOST_UNCLOSED],
            sets: [[1; POLICIES]; INSTANCES],
            pairs: pair_sets::FRESH,
            kept: [1; POLICIES],
        }
    }

    /// As the start, but that these policies were opened, one after the other.
    pub fn opened(policies: &[u64]) -> State {
        let mut state = State { depth: policies.len() as u64, ..State::start() };
        for (place, policy) in policies.iter().enumerate() {
            state.order[place] = *policy;
            state.openings[*policy as usize] += 1;
        }
        state
    }

    /// As the start, but that these numbers are live and the last of them is the highest.
    pub fn with_live(numbers: &[u64]) -> State {
        let mut state = State { count: numbers.len() as u64, ..State::start() };
        state.created[..numbers.len()].copy_from_slice(numbers);
        state.highest = numbers.iter().copied().max().unwrap_or(0);
        state
    }

    fn numbers(&self) -> &[u64] {
        &self.created[..self.count as usize]
    }

    /// Does the state pass 42?
    pub fn fits(&self) -> bool {
        self.halted <= 1
            && self.count <= MOST_CREATED as u64
            && self.depth <= MOST_UNCLOSED as u64
            && self.order_agrees()
            && self.numbers().iter().all(|r| (STATICS..=LARGEST_RESOURCE).contains(r))
            && (1..self.numbers().len()).all(|i| !self.created[..i].contains(&self.created[i]))
            && self.highest <= u64::from(u32::MAX)
            && self.numbers().iter().all(|r| *r <= self.highest)
    }

    fn order(&self) -> &[u64] {
        &self.order[..self.depth as usize]
    }

    /// Does each policy stand in the order as often as its openings are counted, and nothing else?
    fn order_agrees(&self) -> bool {
        let times = |policy: usize| self.order().iter().filter(|p| **p == policy as u64).count();
        self.order().iter().all(|p| *p < POLICIES as u64)
            && (0..POLICIES).all(|policy| times(policy) as u64 == self.openings[policy])
    }

    /// The resource that a place of the sets stands for; one that is not in use stands for none that occurs.
    fn own(&self, place: usize) -> Own {
        match place {
            static_place if static_place < NEVER => Some(static_place as u64),
            live if (FIRST_LIVE..self.places()).contains(&live) => Some(self.created[live - FIRST_LIVE]),
            _ => None,
        }
    }

    fn owns(&self) -> [Own; INSTANCES] {
        std::array::from_fn(|place| self.own(place))
    }

    /// How many places count: the statics, one that never occurs, the retired ones, the live ones.
    pub fn places(&self) -> usize {
        FIRST_LIVE + self.count as usize
    }

    fn add_created(&mut self, policies: &[Policy], resource: u64) {
        let places = self.places();
        self.sets[places] = self.sets[NEVER];
        blocks_of(policies).for_each(|(at, _)| pair_sets::create(&mut self.pairs[at], places));
        self.created[self.count as usize] = resource;
        self.count += 1;
        self.highest = resource;
    }

    /// "its possible states join one set per policy"; the places behind it move up by one, and the last one keeps what it holds.
    fn retire(&mut self, policies: &[Policy], resource: u64) {
        let at = self.numbers().iter().position(|r| *r == resource).expect("a live one is retired");
        let (row, places, count) = (self.sets[FIRST_LIVE + at], self.places(), self.count as usize);
        for (mask, joining) in self.sets[RETIRED].iter_mut().zip(row) {
            *mask |= joining;
        }
        self.sets.copy_within(FIRST_LIVE + at + 1..places, FIRST_LIVE + at);
        blocks_of(policies).for_each(|(block, _)| pair_sets::retire(&mut self.pairs[block], places, FIRST_LIVE + at));
        self.created.copy_within(at + 1..count, at);
        self.count -= 1;
    }

    /// The sets of one resource move for a pair policy too, by its edges but those on y; nothing looks at them.
    fn move_all(&mut self, policies: &[Policy], event: Event) {
        let (owns, places) = (self.owns(), self.places());
        for (row, own) in self.sets[..places].iter_mut().zip(owns) {
            for (policy, mask) in policies.iter().zip(row) {
                *mask = to_mask(policy.moved(Instance::single(own), from_mask(*mask), event));
            }
        }
        for (block, policy) in blocks_of(policies) {
            let moved = |mask: u8, x: Own, y: Own| to_mask(policy.moved(Instance::pair(x, y), from_mask(mask), event));
            pair_sets::change(&mut self.pairs[block], &owns, places, moved);
        }
    }

    /// "Every event gathers it from the moved instances".
    fn gather(&mut self, policies: &[Policy]) {
        for policy in 0..POLICIES {
            let may = |state: usize| (0..self.places()).any(|i| from_mask(self.sets[i][policy])[state]);
            self.kept[policy] = to_mask(std::array::from_fn(may));
        }
        for (block, policy) in blocks_of(policies) {
            self.kept[policy.number as usize] = pair_sets::union(&self.pairs[block], self.places());
        }
    }

    /// "the judge looks only at it": the lowest of the policies that are looked at.
    fn lowest_broken(&self, looked: impl Fn(usize) -> bool) -> Option<usize> {
        (0..POLICIES).find(|p| looked(*p) && self.openings[*p] > 0 && offends(from_mask(self.kept[*p])))
    }

    /// "all its instances go back to state 0", those of the places that count; "The kept sets of L4 are reset too".
    fn forget(&mut self, policies: &[Policy], policy: usize) {
        let (owns, places) = (self.owns(), self.places());
        self.sets[..places].iter_mut().for_each(|row| row[policy] = to_mask(START));
        for (block, _) in blocks_of(policies).filter(|(_, pair)| pair.number == policy as u64) {
            pair_sets::change(&mut self.pairs[block], &owns, places, |_, _, _| to_mask(START));
        }
        self.kept[policy] = to_mask(START);
    }

    fn after(&self, policies: &[Policy], step: Step) -> State {
        let mut next = self.clone();
        match step.kind {
            OPEN => {
                let policy = step.a as usize;
                if policies[policy].sight == Sight::Local && self.openings[policy] == 0 {
                    next.forget(policies, policy);
                }
                next.order[self.depth as usize] = step.a;
                next.depth += 1;
                next.openings[policy] += 1;
            }
            CLOSE => {
                next.depth -= 1;
                next.openings[step.a as usize] -= 1;
            }
            EVENT => {
                if step.a == CREATE {
                    next.add_created(policies, step.b);
                }
                next.move_all(policies, Event { action: step.a, resource: step.b });
                next.gather(policies);
            }
            // "is no event and, like an opening, is judged by the stored sets"
            _ => next.retire(policies, step.a),
        }
        next
    }
}

impl Standing for State {
    fn is_halted(&self) -> bool {
        self.halted == 1
    }

    fn live(&self) -> Vec<u64> {
        self.numbers().to_vec()
    }

    fn is_above(&self, resource: u64) -> bool {
        self.highest < resource
    }

    fn unclosed(&self) -> Vec<u64> {
        self.order().to_vec()
    }
}

/// One call of the judge. The choice of past is told by a number beside the edges.
pub fn judge_state(edges: &[Edge], local: u64, state: &State, step: Step) -> (Answer, State) {
    judge_state_by(edges, local, state, step, |_| true)
}

/// The same, but that the step is judged only by the policies that are looked at.
pub fn judge_state_by(
    edges: &[Edge],
    local: u64,
    state: &State,
    step: Step,
    looked: impl Fn(usize) -> bool,
) -> (Answer, State) {
    match Sight::told(local) {
        Some(sight) if edges_fit(edges) => judge_policies(&Policies { sight, edges: edges.to_vec() }, state, step, looked),
        _ => (Answer::Refused(41), state.clone()),
    }
}

/// The same under policies of which nothing is asked, so that a sheet need not have them.
pub fn judge_policies(policies: &Policies, state: &State, step: Step, looked: impl Fn(usize) -> bool) -> (Answer, State) {
    if !state.fits() {
        return (Answer::Refused(42), state.clone());
    }
    if let Some(number) = refusal(state, step) {
        return (Answer::Refused(number), state.clone());
    }
    let next = state.after(&Policy::all(policies), step);
    match next.lowest_broken(looked) {
        None => (Answer::Allowed, next),
        Some(policy) => (Answer::Violated(policy), State { halted: 1, ..state.clone() }),
    }
}

fn from_mask(mask: u8) -> States {
    let mut states = [false; STATES];
    for (bit, held) in states.iter_mut().enumerate() {
        *held = mask >> bit & 1 == 1;
    }
    states
}

fn to_mask(states: States) -> u8 {
    (0..STATES).filter(|bit| states[*bit]).map(|bit| 1u8 << bit).sum()
}

/// One call as text: numbers only, parted by white space.
#[derive(Clone, Debug, PartialEq, Eq)]
pub struct Call {
    pub edges: Vec<Edge>,
    pub local: u64,
    pub step: Step,
    pub state: State,
}

impl Call {
    pub fn run(&self) -> (Answer, State) {
        judge_state(&self.edges, self.local, &self.state, self.step)
    }

    pub fn write(&self) -> String {
        let mut text = line(&[self.edges.len() as u64, self.local]);
        for edge in &self.edges {
            text += &line(&edge.row());
        }
        text += &line(&self.step.row());
        text + &write_state(&self.state)
    }

    pub fn read(text: &str) -> Option<Call> {
        let mut numbers = text.split_ascii_whitespace().map(|word| word.parse::<u64>().ok());
        let mut next = || numbers.next().flatten();
        let mut edges = Vec::new();
        let (count, local) = (next()?, next()?);
        for _ in 0..count {
            edges.push(Edge::new([next()?, next()?, next()?, next()?, next()?, next()?]));
        }
        let step = Step { kind: next()?, a: next()?, b: next()? };
        let state = read_state(&mut next)?;
        Some(Call { edges, local, step, state })
    }
}

fn read_state(next: &mut impl FnMut() -> Option<u64>) -> Option<State> {
    let mut state = State::start();
    state.halted = next()?;
    state.count = next()?;
    state.depth = next()?;
    state.highest = next()?;
    let State { openings, order, created, .. } = &mut state;
    for number in openings.iter_mut().chain(order).chain(created) {
        *number = next()?;
    }
    for mask in state.kept.iter_mut().chain(state.sets.iter_mut().flatten()) {
        *mask = u8::try_from(next()?).ok()?;
    }
    state.pairs = pair_sets::from_runs(next)?;
    Some(state)
}

/// Halted, count, depth and highest; the openings; their order; the live numbers; the kept masks; a line of masks for each instance; the
/// runs of masks of the pair policies.
pub fn write_state(state: &State) -> String {
    let mut text = line(&[state.halted, state.count, state.depth, state.highest]);
    text += &line(&state.openings);
    text += &line(&state.order);
    text += &line(&state.created);
    text += &line(&state.kept.map(u64::from));
    for row in &state.sets {
        text += &line(&row.map(u64::from));
    }
    text + &line(&pair_sets::runs(&state.pairs))
}

fn line(numbers: &[u64]) -> String {
    let words: Vec<String> = numbers.iter().map(u64::to_string).collect();
    words.join(" ") + "\n"
}
