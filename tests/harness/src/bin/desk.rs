//! desk SEED COUNT: so many calls of the routine desk in random sequences, from the zero state on: loads of good and damaged sheets, steps on the
//! outline and off it, retirings, refusals, halts, both limits. Each answer is compared with that of the desk over the past, and what the bytes then
//! encode with what the reference says; now and then a call is made on damaged bytes, and on a state that is shorter or longer.
//! desk SEED COUNT steps: one desk that takes so many steps of an outline without end, compared with the proved judge.

use reference::desk::Desk;
use reference::desk_bytes::{called, decode, Call, Encoded, STATE_BYTES};
use reference::desk_bytes::{DEPTH, EDGES, HALTED, LIVE, LOADED, MARKS, NODES, ORDER, POSITION_COUNT, POSSIBLE, ROWS, SETS};
use reference::generate::desks::Stock;
use reference::judge::Step;
use reference::rng::Rng;
use std::process::ExitCode;
use wiforekun::{desk_outline_code, desk_policies_code, desk_step_code, DESK_STATE};

/// What stands behind the state.
const UNTOUCHED: u8 = 0xa5;
const BEHIND: usize = 5;

/// The calls after which a sequence begins with zero bytes again, at the latest.
const MOST_CALLS: u64 = 400;

fn main() -> ExitCode {
    let mut words: Vec<String> = std::env::args().skip(1).collect();
    let steps = words.last().is_some_and(|word| word == "steps");
    if steps {
        words.pop();
    }
    let numbers: Option<Vec<u64>> = words.iter().map(|word| word.parse().ok()).collect();
    let Some([seed, count]) = numbers.as_deref() else {
        eprintln!("usage: desk SEED COUNT [steps]");
        return ExitCode::from(2);
    };
    let told = if steps { long_run(*seed, *count) } else { compare(*seed, *count) };
    match told {
        Ok(text) => {
            println!("{text}");
            ExitCode::SUCCESS
        }
        Err(text) => {
            println!("{text}");
            ExitCode::FAILURE
        }
    }
}

/// The proved code.
fn made(state: &mut [u8], call: &Call) -> u32 {
    match call {
        Call::Policies(text) => desk_policies_code(state, text),
        Call::Outline(text) => desk_outline_code(state, text),
        Call::Step(step) => desk_step_code(state, step.row().map(|value| value as u32)),
    }
}

/// A call by the desk over the past.
fn due(desk: &mut Desk, call: &Call) -> u32 {
    let reply = match call {
        Call::Policies(text) => desk.load_policies(text),
        Call::Outline(text) => desk.load_outline(text),
        Call::Step(step) => desk.step(*step),
    };
    reply.code()
}

#[derive(Default)]
struct Tally {
    calls: u64,
    loads: u64,
    lean: u64,
    full: u64,
    halted: u64,
    refused: std::collections::BTreeMap<u32, u64>,
    /// Loads and steps after which a limit is exceeded, and calls after which exactly 64 positions or one of 16 parts are listed.
    exceeded: u64,
    at_limits: [u64; 2],
    damaged: u64,
    still_desks: u64,
}

fn compare(seed: u64, count: u64) -> Result<String, String> {
    let mut tally = Tally::default();
    let mut rng = Rng::new(seed);
    while tally.calls < count {
        sequence(&mut rng, &mut tally, count)?;
    }
    Ok(format!("seed {seed}: {}", tally.told()))
}

/// A sequence of calls on one state.
fn sequence(rng: &mut Rng, tally: &mut Tally, count: u64) -> Result<(), String> {
    let mut state = vec![0; STATE_BYTES + BEHIND];
    state[STATE_BYTES..].fill(UNTOUCHED);
    let mut desk = Desk::default();
    let mut stock = Stock::new(rng);
    let last = (tally.calls + 20 + rng.below(MOST_CALLS - 20)).min(count);
    let mut before: Encoded = None;
    let mut calls = Vec::new();
    while tally.calls < last {
        let call = stock.next_call(rng, &desk);
        calls.push(call.clone());
        if rng.percent(8) {
            tally.damaged_call(rng, &state, &call).map_err(|why| format!("{why}\n-- the calls before: {}", shown(&calls)))?;
        }
        let old = state.clone();
        let code = due(&mut desk, &call);
        let found = made(&mut state, &call);
        if found != code {
            return Err(format!("expected {}, found {}\n-- the calls: {}", parts(code), parts(found), shown(&calls)));
        }
        if code / 256 % 256 == 2 && state != old {
            return Err(format!("a refused call changed the state\n-- the calls: {}", shown(&calls)));
        }
        if state[STATE_BYTES..].iter().any(|byte| *byte != UNTOUCHED) {
            return Err(format!("bytes behind the state were written\n-- the calls: {}", shown(&calls)));
        }
        let after = called(&old[..STATE_BYTES], &call).1;
        let held = decode(&state[..STATE_BYTES]);
        if held != after {
            return Err(format!("what the bytes encode differs\n-- expected {after:?}\n-- found {held:?}\n-- the calls: {}", shown(&calls)));
        }
        let held = held.expect("compared");
        same_positions(&desk, &held).map_err(|why| format!("{why}\n-- the calls: {}", shown(&calls)))?;
        tally.count(code, &call, &before, &held);
        before = held;
    }
    Ok(())
}

/// The positions that the bytes encode are those of the desk over the past.
fn same_positions(desk: &Desk, held: &Encoded) -> Result<(), String> {
    let due = desk.loaded.as_ref().and_then(|loaded| loaded.outline.as_ref()).map(|outline| &outline.positions);
    let found = held.as_ref().and_then(|held| held.outline.as_ref()).map(|outline| &outline.positions);
    if due == found {
        return Ok(());
    }
    Err(format!("the positions differ\n-- expected {due:?}\n-- found {found:?}"))
}

fn parts(code: u32) -> String {
    let [answer, detail, lean, line] = [code / 256 % 256, code % 256, code / 65_536 % 2, code / 131_072];
    format!("answer {answer}, detail {detail}, lean {lean}, line {line}")
}

fn shown(calls: &[Call]) -> String {
    let one = |call: &Call| match call {
        Call::Policies(text) => format!("\npolicies:\n{}", String::from_utf8_lossy(text)),
        Call::Outline(text) => format!("\noutline:\n{}", String::from_utf8_lossy(text)),
        Call::Step(step) => format!("\nstep {} {} {}", step.kind, step.a, step.b),
    };
    calls.iter().map(one).collect()
}

/// Where a damage is most telling.
fn telling_place(rng: &mut Rng) -> usize {
    match rng.below(10) {
        0..=3 => rng.below(EDGES as u64) as usize,
        4 => EDGES + rng.below(12) as usize,
        5 => NODES + rng.below(24) as usize,
        6 => rng.pick(&[LIVE, LIVE + 4, POSSIBLE, ORDER, ORDER + 1, SETS, MARKS, LOADED, HALTED, DEPTH, POSITION_COUNT]),
        7..=8 => ROWS + rng.below(81 * 4 * 3) as usize,
        _ => rng.below(STATE_BYTES as u64) as usize,
    }
}

impl Tally {
    /// The call on a copy of the state that is damaged in up to three places, or is shorter.
    fn damaged_call(&mut self, rng: &mut Rng, state: &[u8], call: &Call) -> Result<(), String> {
        let mut copy = state.to_vec();
        if rng.percent(3) {
            copy.truncate(rng.pick(&[0, 1, STATE_BYTES - 1]));
        } else {
            for _ in 0..rng.between(1, 3) {
                let place = telling_place(rng);
                copy[place] = rng.pick(&[0, 1, 2, 3, 6, 7, 8, 15, 16, 17, 31, 32, 63, 64, 65, 66, 71, 72, 128, 255]);
            }
        }
        let old = copy.clone();
        let (reply, after) = called(&old[..old.len().min(STATE_BYTES)], call);
        let found = made(&mut copy, call);
        if found != reply.code() {
            let places: Vec<(usize, u8)> = (0..old.len()).filter(|i| old[*i] != state[*i]).map(|i| (i, old[i])).collect();
            return Err(format!("on damaged bytes, {places:?}: expected {}, found {}", parts(reply.code()), parts(found)));
        }
        self.damaged += 1;
        if reply.is_refusal() {
            if copy != old {
                return Err("a refused call changed damaged bytes".into());
            }
        } else {
            self.still_desks += 1;
            let held = decode(&copy[..STATE_BYTES]);
            if held != after {
                return Err(format!("what damaged bytes encode differs\n-- expected {after:?}\n-- found {held:?}"));
            }
        }
        Ok(())
    }

    fn count(&mut self, code: u32, call: &Call, before: &Encoded, after: &Encoded) {
        self.calls += 1;
        let [answer, detail, lean] = [code / 256 % 256, code % 256, code / 65_536 % 2];
        match (call, answer) {
            (_, 2) => *self.refused.entry(detail).or_default() += 1,
            (Call::Step(_), _) => {
                self.lean += u64::from(lean);
                self.full += u64::from(1 - lean);
                self.halted += u64::from(answer);
            }
            _ => self.loads += 1,
        }
        let listed = |encoded: &Encoded| encoded.as_ref().and_then(|held| held.outline.as_ref()).map(|outline| outline.positions.clone());
        if let Some(positions) = listed(after).filter(|_| listed(before) != listed(after)) {
            match positions {
                None => self.exceeded += 1,
                Some(positions) => {
                    self.at_limits[0] += u64::from(positions.len() == 64);
                    self.at_limits[1] += u64::from(positions.iter().any(|parts| parts.len() == 16));
                }
            }
        }
    }

    fn told(&self) -> String {
        let Tally { calls, loads, lean, full, halted, refused, exceeded, at_limits: [many, long], damaged, still_desks } = self;
        let refused: Vec<String> = refused.iter().map(|(number, times)| format!("{number}: {times}")).collect();
        format!(
            "{calls} calls of the desk: no difference; {loads} loads, {lean} steps by the lean judge and {full} by the full one, {halted} of them violated; refused with {}; a limit was exceeded {exceeded} times, and 64 positions were listed {many} times, 16 parts {long} times; {damaged} more calls on damaged bytes, {still_desks} of them answered",
            refused.join(", ")
        )
    }
}

/// The policies and the outline of a routine that never ends, a loop of sandboxes: a channel is created, opened, read any number of times and
/// closed.
const POLICIES: &[u8] = b"policy from action on who to\n0 0 1 1 0 1\n0 1 3 1 0 0\n0 0 2 1 0 6\n1 0 1 1 0 1\n1 1 4 0 1 6\n1 1 3 1 0 0\n";
const OUTLINE: &[u8] = b"node kind a b\n0 5 1 0\n1 4 2 3\n2 0 0 0\n3 3 4 5\n4 8 0 6\n5 6 0 0\n6 7 0 7\n7 3 8 9\n8 2 1 0\n9 3 10 11\n10 5 12 0\n11 2 3 0\n12 4 13 14\n13 0 0 0\n14 3 15 16\n15 2 2 0\n16 6 10 0\n";

/// The steps of the routine, one after the other. Each channel is retired when it is done with.
struct Routine {
    steps: Vec<Step>,
    next: u64,
}

impl Routine {
    fn next(&mut self, rng: &mut Rng) -> Step {
        if let Some(step) = self.steps.pop() {
            return step;
        }
        let channel = self.next;
        self.next += 1;
        let mut steps = vec![Step::open(0), Step::event(0, channel), Step::event(1, channel)];
        steps.extend((0..rng.below(6)).map(|_| Step::event(2, channel)));
        steps.extend([Step::event(3, channel), Step::retire(channel), Step::close(0)]);
        steps.reverse();
        self.steps = steps;
        self.steps.pop().expect("a round has steps")
    }
}

/// One desk with `count` steps, of which now and then one is refused, and loads in between where no sandbox is open; the proved judge beside it.
fn long_run(seed: u64, count: u64) -> Result<String, String> {
    let mut rng = Rng::new(seed);
    let mut desk = wiforekun::Desk::new();
    let refused = |refusal: wiforekun::SheetRefusal| format!("a load is refused: {refusal}");
    desk.load_policies(POLICIES).map_err(refused)?;
    let _ = desk.load_outline(OUTLINE).map_err(refused)?;
    let policies = reference::sheet::read_policies(POLICIES).map_err(|why| format!("{why:?}"))?;
    let edges = harness::flat(&policies.edges).expect("edges are bytes");
    let mut state = wiforekun::State::start();
    let mut routine = Routine { steps: vec![], next: 16 };
    let (mut lean, mut refusals, mut loads) = (0u64, 0u64, 0u64);
    for at in 0..count {
        let stray = rng.percent(2);
        let step = if stray { Step::event(0, 3) } else { routine.next(&mut rng) };
        let step = step.row().map(|value| value as u32);
        let reply = desk.step(step);
        let due = state.judge(&edges[..], wiforekun::Past::Whole, step);
        if reply.answer != due {
            return Err(format!("step {at}, {step:?}: expected {due:?}, found {:?}", reply.answer));
        }
        if matches!(due, wiforekun::Answer::Violated(_)) {
            return Err(format!("step {at}, {step:?} is violated"));
        }
        match reply.judge {
            Some(wiforekun::Judge::Lean) => lean += 1,
            Some(wiforekun::Judge::Full) => return Err(format!("step {at}, {step:?}: the routine has not strayed")),
            None => refusals += 1,
        }
        if routine.steps.is_empty() && rng.percent(1) && rng.percent(5) {
            let _ = desk.load_outline(OUTLINE).map_err(refused)?;
            state = wiforekun::State::start();
            loads += 1;
        }
    }
    let size = DESK_STATE;
    Ok(format!("seed {seed}: one desk of {size} bytes with {count} steps, {lean} by the lean judge and {refusals} refused, {loads} loads in between, resources up to {}: the answers are the judge's", routine.next - 1))
}
