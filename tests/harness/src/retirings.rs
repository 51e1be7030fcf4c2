//! Retirings that are added to a trace, of what no later step is on. Of an accepted outline's traces, created in rising order, every step is
//! then allowed up to the first create or opening beyond the limits. Of any trace, the other steps get the answers that they got without,
//! before the first 30.

use reference::generate::Case;
use reference::judge::{live, unclosed, Answer, Judge, Step, CREATE, EVENT, LARGEST_RESOURCE, MOST_CREATED, MOST_UNCLOSED, OPEN, RETIRE};
use reference::outline::Node;
use reference::policy::{Policies, STATICS};
use reference::program::tables;
use reference::pushdown;
use reference::rng::Rng;
use reference::run::{Run, Way};
use reference::sheet::{read_policies, read_trace};

/// A run is followed for so many moves at most, and its trace has so many steps at most.
const MOVES: usize = 1_500;
const STEPS: usize = 320;

/// How many traces of accepted outlines were followed, with how many retirings, and how many of them to a step beyond the limits; how many
/// other traces had retirings added, and how many.
#[derive(Default)]
pub struct Tally {
    accepted: usize,
    retired: usize,
    beyond: usize,
    traces: usize,
    added: usize,
}

impl Tally {
    /// A trace of the outline of a case, if it is accepted.
    pub fn follow(&mut self, rng: &mut Rng, case: &Case) -> Result<(), String> {
        let Ok((policies, nodes)) = tables(&case.policies, &case.other) else {
            return Ok(());
        };
        if pushdown::check(&policies, &nodes).is_some() {
            return Ok(());
        }
        let trace = random_trace(rng, &nodes);
        let trace = spread(rng, &trace);
        let steps = with_retirings(rng, &trace, true);
        let within = (0..steps.len()).find(|end| is_beyond(&steps[..*end], steps[*end])).unwrap_or(steps.len());
        let answers = harness::judged(&policies, &steps).unwrap();
        let due = match steps.get(within) {
            Some(step) => vec![Answer::Refused(if step.kind == OPEN { 32 } else { 30 })],
            None => vec![],
        };
        let due = [vec![Answer::Allowed; within], due].concat();
        if answers[..due.len()] != due || answers != expected(&policies, &steps) {
            return Err(told("an accepted outline's trace with retirings added is not followed", &policies, &steps, &answers));
        }
        self.accepted += 1;
        self.retired += steps.iter().filter(|step| step.kind == RETIRE).count();
        self.beyond += usize::from(within < steps.len());
        Ok(())
    }

    /// The trace of a case without its retirings, and with others.
    pub fn compare(&mut self, rng: &mut Rng, case: &Case) -> Result<(), String> {
        let (Ok(policies), Ok(mut steps)) = (read_policies(&case.policies), read_trace(&case.other)) else {
            return Ok(());
        };
        steps.retain(|step| step.kind != RETIRE);
        let more = with_retirings(rng, &steps, false);
        let [without, with] = [&steps, &more].map(|steps| harness::judged(&policies, steps).unwrap());
        let end = without.iter().position(|answer| *answer == Answer::Refused(30)).unwrap_or(without.len());
        let others = more.iter().zip(&with).filter(|(step, _)| step.kind != RETIRE).map(|(_, answer)| *answer);
        if !others.take(end).eq(without[..end].iter().copied()) || with != expected(&policies, &more) {
            return Err(told("retirings change other answers, or are answered otherwise than by the reference", &policies, &more, &with));
        }
        self.traces += 1;
        self.added += more.len() - steps.len();
        Ok(())
    }

    pub fn told(&self) -> String {
        let Tally { accepted, retired, beyond, traces, added } = self;
        format!(
            "{accepted} traces of accepted outlines followed with {retired} retirings added, {beyond} of them to a step beyond the limits; {traces} traces with {added} retirings added get the other answers that they got without"
        )
    }
}

/// Some run, left before its end or followed to it.
fn random_trace(rng: &mut Rng, nodes: &[Node]) -> Vec<Step> {
    let mut run = Run::start();
    // some runs leave their loops late
    let left = rng.pick(&[50, 50, 20, 80, 5, 95]);
    for _ in 0..rng.between(1, MOVES as u64) {
        if run.is_over() || run.steps.len() >= STEPS {
            break;
        }
        run.advance(nodes, if rng.percent(left) { Way::Left } else { Way::Right });
    }
    run.steps
}

/// The same steps, with gaps between the numbers that are created, which rise.
fn spread(rng: &mut Rng, steps: &[Step]) -> Vec<Step> {
    let gap = rng.pick(&[1, 1, 3, 100]);
    let mut numbers: Vec<u64> = Vec::new();
    let mut spread = Vec::new();
    for step in steps {
        let mut step = *step;
        if step.kind == EVENT && step.b >= STATICS {
            // fresh resources are numbered from 16 on as they are created
            let place = (step.b - STATICS) as usize;
            if place == numbers.len() {
                numbers.push(numbers.last().map_or(STATICS - 1, |last| *last) + rng.between(1, gap));
            }
            step.b = numbers[place];
        }
        spread.push(step);
    }
    assert!(numbers.last().is_none_or(|last| *last <= LARGEST_RESOURCE));
    spread
}

/// Retirings added, each after the last event on what it retires: of created resources, once each; or also of others and again.
fn with_retirings(rng: &mut Rng, steps: &[Step], once: bool) -> Vec<Step> {
    let often = rng.pick(&[5, 20, 60, 100]);
    let mut added: Vec<Vec<Step>> = vec![vec![]; steps.len() + 1];
    let mut numbers: Vec<u64> = steps.iter().filter(|step| step.kind == EVENT && (!once || step.a == CREATE)).map(|step| step.b).collect();
    numbers.sort_unstable();
    numbers.dedup();
    if !once {
        numbers.extend([3, 16, LARGEST_RESOURCE]);
    }
    for number in numbers {
        let times = if once || rng.percent(90) { 1 } else { 2 };
        for _ in 0..times {
            let least = steps.iter().rposition(|step| step.kind == EVENT && step.b == number).map_or(0, |last| last + 1);
            let place = if rng.percent(60) { least } else { rng.between(least as u64, steps.len() as u64) as usize };
            if rng.percent(often) {
                added[place].push(Step::retire(number));
            }
        }
    }
    let last = added.pop().unwrap_or_default();
    added.into_iter().zip(steps).flat_map(|(before, step)| before.into_iter().chain([*step])).chain(last).collect()
}

/// Is the step a create or an opening beyond the limits, after these?
fn is_beyond(steps: &[Step], step: Step) -> bool {
    match step.kind {
        EVENT => step.a == CREATE && live(steps).len() >= MOST_CREATED,
        OPEN => unclosed(steps).len() >= MOST_UNCLOSED,
        _ => false,
    }
}

/// By the reference, over the whole past.
fn expected(policies: &Policies, steps: &[Step]) -> Vec<Answer> {
    let mut judge = Judge::new(policies);
    steps.iter().map(|step| judge.judge(*step)).collect()
}

fn told(what: &str, policies: &Policies, steps: &[Step], answers: &[Answer]) -> String {
    let case = reference::generate::traces::write(policies, steps);
    let [policies, trace] = [case.policies, case.other].map(|text| String::from_utf8_lossy(&text).into_owned());
    format!("{what}\n-- policies\n{policies}-- trace\n{trace}-- answers\n{answers:?}")
}
