//! Random traces, steered by the judge so that many go far before they are violated.

use super::policies::{random_policies, Palette};
use super::Case;
use crate::damage::{random_damage, respaced, rows, Text};
use crate::judge::{
    created, live, unclosed, Answer, Judge, Step, CREATE, LARGEST_RESOURCE, OPEN,
};
use crate::policy::{Edge, Policies, STATICS};
use crate::rng::Rng;
use crate::sheet::{policy_names, TRACE_NAMES};

/// How often each sort of step is tried, in percent; the rest are steps to be refused.
#[derive(Clone, Copy)]
struct Mix {
    events: u64,
    creates: u64,
    openings: u64,
    closings: u64,
    retirings: u64,
    /// How often a step that would be violated is left out.
    careful: u64,
}

const COMMON: Mix = Mix { events: 55, creates: 12, openings: 11, closings: 8, retirings: 6, careful: 93 };
const CARELESS: Mix = Mix { events: 55, creates: 12, openings: 14, closings: 6, retirings: 6, careful: 0 };
const CREATING: Mix = Mix { events: 18, creates: 66, openings: 5, closings: 5, retirings: 2, careful: 98 };
const OPENING: Mix = Mix { events: 5, creates: 2, openings: 85, closings: 6, retirings: 0, careful: 100 };
const NESTING: Mix = Mix { events: 26, creates: 8, openings: 34, closings: 26, retirings: 4, careful: 97 };
const REOPENING: Mix = Mix { events: 50, creates: 7, openings: 19, closings: 18, retirings: 5, careful: 75 };
const UNOPENED: Mix = Mix { events: 70, creates: 15, openings: 0, closings: 0, retirings: 8, careful: 0 };
const RETIRING: Mix = Mix { events: 40, creates: 24, openings: 8, closings: 4, retirings: 16, careful: 96 };
const RENEWING: Mix = Mix { events: 4, creates: 62, openings: 2, closings: 2, retirings: 26, careful: 99 };

pub fn random_case(rng: &mut Rng) -> Case {
    match rng.below(32) {
        28..=30 => plain(rng, RETIRING, 12, 60),
        31 => plain(rng, RENEWING, 110, 190),
        0..=5 => plain(rng, COMMON, 5, 45),
        6..=8 => plain(rng, CARELESS, 4, 25),
        9 => plain(rng, CREATING, 90, 130),
        10 => plain(rng, OPENING, 80, 110),
        11..=13 => plain(rng, NESTING, 20, 80),
        14..=15 => opened_late(rng),
        16..=19 => dense(rng),
        20..=23 => reopened(rng),
        _ => damaged(rng),
    }
}

/// A trace of nearly `length` steps that is valid as a whole.
pub fn long_case(rng: &mut Rng, length: usize) -> Case {
    let palette = Palette { policies: vec![rng.below(8)], ..Palette::random(rng) };
    let policies = random_policies(rng, &palette, 6);
    let steps = random_steps(rng, &palette, &policies, Mix { careful: 100, ..COMMON }, length);
    write(&policies, &steps)
}

fn plain(rng: &mut Rng, mix: Mix, shortest: u64, longest: u64) -> Case {
    let mut palette = Palette::random(rng);
    if mix.closings > 20 {
        palette.policies = Palette::crowded(rng).policies;
    }
    if mix.openings > 50 && rng.percent(40) {
        palette.policies.truncate(1);
    }
    let policies = random_policies(rng, &palette, 8);
    let length = rng.between(shortest, longest) as usize;
    let steps = random_steps(rng, &palette, &policies, mix, length);
    let case = write(&policies, &steps);
    if rng.percent(20) {
        return Case { policies: respaced(rng, &case.policies), other: respaced(rng, &case.other) };
    }
    case
}

/// One policy, or two, opened and closed again and again.
fn reopened(rng: &mut Rng) -> Case {
    let mut palette = Palette::small(rng);
    if rng.percent(30) {
        palette.policies = vec![1, 6];
    }
    let policies = random_policies(rng, &palette, 6);
    let length = rng.between(8, 30) as usize;
    let steps = random_steps(rng, &palette, &policies, REOPENING, length);
    write(&policies, &steps)
}

/// A few steps that all matter to one policy, or to several open at once.
fn dense(rng: &mut Rng) -> Case {
    let small = rng.percent(60);
    let palette = if small { Palette::small(rng) } else { Palette::crowded(rng) };
    let policies = random_policies(rng, &palette, 6);
    let mut steps = random_steps(rng, &palette, &policies, UNOPENED, 2);
    steps.extend(palette.policies.iter().rev().map(|p| Step::open(*p)));
    let mut judge = Judge::new(&policies);
    for step in &steps {
        judge.judge(*step);
    }
    let length = steps.len() + rng.between(4, 14) as usize;
    extend_steps(rng, &palette, &mut judge, Mix { careful: 60, ..COMMON }, &mut steps, length);
    write(&policies, &steps)
}

/// Events with nothing open, then an opening of each policy, highest first.
fn opened_late(rng: &mut Rng) -> Case {
    let palette = Palette::random(rng);
    let policies = random_policies(rng, &palette, 8);
    let length = rng.between(3, 25) as usize;
    let mut steps = random_steps(rng, &palette, &policies, UNOPENED, length);
    steps.extend(palette.policies.iter().rev().map(|p| Step::open(*p)));
    steps.extend(random_steps(rng, &palette, &policies, COMMON, 5));
    write(&policies, &steps)
}

fn damaged(rng: &mut Rng) -> Case {
    let mut case = plain(rng, COMMON, 2, 8);
    for _ in 0..rng.between(1, 3) {
        let sheet = if rng.percent(30) { &mut case.policies } else { &mut case.other };
        *sheet = random_damage(rng, sheet);
    }
    case
}

pub fn write(policies: &Policies, steps: &[Step]) -> Case {
    let trace = rows(TRACE_NAMES, steps.iter().map(Step::row));
    Case { policies: write_policies(policies), other: trace }
}

pub fn write_policies(policies: &Policies) -> Text {
    rows(policy_names(policies.sight), policies.edges.iter().map(Edge::row))
}

/// Random steps, with the judge at hand.
fn random_steps(
    rng: &mut Rng,
    palette: &Palette,
    policies: &Policies,
    mix: Mix,
    length: usize,
) -> Vec<Step> {
    let mut steps = Vec::new();
    extend_steps(rng, palette, &mut Judge::new(policies), mix, &mut steps, length);
    steps
}

/// Adds random steps until there are `length`. The judge has judged those before.
fn extend_steps(
    rng: &mut Rng,
    palette: &Palette,
    judge: &mut Judge,
    mix: Mix,
    steps: &mut Vec<Step>,
    length: usize,
) {
    for _ in 0..10 * length {
        if steps.len() >= length {
            return;
        }
        let step = random_step(rng, palette, mix, judge.past());
        let mut trial = judge.clone();
        let violated = matches!(trial.judge(step), Answer::Violated(_));
        if !violated || !rng.percent(mix.careful) {
            steps.push(step);
            *judge = trial;
        }
    }
}

fn random_step(rng: &mut Rng, palette: &Palette, mix: Mix, past: &[Step]) -> Step {
    let mut roll = rng.below(100);
    // is it of this sort, of which there are so many percent?
    let mut of = |percent: u64| {
        let found = roll < percent;
        roll = roll.wrapping_sub(percent);
        found
    };
    if of(mix.events) {
        Step::event(rng.pick(&palette.actions), used_resource(rng, palette, past))
    } else if of(mix.creates) {
        Step::event(CREATE, next_number(rng, past))
    } else if of(mix.openings) {
        Step::open(rng.pick(&palette.policies))
    } else if of(mix.closings) {
        Step::close(closed_policy(rng, past).unwrap_or(palette.policies[0]))
    } else if of(mix.retirings) {
        Step::retire(retired_number(rng, past))
    } else {
        refused_step(rng, palette, past)
    }
}

/// A step that one of 22 to 28 may refuse.
fn refused_step(rng: &mut Rng, palette: &Palette, past: &[Step]) -> Step {
    let some = created(past);
    let earlier = if some.is_empty() { 16 } else { rng.pick(&some) };
    match rng.below(10) {
        0 => Step::event(CREATE, rng.below(STATICS)),
        1 => Step::event(CREATE, some.last().copied().unwrap_or(16)),
        2 => Step::event(CREATE, earlier),
        3 => Step::event(rng.pick(&palette.actions), any_dynamic(rng)),
        4 => Step::event(rng.pick(&palette.actions), earlier),
        5 => Step::retire(rng.below(STATICS)),
        6 => Step::retire(earlier),
        7 => Step::retire(any_dynamic(rng)),
        8 => Step::close(rng.pick(&palette.policies)),
        _ => Step::close(rng.below(8)),
    }
}

/// A static, or a live resource; now and then one that was created, perhaps retired.
fn used_resource(rng: &mut Rng, palette: &Palette, past: &[Step]) -> u64 {
    let mut numbers = if rng.percent(4) { created(past) } else { live(past) };
    if numbers.is_empty() || rng.percent(35) {
        numbers = palette.statics.clone();
    }
    if rng.percent(3) { rng.below(STATICS) } else { rng.pick(&numbers) }
}

/// Mostly the next number above all earlier ones, or one not far above; else any. The first is above 65,535 in half of the traces.
fn next_number(rng: &mut Rng, past: &[Step]) -> u64 {
    let least = match created(past).last() {
        Some(highest) => highest + 1,
        None if rng.percent(50) => rng.between(65_536, LARGEST_RESOURCE),
        None => STATICS,
    };
    let number = match rng.below(20) {
        0 => any_dynamic(rng),
        1 => least + rng.below(LARGEST_RESOURCE / 4),
        2..=7 => least + rng.below(40),
        _ => least,
    };
    number.min(LARGEST_RESOURCE)
}

/// A live resource: the newest, the oldest, any; 16 where there is none.
fn retired_number(rng: &mut Rng, past: &[Step]) -> u64 {
    let live = live(past);
    match (live.first(), live.last()) {
        (Some(oldest), Some(newest)) => match rng.below(4) {
            0 => *oldest,
            1 => *newest,
            _ => rng.pick(&live),
        },
        _ => 16,
    }
}

fn any_dynamic(rng: &mut Rng) -> u64 {
    match rng.below(10) {
        0 => rng.pick(&[16, 17, LARGEST_RESOURCE - 1, LARGEST_RESOURCE]),
        1..=3 => rng.between(16, 40),
        _ => rng.between(16, LARGEST_RESOURCE),
    }
}

/// Mostly the policy opened last; else another that is open, or one opened before, perhaps closed already.
fn closed_policy(rng: &mut Rng, past: &[Step]) -> Option<u64> {
    let open = unclosed(past);
    match rng.below(10) {
        0..=5 => return open.last().copied(),
        6..=8 if !open.is_empty() => return Some(rng.pick(&open)),
        _ => {}
    }
    let opened: Vec<u64> = past.iter().filter(|s| s.kind == OPEN).map(|s| s.a).collect();
    (!opened.is_empty()).then(|| rng.pick(&opened))
}
