//! lean SEED COUNT: so many fresh outlines from the seed, half of them under local policies: their exact summaries, and the lean judge with
//! them and with any other summary, on traces of the outline and off it; and as many calls of the lean judge on states that need not have
//! been reached, with any summary.

use reference::generate::lean::{random_trace, strayed, with_retirings};
use reference::generate::{self, outlines, states, Case};
use reference::judge::{Answer, Step};
use reference::outline::Node;
use reference::policy::{Policies, POLICIES};
use reference::program::tables;
use reference::rng::Rng;
use reference::state::judge_state_by;
use reference::summary::{full_answers, lean_answers, looked, summary, up_to_refusal, Marks};
use std::process::ExitCode;

/// What a table holds before the call, plus its place; no summary has such numbers.
const MARK: u64 = 1 << 40;

/// Calls that are made from one seed.
const BATCH: usize = 1_000;

fn main() -> ExitCode {
    let words: Vec<String> = std::env::args().skip(1).collect();
    let numbers: Option<Vec<u64>> = words.iter().map(|word| word.parse().ok()).collect();
    let Some([seed, count]) = numbers.as_deref() else {
        eprintln!("usage: lean SEED COUNT");
        return ExitCode::from(2);
    };
    match compare(*seed, *count as usize) {
        Ok(text) => {
            println!("{text}");
            ExitCode::SUCCESS
        }
        Err(text) => {
            println!("{text}");
            ExitCode::FAILURE
        }
    }
}

fn compare(seed: u64, count: usize) -> Result<String, String> {
    let mut tally = Tally::default();
    let mut rng = Rng::new(seed);
    let fixed = [generate::fixed::outline_cases(), generate::counterexamples::fixed_cases()].concat();
    for case in &fixed {
        tally.compare(&mut rng, case)?;
    }
    while tally.outlines < count {
        for case in outlines::random_cases(&mut rng) {
            tally.compare(&mut rng, &case)?;
        }
    }
    let mut calls = 0;
    while calls < count {
        calls += each_call(&mut rng, seed.wrapping_mul(1_000_003).wrapping_add(calls as u64), BATCH.min(count - calls))?;
    }
    Ok(format!("seed {seed}: {}; {calls} calls of the lean judge: no difference", tally.told()))
}

fn each_call(rng: &mut Rng, seed: u64, most: usize) -> Result<usize, String> {
    for call in states::calls(seed, most) {
        let marks = random_marks(rng, &[0x1_ffff_ffff; POLICIES]);
        let due = judge_state_by(&call.edges, call.local, &call.state, call.step, |policy| looked(&marks, call.step, policy));
        let Some(found) = harness::judge_lean(&marks, &call.edges, call.local, &call.state, call.step) else {
            continue;
        };
        if found != (due.0.numbers(), due.1) {
            return Err(format!("with the marks {marks:?}: expected {:?}, found {:?}\n{}", due.0.numbers(), found.0, call.write()));
        }
    }
    Ok(most)
}

#[derive(Default)]
struct Tally {
    outlines: usize,
    marked: usize,
    traces: usize,
    halted: usize,
    saved: usize,
}

impl Tally {
    /// One case; sheets that are refused give no tables to call with.
    fn compare(&mut self, rng: &mut Rng, case: &Case) -> Result<(), String> {
        let Ok((policies, nodes)) = tables(&case.policies, &case.other) else {
            return Ok(());
        };
        self.compare_tables(rng, &policies, &nodes).map_err(|why| {
            let [policies, outline] = [&case.policies, &case.other].map(|sheet| String::from_utf8_lossy(sheet));
            format!("summary: {why}\n-- policies\n{policies}-- outline\n{outline}")
        })
    }

    fn compare_tables(&mut self, rng: &mut Rng, policies: &Policies, nodes: &[Node]) -> Result<(), String> {
        let (flat, flat_nodes) = (harness::flat(&policies.edges).unwrap(), harness::flat_nodes(nodes).unwrap());
        let local = policies.sight.number() as u32;
        let exact = summary(policies, nodes);
        for (room, choice, due) in [(7, local, Err(40)), (7, 2, Err(40)), (8, 2, Err(41)), (8, local, Ok(exact)), (11, local, Ok(exact))] {
            let found = harness::summary(&flat, choice, &flat_nodes, room, MARK);
            if found != told(due, room) {
                return Err(format!("with room for {room} and the choice {choice}: expected {due:?}, found {found:?}"));
            }
        }
        self.outlines += 1;
        self.marked += usize::from(exact != [0; POLICIES]);
        for _ in 0..2 {
            let trace = random_trace(rng, nodes);
            let on = with_retirings(rng, trace);
            self.compare_lean(policies, &exact, &on)?;
            if up_to_refusal(&lean_answers(policies, &exact, &on)) != up_to_refusal(&full_answers(policies, &on)) {
                return Err(format!("the exact summary leaves out an answer on {on:?}"));
            }
            let any = random_marks(rng, &exact);
            self.compare_lean(policies, &any, &on)?;
            self.saved += usize::from(lean_answers(policies, &any, &on) != full_answers(policies, &on));
            self.compare_lean(policies, &any, &strayed(rng, on))?;
        }
        Ok(())
    }

    fn compare_lean(&mut self, policies: &Policies, marks: &Marks, steps: &[Step]) -> Result<(), String> {
        let due = lean_answers(policies, marks, steps);
        let found = harness::judged_lean(policies, marks, steps).expect("edges are bytes");
        if due != found {
            return Err(format!("with the marks {marks:?} on {steps:?}: expected {due:?}, found {found:?}"));
        }
        self.traces += 1;
        self.halted += usize::from(due.iter().any(|answer| matches!(answer, Answer::Violated(_))));
        Ok(())
    }

    fn told(&self) -> String {
        let Tally { outlines, marked, traces, halted, saved } = self;
        format!(
            "summaries of {outlines} outlines, {marked} of them with a mark, each with five tables; {traces} traces judged leanly, {halted} of them halted; a summary that was not exact changed {saved}"
        )
    }
}

/// The answer and the detail, and what the table holds.
fn told(due: Result<Marks, u32>, room: usize) -> ((u32, usize), Vec<u64>) {
    let mut table: Vec<u64> = (0..room as u64).map(|place| MARK + place).collect();
    match due {
        Err(number) => ((2, number as usize), table),
        Ok(marks) => {
            table[..POLICIES].copy_from_slice(&marks);
            ((0, 0), table)
        }
    }
}

/// Bits of the exact summary are taken away or put to it.
fn random_marks(rng: &mut Rng, exact: &Marks) -> Marks {
    exact.map(|marks| match rng.below(4) {
        0 => 0,
        1 => marks ^ (1 << rng.below(33)),
        2 => u64::MAX << rng.below(64),
        _ => marks,
    })
}
