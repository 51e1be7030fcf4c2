//! What the programs print.

use crate::counterexample::{counterexample, follow_alone, stops_rightly, Counterexample};
use crate::damage::rows;
use crate::judge::{Judge, Step};
use crate::outline::Node;
use crate::policy::{Policies, POLICIES};
use crate::pushdown;
use crate::summary::{lean_answers, summary, Marks, MARK_BITS};
use crate::sheet::{read_outline, read_policies, read_trace, Refusal, TRACE_NAMES};
use crate::writer::written;

pub const NAMES: &str = "line answer detail\n";
const MARK_NAMES: &str = "policy action\n";

const POLICIES_REFUSED: u32 = 3;
const TRACE_REFUSED: u32 = 4;
const OUTLINE_REFUSED: u32 = 5;

/// The first program: a trace judged line by line.
pub fn monitor(policies: &[u8], trace: &[u8]) -> String {
    let policies = match read_policies(policies) {
        Ok(policies) => policies,
        Err(refusal) => return refused(POLICIES_REFUSED, refusal),
    };
    let steps = match read_trace(trace) {
        Ok(steps) => steps,
        Err(refusal) => return refused(TRACE_REFUSED, refusal),
    };
    let mut judge = Judge::new(&policies);
    let mut text = NAMES.to_string();
    for (index, step) in steps.iter().enumerate() {
        let (answer, detail) = judge.judge(*step).numbers();
        text += &format!("{} {answer} {detail}\n", index + 2);
    }
    text
}

/// The tables of two sheets, or the answer that tells which is refused, policies first, and why.
pub fn tables(policies: &[u8], outline: &[u8]) -> Result<(Policies, Vec<Node>), (u32, Refusal)> {
    let policies = read_policies(policies).map_err(|refusal| (POLICIES_REFUSED, refusal))?;
    let nodes = read_outline(outline).map_err(|refusal| (OUTLINE_REFUSED, refusal))?;
    Ok((policies, nodes))
}

/// The second program: an outline checked.
pub fn check(policies: &[u8], outline: &[u8]) -> String {
    match tables(policies, outline) {
        Err((sheet, refusal)) => refused(sheet, refusal),
        Ok((policies, nodes)) => match pushdown::check(&policies, &nodes) {
            None => format!("{NAMES}0 0 0\n"),
            Some(policy) => format!("{NAMES}0 1 {policy}\n"),
        },
    }
}

/// The third program: a shortest counterexample as a trace sheet, of which any may be printed.
pub fn why(policies: &[u8], outline: &[u8]) -> String {
    let steps = match tables(policies, outline) {
        Err((sheet, refusal)) => return refused(sheet, refusal),
        Ok((policies, nodes)) => match counterexample(&policies, &nodes) {
            Counterexample::Shown { steps, .. } => steps,
            _ => vec![],
        },
    };
    String::from_utf8(rows(TRACE_NAMES, steps.iter().map(Step::row))).expect("a sheet is ASCII")
}

/// What is the same whichever shortest trace is shown: the verdict's two numbers and the length, in one line; for a refused sheet the
/// answer and the detail of the second program, and 0. Where a trace is shown, a second line of what the judge says of it: how many
/// steps it is past when only that policy is opened, its answer and its detail there; and 1 where it stops rightly with all policies.
pub fn shown(policies: &[u8], outline: &[u8]) -> String {
    let (policies, nodes) = match tables(policies, outline) {
        Err((sheet, refusal)) => return format!("{sheet} {} 0\n", refusal.number),
        Ok(tables) => tables,
    };
    let due = counterexample(&policies, &nodes);
    let (answer, detail, length) = due.numbers();
    let told = format!("{answer} {detail} {length}\n");
    match due {
        Counterexample::Shown { policy, steps } => told + &judged(&policies, policy, &steps),
        _ => told,
    }
}

fn judged(policies: &Policies, policy: usize, steps: &[Step]) -> String {
    let (past, answer) = follow_alone(policies, policy, steps);
    let (answer, detail) = answer.numbers();
    let rightly = u32::from(stops_rightly(policies, policy, steps));
    format!("{past} {answer} {detail} {rightly}\n")
}

/// The program that prints a summary: a line for each mark, 32 for an opening.
pub fn summarized(policies: &[u8], outline: &[u8]) -> String {
    let (policies, nodes) = match tables(policies, outline) {
        Err((sheet, refusal)) => return refused(sheet, refusal),
        Ok(tables) => tables,
    };
    let marks = summary(&policies, &nodes);
    let mut text = MARK_NAMES.to_string();
    for (policy, number) in marks.iter().enumerate() {
        for bit in (0..MARK_BITS).filter(|bit| number >> bit & 1 == 1) {
            text += &format!("{policy} {bit}\n");
        }
    }
    text
}

/// The lean judge along a trace: the eight numbers of the exact summary; then what it answers to each step with them, with them one bit
/// higher, and with every bit set.
pub fn lean(policies: &[u8], outline: &[u8], trace: &[u8]) -> String {
    let (policies, nodes) = tables(policies, outline).expect("these sheets are not refused");
    let steps = read_trace(trace).expect("this sheet is not refused");
    let exact = summary(&policies, &nodes);
    let numbers: String = exact.iter().map(|number| format!(" {number}")).collect();
    let mut text = format!("marks{numbers}\n");
    let others: [Marks; 3] = [exact, exact.map(|number| number << 1), [u64::MAX; POLICIES]];
    for marks in others {
        for answer in lean_answers(&policies, &marks, &steps) {
            let (answer, detail) = answer.numbers();
            text += &format!("{answer} {detail}\n");
        }
    }
    text
}

/// The fourth program: a sheet of policies written again.
pub fn write(policies: &[u8]) -> String {
    match written(policies) {
        Err(refusal) => refused(POLICIES_REFUSED, refusal),
        Ok(text) => String::from_utf8(text).expect("a sheet is ASCII"),
    }
}

fn refused(sheet: u32, refusal: Refusal) -> String {
    format!("{NAMES}{} {sheet} {}\n", refusal.line, refusal.number)
}
