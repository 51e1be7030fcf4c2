//! Stored sequences of calls of the routine desk, what they answer, and what the program of the desk prints.

use crate::desk::{Desk, Reply};
use crate::desk_bytes::{called, encode, Call, STATE_BYTES};
use crate::generate::desks::{sessions, Round, Session, MOST_ROUNDS};
use crate::judge::{Answer, Step};
use crate::program::NAMES;
use crate::sheet::read_trace;
use std::fs;
use std::io;
use std::path::Path;

/// The step that is taken on poked bytes.
pub const POKED_STEP: [u64; 3] = [0, 2, 3];

/// What a lent state holds where nothing is to be written.
const MARK: u8 = 165;

/// The desk over the past and the desk on bytes, which must answer alike.
pub struct Both {
    desk: Desk,
    pub bytes: Vec<u8>,
}

impl Default for Both {
    fn default() -> Both {
        Both { desk: Desk::default(), bytes: encode(&None) }
    }
}

impl Both {
    pub fn call(&mut self, call: &Call) -> Reply {
        let reply = match call {
            Call::Policies(text) => self.desk.load_policies(text),
            Call::Outline(text) => self.desk.load_outline(text),
            Call::Step(step) => self.desk.step(*step),
        };
        let (by_bytes, after) = called(&self.bytes, call);
        assert_eq!(reply, by_bytes, "the desk over the past and the one on bytes answer alike");
        self.bytes = encode(&after.expect("the desk's own bytes encode one"));
        reply
    }
}

/// The calls of a round.
fn calls(round: &Round) -> Vec<Call> {
    let mut calls = Vec::new();
    if !round.policies.is_empty() {
        calls.push(Call::Policies(round.policies.clone()));
    }
    if !round.outline.is_empty() {
        calls.push(Call::Outline(round.outline.clone()));
    }
    calls.extend(read_trace(&round.trace).unwrap_or_default().into_iter().map(Call::Step));
    calls
}

/// The answer, its detail, whether it is the lean judge's, and the line.
fn told(reply: Reply) -> String {
    let (answer, detail) = reply.answer.numbers();
    format!("{answer} {detail} {} {}", u32::from(reply.lean), reply.line)
}

/// A line for each call, and one for each poke. A poke's has a last number, how many bytes a refused step has changed: none.
pub fn answers(session: &Session) -> String {
    let mut both = Both::default();
    let mut text = String::new();
    for call in session.rounds.iter().flat_map(calls) {
        text += &(told(both.call(&call)) + "\n");
    }
    let [kind, a, b] = POKED_STEP;
    for poke in &session.pokes {
        let mut bytes = both.bytes.clone();
        bytes[(poke / 256) as usize] = (poke % 256) as u8;
        let (reply, _) = called(&bytes, &Call::Step(Step { kind, a, b }));
        text += &(told(reply) + " 0\n");
    }
    text
}

/// The file of a round's sheet, and of the pokes, which are written as a trace sheet of creates.
fn name(number: usize, round: usize, sheet: usize) -> String {
    format!("{number:04}{}", (b'a' + (3 * round + sheet) as u8) as char)
}

fn poke_name(number: usize) -> String {
    format!("{number:04}x")
}

pub fn write(seed: u64, count: usize, dir: &Path) -> io::Result<String> {
    fs::create_dir_all(dir)?;
    for (number, session) in sessions(seed, count).into_iter().enumerate() {
        for (place, round) in session.rounds.iter().enumerate() {
            for (sheet, text) in [&round.policies, &round.outline, &round.trace].into_iter().enumerate() {
                if !text.is_empty() {
                    fs::write(dir.join(name(number, place, sheet)), text)?;
                }
            }
        }
        if !session.pokes.is_empty() {
            let steps = session.pokes.iter().map(|poke| Step::event(0, *poke).row());
            fs::write(dir.join(poke_name(number)), crate::damage::rows(crate::sheet::TRACE_NAMES, steps))?;
        }
    }
    Ok(String::new())
}

fn stored(dir: &Path, number: usize) -> Session {
    let sheet = |round: usize, sheet: usize| fs::read(dir.join(name(number, round, sheet))).unwrap_or_default();
    let round = |place: usize| Round { policies: sheet(place, 0), outline: sheet(place, 1), trace: sheet(place, 2) };
    let pokes = fs::read(dir.join(poke_name(number))).unwrap_or_default();
    let pokes = read_trace(&pokes).unwrap_or_default().iter().map(|step| step.b).collect();
    Session { rounds: (0..MOST_ROUNDS).map(round).collect(), pokes }
}

pub fn expected(dir: &Path, count: usize) -> String {
    (0..count).map(|number| format!("case {number}\n{}", answers(&stored(dir, number)))).collect()
}

/// The number of a call, what it answers, and how many bytes keep a mark.
fn line(call: usize, reply: Reply, kept: usize) -> String {
    format!("{call} {} {kept}\n", told(reply))
}

/// Direct calls: states of other lengths, before anything is loaded, with sheets of no byte, and with steps that no sheet has. After the answer
/// comes how many bytes hold what they held: of a state that is too short or encodes nothing all, of a longer one the three behind it.
pub fn borders() -> String {
    let sheet = b"policy from action on who to\n0 0 1 1 0 1\n0 1 3 1 0 0\n0 0 2 1 0 6\n".to_vec();
    let tree = b"node kind a b\n0 3 1 2\n1 1 1 3\n2 1 2 3\n".to_vec();
    let (none, step) = (Vec::new(), |kind, a, b| Call::Step(Step { kind, a, b }));
    let mut text = String::new();
    let mut number = 0;
    let mut add = |reply: Reply, kept: usize| {
        text += &line(number, reply, kept);
        number += 1;
    };
    let short = vec![MARK; STATE_BYTES - 1];
    for call in [Call::Policies(sheet.clone()), Call::Policies(none.clone()), Call::Outline(tree.clone()), Call::Outline(none.clone()), step(0, 1, 3), step(9, 0, 0)] {
        add(called(&short, &call).0, STATE_BYTES - 1);
    }
    add(called(&[], &step(0, 1, 3)).0, 0);
    let marked = vec![MARK; STATE_BYTES];
    for call in [Call::Policies(sheet.clone()), Call::Outline(tree.clone()), step(0, 1, 3)] {
        add(called(&marked, &call).0, STATE_BYTES);
    }
    let mut zero = Both::default();
    for call in [step(0, 1, 3), step(9, 9, 9), Call::Outline(tree.clone()), Call::Outline(none.clone()), Call::Policies(none.clone()), step(0, 1, 3)] {
        let reply = zero.call(&call);
        assert!(zero.bytes.iter().all(|byte| *byte == 0));
        add(reply, STATE_BYTES);
    }
    let mut longer = Both::default();
    for call in [
        Call::Policies(sheet),
        Call::Outline(tree),
        step(9, 0, 0),
        step(0, 32, 3),
        step(0, 1, 3),
        step(1, 0, 0),
        Call::Policies(none.clone()),
        Call::Outline(none.clone()),
        step(2, 0, 0),
        Call::Policies(none.clone()),
        Call::Outline(none),
        step(3, 16, 1),
        step(0, 0, 16),
    ] {
        add(longer.call(&call), 3);
    }
    text
}

/// What the program of the desk prints for three sheets: the lines of the first program with a number more, 1 where the lean judge answered; in
/// front of the steps, with line 0, the check's verdict on the outline. A refused sheet has only one line, policies first, then the outline.
pub fn printed(policies: &[u8], outline: &[u8], trace: &[u8]) -> String {
    let names = NAMES.replace('\n', " lean\n");
    let refused = |sheet: u32, reply: Reply| format!("{names}{} {sheet} {} 0\n", reply.line, reply.answer.numbers().1);
    let mut desk = Desk::default();
    let reply = desk.load_policies(policies);
    if reply.is_refusal() {
        return refused(3, reply);
    }
    let verdict = desk.load_outline(outline);
    if verdict.is_refusal() {
        return refused(5, verdict);
    }
    let steps = match read_trace(trace) {
        Ok(steps) => steps,
        Err(refusal) => {
            let answer = Answer::Refused(refusal.number);
            return refused(4, Reply { answer, lean: false, line: refusal.line });
        }
    };
    let (answer, detail) = verdict.answer.numbers();
    let mut text = format!("{names}0 {answer} {detail} 0\n");
    for (index, step) in steps.iter().enumerate() {
        let reply = desk.step(*step);
        let (answer, detail) = reply.answer.numbers();
        text += &format!("{} {answer} {detail} {}\n", index + 2, u32::from(reply.lean));
    }
    text
}
