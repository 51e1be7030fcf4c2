//! The routine desk over the past: the sheets that were loaded and the full judge, which keeps nothing but the steps.

use crate::counterexample::longest_trace;
use crate::judge::{unclosed, Answer, Judge, Step, RETIRE};
use crate::outline::Node;
use crate::policy::Policies;
use crate::positions::{after, at_start, Positions};
use crate::pushdown::check;
use crate::sheet::{read_outline, read_policies, Refusal};

/// What a call answers: with a refusal of a sheet its line, and, where a step is not refused, whether the lean judge gave the answer.
#[derive(Clone, Copy, Debug, PartialEq, Eq)]
pub struct Reply {
    pub answer: Answer,
    pub lean: bool,
    pub line: usize,
}

impl Reply {
    pub fn of(answer: Answer) -> Reply {
        Reply { answer, lean: false, line: 0 }
    }

    pub fn refused(number: u32) -> Reply {
        Reply::of(Answer::Refused(number))
    }

    fn sheet(refusal: Refusal) -> Reply {
        Reply { line: refusal.line, ..Reply::refused(refusal.number) }
    }

    /// As the one number that is returned: the detail, 256 times the answer, 65,536 where it is the lean judge's, 131,072 times the line.
    pub fn code(&self) -> u32 {
        let (answer, detail) = self.answer.numbers();
        detail as u32 + 256 * answer + 65_536 * u32::from(self.lean) + 131_072 * self.line as u32
    }

    pub fn is_refusal(&self) -> bool {
        matches!(self.answer, Answer::Refused(_))
    }
}

#[derive(Clone)]
pub struct Loaded {
    pub policies: Policies,
    pub judge: Judge,
    pub outline: Option<Outlined>,
}

#[derive(Clone)]
pub struct Outlined {
    pub nodes: Vec<Node>,
    /// Those of the steps so far; none from the first time on that a limit was exceeded.
    pub positions: Positions,
}

#[derive(Clone, Default)]
pub struct Desk {
    pub loaded: Option<Loaded>,
}

impl Desk {
    /// "52 a load while a sandbox is open and the judge is not halted".
    pub fn is_busy(&self) -> bool {
        let open = |judge: &Judge| !judge.halted() && !unclosed(judge.past()).is_empty();
        self.loaded.as_ref().is_some_and(|loaded| open(&loaded.judge))
    }

    /// "A load starts the judge afresh; loading policies also drops the outline."
    pub fn load_policies(&mut self, text: &[u8]) -> Reply {
        if self.is_busy() {
            return Reply::refused(52);
        }
        match read_policies(text) {
            Err(refusal) => Reply::sheet(refusal),
            Ok(policies) => {
                let judge = Judge::new(&policies);
                self.loaded = Some(Loaded { policies, judge, outline: None });
                Reply::of(Answer::Allowed)
            }
        }
    }

    /// "answers an outline, kept either way, with the check's verdict".
    pub fn load_outline(&mut self, text: &[u8]) -> Reply {
        let busy = self.is_busy();
        let Some(loaded) = &mut self.loaded else {
            return Reply::refused(51);
        };
        if busy {
            return Reply::refused(52);
        }
        match read_outline(text) {
            Err(refusal) => Reply::sheet(refusal),
            Ok(nodes) => {
                let verdict = check(&loaded.policies, &nodes);
                loaded.judge = Judge::new(&loaded.policies);
                loaded.outline = Some(Outlined { positions: at_start(&nodes), nodes });
                Reply::of(verdict.map_or(Answer::Allowed, Answer::Violated))
            }
        }
    }

    pub fn step(&mut self, step: Step) -> Reply {
        let Some(loaded) = &mut self.loaded else {
            return Reply::refused(50);
        };
        let mut steps = without_retirings(loaded.judge.past());
        steps.extend((step.kind != RETIRE).then_some(step));
        // "which judge gave it" is told by the past alone: the full judge's answer is the lean one's
        let answer = loaded.judge.judge(step);
        let mut reply = Reply::of(answer);
        if let (Some(outline), false) = (&mut loaded.outline, reply.is_refusal()) {
            reply.lean = outline.positions.is_some() && longest_trace(&outline.nodes, &steps) == steps.len();
            if answer == Answer::Allowed && step.kind != RETIRE {
                outline.positions = outline.positions.as_ref().and_then(|before| after(&outline.nodes, before, step));
            }
        }
        reply
    }
}

/// "refused ones and retirings aside"; a refused step is no part of the past.
fn without_retirings(past: &[Step]) -> Vec<Step> {
    past.iter().filter(|step| step.kind != RETIRE).copied().collect()
}
