//! The routine desk: policies, an outline and the monitor's state as one object of bytes.

use crate::{Answer, Refusal, SheetRefusal, Step};

/// The bytes of a desk's state.
pub const DESK_STATE: usize = 37_000;

// Nothing but tests/api checks these declarations against the proved code, so they stand here alone.
extern "C" {
    fn wiforekun_desk_policies(state: *mut u8, state_length: usize, text: *const u8, text_length: usize) -> u32;
    fn wiforekun_desk_outline(state: *mut u8, state_length: usize, text: *const u8, text_length: usize) -> u32;
    fn wiforekun_desk_step(state: *mut u8, state_length: usize, kind: u32, a: u32, b: u32) -> u32;
}

/// Which of the two judges gave an answer. The answers are the same whichever it is.
#[derive(Clone, Copy, Debug, PartialEq, Eq, Hash)]
pub enum Judge {
    /// The lean one: an outline is loaded, the steps since, this one included, refused ones and retirings aside, are a trace of it, and no limit
    /// of the desk's positions was exceeded before this step.
    Lean,
    /// The full one.
    Full,
}

/// What the desk answers to a step.
#[must_use]
#[derive(Clone, Copy, Debug, PartialEq, Eq)]
pub struct Reply {
    /// The answer: that of a full judge started at the last load.
    pub answer: Answer,
    /// Which judge gave it; none where the step is refused.
    pub judge: Option<Judge>,
}

/// What the check says of an outline that the desk has loaded. It is kept either way.
#[must_use]
#[derive(Clone, Copy, Debug, PartialEq, Eq)]
pub enum Verdict {
    /// No run leaves a policy open and not respected.
    Accepted,
    /// The lowest policy that some run leaves open and not respected.
    Named(u8),
}

/// The routine desk. It loads policies and an outline from the bytes of their sheets and judges the steps of a routine: by the lean judge while
/// the routine stays on the outline, from the first stray step on by the full one. Its answers are those of a full judge started at the last load.
///
/// A desk is plain data, [`DESK_STATE`] bytes, all zero at first; it may be copied, compared, kept and taken up again ([`Desk::bytes`],
/// [`Desk::from_bytes`]). A refused call changes none of them.
///
/// ```
/// use wiforekun::{Answer, Desk, Judge, Refusal, Step, Verdict};
///
/// let mut desk = Desk::new();
/// assert_eq!(desk.step(Step::open(0)).answer, Answer::Refused(Refusal::STEP_BEFORE_POLICIES));
/// desk.load_policies(b"policy from action on who to\n0 0 2 1 0 6\n").unwrap();
/// // a sandbox of policy 0 around action 1 on static resource 3
/// let verdict = desk.load_outline(b"node kind a b\n0 8 0 1\n1 1 1 3\n").unwrap();
/// assert_eq!(verdict, Verdict::Accepted);
/// let reply = desk.step(Step::open(0));
/// assert_eq!((reply.answer, reply.judge), (Answer::Allowed, Some(Judge::Lean)));
/// // a load has to wait for the closing
/// assert_eq!(desk.load_policies(b"").unwrap_err().number, Refusal::LOAD_WHILE_OPEN);
/// // not in the outline
/// let reply = desk.step(Step::event(2, 3));
/// assert_eq!((reply.answer, reply.judge), (Answer::Violated(0), Some(Judge::Full)));
/// ```
#[repr(transparent)]
#[derive(Clone, PartialEq, Eq)]
pub struct Desk {
    state: [u8; DESK_STATE],
}

impl Desk {
    /// A desk at which nothing is loaded: all bytes are 0.
    #[must_use]
    pub const fn new() -> Desk {
        Desk { state: [0; DESK_STATE] }
    }

    /// The desk that these bytes hold. Bytes that hold none are refused by each call, with [`Refusal::STATE`]; bytes that no desk has written, but
    /// that hold one, are answered by what they hold.
    #[must_use]
    pub const fn from_bytes(state: [u8; DESK_STATE]) -> Desk {
        Desk { state }
    }

    /// The bytes, as docs/DESK.md tells them.
    #[must_use]
    pub const fn bytes(&self) -> &[u8; DESK_STATE] {
        &self.state
    }

    /// Loads a policy sheet, drops the outline and starts the judge afresh. Refused with 52 while a sandbox is open and the run is not halted; then
    /// with the sheet's number.
    pub fn load_policies(&mut self, sheet: &[u8]) -> Result<(), SheetRefusal> {
        match desk_policies_code(&mut self.state, sheet) {
            0 => Ok(()),
            code => Err(refusal(code)),
        }
    }

    /// Loads an outline sheet, starts the judge afresh and tells what the check says of it. Refused with 51 before policies are loaded, with 52 while
    /// a sandbox is open and the run is not halted; then with the sheet's number.
    pub fn load_outline(&mut self, sheet: &[u8]) -> Result<Verdict, SheetRefusal> {
        let code = desk_outline_code(&mut self.state, sheet);
        match code / 256 % 256 {
            0 => Ok(Verdict::Accepted),
            1 => Ok(Verdict::Named((code % 256) as u8)),
            _ => Err(refusal(code)),
        }
    }

    /// One step. Refused with 50 before policies are loaded; then as the monitor refuses it.
    #[inline]
    pub fn step(&mut self, step: impl Into<Step>) -> Reply {
        let code = desk_step_code(&mut self.state, step.into().0);
        let judge = if code / 65_536 % 2 == 1 { Judge::Lean } else { Judge::Full };
        let detail = (code % 256) as u8;
        match code / 256 % 256 {
            0 => Reply { answer: Answer::Allowed, judge: Some(judge) },
            1 => Reply { answer: Answer::Violated(detail), judge: Some(judge) },
            _ => Reply { answer: Answer::Refused(Refusal(detail)), judge: None },
        }
    }
}

impl Default for Desk {
    fn default() -> Desk {
        Desk::new()
    }
}

impl core::fmt::Debug for Desk {
    fn fmt(&self, to: &mut core::fmt::Formatter<'_>) -> core::fmt::Result {
        // thousands of bytes tell a reader nothing
        to.debug_struct("Desk").finish_non_exhaustive()
    }
}

fn refusal(code: u32) -> SheetRefusal {
    SheetRefusal { line: u64::from(code / 131_072), number: Refusal((code % 256) as u8) }
}

/// [`Desk::load_policies`] on a state of any length, as one number: the detail, 256 times the answer (0 loaded, 2 refused), and 131072 times the
/// sheet's line. Refused with 40 where the state is shorter than [`DESK_STATE`]; bytes behind it are not looked at and keep their contents.
#[inline]
#[must_use]
pub fn desk_policies_code(state: &mut [u8], sheet: &[u8]) -> u32 {
    // sound: a slice to read and one to write
    unsafe { wiforekun_desk_policies(state.as_mut_ptr(), state.len(), sheet.as_ptr(), sheet.len()) }
}

/// [`Desk::load_outline`] in the same way; the answer is 0 accepted, 1 named, 2 refused.
#[inline]
#[must_use]
pub fn desk_outline_code(state: &mut [u8], sheet: &[u8]) -> u32 {
    // sound: a slice to read and one to write
    unsafe { wiforekun_desk_outline(state.as_mut_ptr(), state.len(), sheet.as_ptr(), sheet.len()) }
}

/// [`Desk::step`] in the same way; the answer is 0 allowed, 1 violated, 2 refused, and 65536 is added where the lean judge gave it.
#[inline]
#[must_use]
pub fn desk_step_code(state: &mut [u8], [kind, a, b]: [u32; 3]) -> u32 {
    // sound: a slice to write
    unsafe { wiforekun_desk_step(state.as_mut_ptr(), state.len(), kind, a, b) }
}
