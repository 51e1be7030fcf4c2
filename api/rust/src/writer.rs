//! A policy sheet written again: one way to write its edges.

use crate::{Refusal, SheetRefusal};

/// The bytes that are lent for the sheet that is written, at least.
pub const SHEET_ROOM: usize = 32_768;

/// The numbers that tell a refusal: its line and its number.
const REFUSAL_LENGTH: usize = 2;

// Nothing but tests/api checks this declaration against the proved code, so it stands here alone.
extern "C" {
    fn wiforekun_write_policies(
        text: *const u8,
        text_length: usize,
        out: *mut u8,
        out_length: usize,
        refusal: *mut [u64; REFUSAL_LENGTH],
    ) -> usize;
}

/// Writes a sheet of policies again: with its own names line, single spaces, no leading zeros, the edges in rising order of their six
/// numbers and none twice. The answer is how many bytes of `out` were written; those after them keep their contents. A refusal writes
/// nothing: 40 where `out` has less than [`SHEET_ROOM`] bytes, else the number of the sheet.
///
/// ```
/// let sheet = b"policy from action on who to\n0 0 10 1 0 1\n00 0  2 1 0 6\n0 0 10 1 0 1\n";
/// let mut out = [0; wiforekun::SHEET_ROOM];
/// let length = wiforekun::write_policies(sheet, &mut out).unwrap();
/// assert_eq!(&out[..length], b"policy from action on who to\n0 0 2 1 0 6\n0 0 10 1 0 1\n");
/// ```
pub fn write_policies(sheet: &[u8], out: &mut [u8]) -> Result<usize, SheetRefusal> {
    let mut refusal = [0; REFUSAL_LENGTH];
    // SAFETY: both slices are valid for their lengths and do not overlap, `refusal` is the array that the function expects; it keeps none.
    let length =
        unsafe { wiforekun_write_policies(sheet.as_ptr(), sheet.len(), out.as_mut_ptr(), out.len(), &mut refusal) };
    match refusal {
        [_, 0] => Ok(length),
        [line, number] => Err(SheetRefusal { line, number: Refusal(number as u8) }),
    }
}
