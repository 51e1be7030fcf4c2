//! Outlines typed as expressions.

use crate::{Refusal, SheetRefusal};

/// The bytes that are lent for the nodes of an expression, at least.
pub const NODES_ROOM: usize = 192;
/// The room that the longest outline sheet of an expression takes.
pub const EXPRESSION_TEXT_ROOM: usize = 718;

/// The answers from here on are refusals, and so much more are those that have a line.
const REFUSED: usize = 512;
const ON_A_LINE: usize = 65_536;

extern "C" {
    fn wiforekun_read_expression(text: *const u8, text_length: usize, table: *mut u8, table_length: usize) -> usize;
    fn wiforekun_report_expression(text: *const u8, text_length: usize, out: *mut u8, out_length: usize) -> usize;
}

/// Reads the outline that an expression stands for into `table`, [`NODE_BYTES`](crate::NODE_BYTES) bytes to a node, as [`crate::check`] takes
/// it, and tells how many nodes it has; the bytes after them keep their contents. A refusal writes nothing.
///
/// ```
/// use wiforekun::{outline_from_expression, Refusal, NODES_ROOM, NODE_BYTES};
///
/// let mut table = [0; NODES_ROOM];
/// let nodes = outline_from_expression(b"1(s3)+0\n", &mut table).unwrap();
/// assert_eq!(table[..NODE_BYTES * nodes], [4, 1, 2, 1, 1, 3, 0, 0, 0]);
/// let refusal = outline_from_expression(b"1(s3)+\n", &mut table).unwrap_err();
/// assert_eq!((refusal.line, refusal.number), (1, Refusal::EXPRESSION_BYTE));
/// ```
pub fn outline_from_expression(text: &[u8], table: &mut [u8]) -> Result<usize, SheetRefusal> {
    match read_expression_code(text, table) {
        nodes if nodes < REFUSED => Ok(nodes),
        code => Err(SheetRefusal { line: (code / ON_A_LINE) as u64, number: Refusal((code % 256) as u8) }),
    }
}

/// The same as one number: how many nodes there are, 1 to 64; or 512 and the number of the refusal, and 65536 more where its line is 1. The
/// nodes are written to `table`, and what is after them stays; refused with 40 where it is shorter than [`NODES_ROOM`].
pub fn read_expression_code(text: &[u8], table: &mut [u8]) -> usize {
    // sound: a slice to read and one to write
    unsafe { wiforekun_read_expression(text.as_ptr(), text.len(), table.as_mut_ptr(), table.len()) }
}

/// What the program that reads an expression prints, its outline sheet, put into `out`: its length, or 0 where `out` is shorter than
/// [`EXPRESSION_TEXT_ROOM`].
pub fn print_expression(text: &[u8], out: &mut [u8]) -> usize {
    // sound: a slice to read and one to write
    unsafe { wiforekun_report_expression(text.as_ptr(), text.len(), out.as_mut_ptr(), out.len()) }
}
