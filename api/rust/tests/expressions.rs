//! Outlines typed as expressions, by the crate: cases I to L, each refusal, what is left of a lent table.

use wiforekun::{check, outline_from_expression, print_expression, read_expression_code, Outcome, Past, Refusal, SheetRefusal};
use wiforekun::{EXPRESSION_TEXT_ROOM, NODES_ROOM, NODE_BYTES};

/// Policies P, those of case J, and those of case K, six bytes to an edge.
const P: &[u8] = &[0, 0, 1, 1, 0, 1, 0, 1, 3, 1, 0, 0, 0, 0, 2, 1, 0, 6];
const TWICE: &[u8] = &[0, 0, 5, 1, 0, 1, 0, 1, 5, 1, 0, 6];
#[rustfmt::skip]
const COUNTED: &[u8] = &[
    0, 0, 0, 1, 0, 1, 0, 0, 0, 2, 0, 1, 0, 1, 0, 1, 0, 2, 0, 1, 0, 2, 0, 2, 0, 2, 0, 1, 0, 6, 0, 2, 0, 2, 0, 6,
];
const ROUNDS: &[u8] = b"p0{m1{0+f0{1(n0).2(n0).h1}}}\n";

/// The nodes of an expression.
fn nodes(text: &[u8]) -> Result<Vec<u8>, SheetRefusal> {
    let mut table = [0; NODES_ROOM];
    outline_from_expression(text, &mut table).map(|count| table[..NODE_BYTES * count].to_vec())
}

#[test]
fn cases_i_to_l() {
    let verdict = |edges: &[u8], text: &[u8]| check(edges, Past::Whole, &nodes(text).unwrap()[..]);
    assert_eq!(verdict(P, ROUNDS), Outcome::Accepted);
    assert_eq!(verdict(TWICE, b"p0{m1{0+f0{5(n0).h1}}}\n"), Outcome::Accepted);
    assert_eq!(verdict(COUNTED, ROUNDS), Outcome::Named(0));
    assert_eq!(verdict(P, b"m1{h1}\n"), Outcome::Accepted);
}

#[test]
fn each_refusal() {
    let refused = |text: &[u8]| nodes(text).unwrap_err();
    let on_line = |number: u8| SheetRefusal { line: 1, number: Refusal(number) };
    assert_eq!(refused(&vec![b'0'; 32_769]), SheetRefusal { line: 0, number: Refusal::TOO_LONG });
    assert_eq!(refused(b""), on_line(15));
    assert_eq!(refused(b"0\n0"), on_line(15));
    let nested = |depth: usize| ["(".repeat(depth), "0".into(), ")".repeat(depth), "\n".into()].concat().into_bytes();
    assert_eq!(nodes(&nested(32)), Ok(vec![0, 0, 0]));
    assert_eq!(refused(&nested(33)), on_line(16));
    let many = |items: usize| (vec!["0"; items].join("+") + "\n").into_bytes();
    assert_eq!(nodes(&many(32)).unwrap().len(), 63 * 3);
    assert_eq!(refused(&many(33)), on_line(17));
    assert_eq!(refused(b"0(s3)\n"), on_line(3));
    assert_eq!(refused(b"m1{h2}\n"), on_line(7));
    assert_eq!(refused(b"1(n0)\n"), on_line(8));
}

#[test]
fn the_rest_of_a_table_stays() {
    let mut table = [7; NODES_ROOM + 2];
    assert_eq!(read_expression_code(b"0.0\n", &mut table), 3);
    assert_eq!(table[..9], [3, 1, 2, 0, 0, 0, 0, 0, 0]);
    assert!(table[9..].iter().all(|byte| *byte == 7));
    let mut table = [7; NODES_ROOM];
    assert_eq!(read_expression_code(b"0.\n", &mut table), 65536 + 512 + 15);
    assert!(table.iter().all(|byte| *byte == 7));
    assert_eq!(read_expression_code(b"0\n", &mut table[..NODES_ROOM - 1]), 512 + 40);
    assert!(table.iter().all(|byte| *byte == 7));
}

#[test]
fn the_room_of_a_sheet() {
    let mut out = [7; EXPRESSION_TEXT_ROOM];
    let length = print_expression(b"0\n", &mut out);
    assert_eq!(&out[..length], b"node kind a b\n0 0 0 0\n");
    assert!(out[length..].iter().all(|byte| *byte == 7));
    assert_eq!(print_expression(b"0\n", &mut out[..EXPRESSION_TEXT_ROOM - 1]), 0);
}
