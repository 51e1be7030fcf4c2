//! Outlines that are no trees, and large ones.

use super::{outline, rows, sheet, Text, OUTLINE_NAMES};

/// Trees, backs and names that are wrong, and the order among 3, 6, 7, 8 and 9.
pub(super) fn misshapen() -> Vec<Text> {
    let numbered = [
        // Numbers that are not places.
        "1 0 0 0",
        "0 3 1 2; 2 0 0 0; 1 0 0 0",
        "0 3 1 2; 1 0 0 0; 3 0 0 0",
        "0 3 1 2; 0 0 0 0; 2 0 0 0",
        "0 5 1 0; 1 0 0 0; 2 0 0 0",
        "63 5 1 0; 1 0 0 0",
        // A wrong number after a wrong child, and before it.
        "0 5 0 0; 2 0 0 0",
        "0 5 1 0; 2 5 1 0; 2 0 0 0",
    ];
    let by_place = [
        // Children: itself, lower, missing, twice, none.
        "5 0 0",
        "3 0 1; 0 0 0",
        "3 1 0; 0 0 0",
        "5 1 0; 5 1 0",
        "5 1 0; 5 0 0",
        "3 1 2; 5 1 0; 0 0 0",
        "3 1 2; 0 0 0; 5 1 0",
        "5 2 0; 0 0 0",
        "5 1 0",
        "3 1 2; 0 0 0",
        "3 1 1; 0 0 0",
        "4 1 1; 0 0 0",
        "3 1 1; 0 0 0; 0 0 0",
        "3 1 2; 0 0 0; 0 0 0; 0 0 0",
        "0 0 0; 0 0 0",
        "4 1 2; 5 2 0; 0 0 0",
        "4 1 2; 5 3 0; 5 3 0; 0 0 0",
        "7 0 0",
        "7 0 1",
        "8 0 0",
        "8 0 1",
        "8 0 2; 0 0 0",
        "8 0 1; 8 0 2; 8 0 1",
        "7 0 1; 7 1 2; 7 2 0",
        "3 1 2; 3 3 4; 3 4 3; 0 0 0; 0 0 0",
        "4 1 2; 0 0 0; 4 3 4; 0 0 0; 4 1 5; 0 0 0",
        "5 1 0; 5 2 0; 5 3 0; 5 0 0",
        "3 2 1; 0 0 0; 0 0 0",
        "4 3 1; 0 0 0; 0 0 0; 5 2 0",
        "5 1 0; 4 2 3; 0 0 0; 0 0 0",
        // Backs: outside the loop, to no loop, to itself, to a later loop, right ones.
        "6 0 0",
        "3 1 2; 5 3 0; 6 1 0; 0 0 0",
        "8 0 1; 6 0 0",
        "3 1 2; 6 0 0; 6 0 0",
        "5 1 0; 6 1 0",
        "5 1 0; 6 2 0",
        "5 1 0; 6 63 0",
        "5 1 0; 8 0 2; 6 0 0",
        "5 1 0; 8 0 2; 6 1 0",
        "3 1 2; 5 3 0; 5 4 0; 6 2 0; 6 2 0",
        "3 1 2; 5 3 0; 5 4 0; 6 1 0; 6 1 0",
        "5 1 0; 5 2 0; 5 3 0; 6 0 0",
        "4 1 2; 6 2 0; 5 3 0; 6 2 0",
        "5 1 0; 3 2 3; 6 0 0; 6 0 0",
        "3 1 2; 0 0 0; 5 3 0; 4 4 5; 6 2 0; 6 0 0",
        // Names: never given, given beside, given below, given twice, right ones.
        "2 1 0",
        "3 1 2; 7 0 3; 2 1 0; 0 0 0",
        "7 0 1; 2 1 1",
        "7 0 1; 7 0 2; 2 1 0",
        "3 1 2; 7 0 3; 7 0 4; 2 1 0; 2 1 0",
        "3 1 2; 7 0 3; 7 1 4; 2 1 1; 2 1 0",
        "7 0 1; 7 1 2; 7 2 3; 7 3 4; 2 1 0",
        "7 0 1; 7 1 2; 7 2 3; 7 3 4; 7 0 5; 2 1 0",
        "4 1 2; 7 3 3; 7 2 4; 2 1 3; 2 1 2",
        "4 1 2; 7 3 4; 7 2 3; 2 1 3; 2 1 2",
        "5 1 0; 7 0 2; 3 3 4; 2 1 0; 6 0 0",
        "3 1 2; 2 1 0; 7 0 3; 2 1 0",
        "7 1 1; 3 2 3; 2 1 1; 7 1 4; 0 0 0",
        // 6 at the last node before 7 at the first; 7 before 8; 6 before 8.
        "3 1 2; 6 0 0; 3 3 4; 2 1 0; 5 4 0",
        "3 1 2; 2 1 0; 6 0 0",
        "3 1 2; 2 1 0; 5 2 0",
        "3 1 2; 6 0 0; 2 1 0",
        "4 1 2; 2 1 0; 4 3 4; 6 2 0; 4 4 5; 0 0 0",
        "3 1 2; 7 0 3; 6 1 0; 2 1 1",
        "3 1 2; 2 1 1; 3 3 4; 7 0 5; 6 3 0; 7 0 6; 0 0 0",
        "3 1 2; 6 2 0; 6 1 0",
        "3 1 2; 2 1 2; 2 1 3",
        "3 1 2; 3 9 9; 3 1 1",
        // 3 on a later line before 6, 7 and 8.
        "5 0 0; 0 0 1",
        "6 0 0; 9 0 0",
        "2 1 0; 2 1 4",
        "3 1 1; 0 0 0; 1 0 0",
    ];
    let mut sheets: Vec<Text> = numbered.iter().map(|lines| sheet(OUTLINE_NAMES, lines)).collect();
    sheets.extend(by_place.iter().map(|lines| outline(lines)));
    sheets
}

/// Outlines of 63, 64 and 65 nodes that are right but for their size.
pub(super) fn large_outlines() -> Vec<Text> {
    let mut sheets = Vec::new();
    for size in [63, 64, 65] {
        sheets.push(chain(size, |n| [n, 5, n + 1, 0], [0, 0, 0]));
        sheets.push(chain(size, |n| [n, 8, n % 8, n + 1], [1, 2, 3]));
        sheets.push(chain(size, |n| [n, 5, n + 1, 0], [6, 0, 0]));
        sheets.push(comb(size, 3));
        sheets.push(comb(size, 4));
    }
    sheets
}

/// Nodes with one child each, and a last one.
fn chain(size: u64, node: impl Fn(u64) -> [u64; 4], last: [u64; 3]) -> Text {
    let inner = (0..size - 1).map(node);
    rows(OUTLINE_NAMES, inner.chain([[size - 1, last[0], last[1], last[2]]]))
}

/// A sandbox around nodes of two children, the left one an event. The size is rounded to even.
fn comb(size: u64, kind: u64) -> Text {
    let size = size / 2 * 2;
    let node = |n: u64| match n {
        0 => [0, 8, 0, 1],
        _ if n == size - 1 => [n, 1, 2, 3],
        _ if n % 2 == 1 => [n, kind, n + 1, n + 2],
        _ => [n, 1, if n.is_multiple_of(3) { 1 } else { 3 }, 3],
    };
    rows(OUTLINE_NAMES, (0..size).map(node))
}
