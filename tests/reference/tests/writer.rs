//! A policy sheet written again: the request's sentences, by hand and on random sheets.

use reference::generate::rewritings;
use reference::generate::traces;
use reference::program::{monitor, write};
use reference::rng::Rng;
use reference::sheet::{read_policies, Refusal, LONGEST};
use reference::writer::{write_into, written};
use std::collections::HashSet;

const WHOLE: &str = "policy from action on who to\n";
const LOCAL: &str = "local from action on who to\n";

fn text(sheet: &[u8]) -> String {
    String::from_utf8(written(sheet).unwrap()).unwrap()
}

#[test]
fn by_hand() {
    for names in [WHOLE, LOCAL] {
        let one = |values: &str| text(format!("{names}{values}").as_bytes());
        assert_eq!(one(""), names);
        assert_eq!(
            one("0 0 10 1 0 1\n00  0 2 1 0 00006\n0 0 2 1 0 1\n0 0 10 1 0 1\n"),
            format!("{names}0 0 2 1 0 1\n0 0 2 1 0 6\n0 0 10 1 0 1\n")
        );
        assert_eq!(one("1 0 0 0 0 0\n0 7 31 2 0 7\n"), format!("{names}0 7 31 2 0 7\n1 0 0 0 0 0\n"));
        assert_eq!(one("0 0 1 0 10 1\n0 0 1 0 9 1\n"), format!("{names}0 0 1 0 9 1\n0 0 1 0 10 1\n"));
    }
}

#[test]
fn refusals() {
    assert_eq!(write(b""), "line answer detail\n1 3 1\n");
    let wrong = format!("{WHOLE}0 0 1 1 0 1\n0 0 1 1 0\n");
    assert_eq!(write(wrong.as_bytes()), "line answer detail\n3 3 2\n");
    let mut lent = vec![9; LONGEST];
    assert_eq!(write_into(wrong.as_bytes(), &mut lent[1..]), Err(Refusal { number: 40, line: 0 }));
    assert_eq!(write_into(wrong.as_bytes(), &mut lent), Err(Refusal { number: 2, line: 3 }));
    assert!(lent.iter().all(|byte| *byte == 9));
    assert_eq!(write_into(LOCAL.as_bytes(), &mut lent), Ok(LOCAL.len()));
    assert!(lent.starts_with(LOCAL.as_bytes()) && lent[LOCAL.len()..].iter().all(|byte| *byte == 9));
}

fn rows(sheet: &[u8]) -> HashSet<[u64; 6]> {
    read_policies(sheet).unwrap().edges.iter().map(|edge| edge.row()).collect()
}

/// The same edges as a set, the same names line, no byte changed by writing again; equal bytes exactly where the sets are equal.
#[test]
fn one_way() {
    let mut seen: Vec<(bool, HashSet<[u64; 6]>, Vec<u8>)> = Vec::new();
    for sheet in rewritings::cases(5, 900) {
        let Ok(again) = written(&sheet) else { continue };
        assert_eq!(written(&again).unwrap(), again);
        assert_eq!(rows(&again), rows(&sheet));
        assert_eq!(again.starts_with(LOCAL.as_bytes()), sheet.starts_with(LOCAL.as_bytes()));
        assert!(again.len() <= LONGEST);
        seen.push((sheet.starts_with(LOCAL.as_bytes()), rows(&sheet), again));
    }
    assert!(seen.len() > 300);
    for (local, set, bytes) in &seen {
        for (other_local, other_set, other) in &seen {
            assert!(local != other_local || (set == other_set) == (bytes == other));
        }
    }
}

/// A trace gets the same answers under the sheet that is written.
#[test]
fn same_verdicts() {
    let mut rng = Rng::new(6);
    for _ in 0..400 {
        let case = traces::random_case(&mut rng);
        if let Ok(again) = written(&case.policies) {
            assert_eq!(monitor(&again, &case.other), monitor(&case.policies, &case.other));
        }
    }
}
