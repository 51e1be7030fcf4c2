//! The routine desk: a step beside the judge's own, and a load of an outline beside the check, all of them proved.

use crate::inputs::{self, Outline, Step};
use crate::{measured, outlines};
use reference::rng::Rng;
use std::hint::black_box;
use wiforekun::{check_code, desk_outline_code, desk_policies_code, desk_step_code, State, DESK_STATE};

/// What is added to an answer of the lean judge.
const LEAN: u32 = 65_536;

/// A step of a kind that there is none of, refused with 21.
const NO_STEP: u32 = 2 * 256 + 21;

/// A sheet of rows, each of so many bytes.
fn sheet(names: &str, rows: &[u8], width: usize, numbered: bool) -> Vec<u8> {
    let mut text = format!("{names}\n");
    for (number, row) in rows.chunks(width).enumerate() {
        let first = numbered.then_some(number.to_string());
        let words: Vec<String> = first.into_iter().chain(row.iter().map(u8::to_string)).collect();
        text += &(words.join(" ") + "\n");
    }
    text.into_bytes()
}

fn policies_sheet(edges: &[u8], local: u32) -> Vec<u8> {
    sheet(&format!("{} from action on who to", if local == 1 { "local" } else { "policy" }), edges, 6, false)
}

fn outline_sheet(nodes: &[u8]) -> Vec<u8> {
    sheet("node kind a b", nodes, 3, true)
}

/// A desk at which these are loaded.
fn loaded(edges: &[u8], nodes: &[u8]) -> Vec<u8> {
    let mut desk = vec![0; DESK_STATE];
    assert_eq!(desk_policies_code(&mut desk, &policies_sheet(edges, 0)), 0);
    if !nodes.is_empty() {
        assert_eq!(desk_outline_code(&mut desk, &outline_sheet(nodes)), 0, "the outline is accepted");
    }
    desk
}

/// A loop of one event of so many, actions from 1 on: two lists of parts for each event, and two more.
fn looped(events: u8) -> Vec<u8> {
    // loop, then the events and a back; the choices come first, each with an event behind it
    let last = 2 * events + 1;
    let mut nodes = vec![5, 1, 0, 3, 2, last];
    for event in 1..events {
        let at = 2 * event;
        nodes.extend([4, at + 1, at + 2, 1, event, 3]);
    }
    nodes.extend([1, events, 3, 6, 0, 0]);
    nodes
}

/// Events one after the other, each sequence inside the one before: one list of parts after each of them.
fn straight(events: u8) -> Vec<u8> {
    let mut nodes = Vec::new();
    for at in 0..events - 1 {
        nodes.extend([3, at + 1, 2 * events - 2 - at]);
    }
    for event in 0..events {
        nodes.extend([1, 1 + event % 7, 3]);
    }
    nodes
}

/// Steps from a desk that others led to, and the judge beside it on the same steps.
struct Case {
    name: String,
    edges: Vec<u8>,
    nodes: Vec<u8>,
    before: Vec<Step>,
    steps: Vec<Step>,
    due: u32,
}

fn cases() -> Vec<Case> {
    let mut cases = Vec::new();
    for count in [0, 64, 256] {
        let edges = inputs::quiet_edges(&mut Rng::new(1), count, 8);
        let case = |name: &str, nodes: Vec<u8>, before: Vec<Step>, steps: Vec<Step>, due: u32| {
            Case { name: format!("desk, {name}: {count} edges"), edges: edges.clone(), nodes, before, steps, due }
        };
        let turns = |events: u32| (0..500).map(|i| [0, 1 + i % events, 3]).collect::<Vec<Step>>();
        let line: Vec<Step> = (0..15).map(|i| [0, 1 + i % 7, 3]).collect();
        cases.push(case("1 position", straight(15), line[..1].to_vec(), line[1..].to_vec(), LEAN));
        cases.push(case("20 positions", looped(9), vec![], turns(9), LEAN));
        cases.push(case("64 positions", looped(31), vec![], turns(31), LEAN));
        cases.push(case("strayed", looped(31), vec![[0, 1, 4]], turns(31), 0));
        cases.push(case("no outline", vec![], vec![], turns(31), 0));
        // a kind that there is none of is refused when all is tested and nothing else is done
        let none = vec![[9, 0, 0]; 500];
        cases.push(case("1 position, tests alone", straight(15), line[..1].to_vec(), none.clone(), NO_STEP));
        cases.push(case("20 positions, tests alone", looped(9), vec![], none.clone(), NO_STEP));
        cases.push(case("64 positions, tests alone", looped(31), vec![], none, NO_STEP));
    }
    cases
}

/// A step at the desk, and the judge's own.
pub fn rows(chosen: impl Fn(&str) -> bool) {
    for Case { name, edges, nodes, before, steps, due } in cases().into_iter().filter(|case| chosen(&case.name)) {
        let mut desk = loaded(&edges, &nodes);
        let mut state = State::start();
        for step in &before {
            assert_eq!(desk_step_code(&mut desk, *step) % LEAN, state.judge_code(&edges, 0, *step));
        }
        let mut other = 0;
        measured(&mut || {
            for step in &steps {
                other |= black_box(desk_step_code(black_box(&mut desk), *step)) ^ due;
            }
        });
        measured(&mut || {
            for step in &steps {
                other |= black_box(state.judge_code(black_box(&edges), 0, *step)) ^ (due % LEAN);
            }
        });
        assert_eq!(other, 0, "every step of {name} is answered as is due, by the judge that is due");
        println!("{}\t2\t{name}", steps.len());
    }
}

/// A load of an outline, and the check of its table.
pub fn load_rows(chosen: impl Fn(&str) -> bool) {
    for (name, outlines) in outlines::cases().into_iter().map(|(name, outlines)| (format!("desk load, {name}"), outlines)) {
        if !chosen(&name) || name.contains("growth") {
            continue;
        }
        let desk = |outline: &Outline| {
            let mut desk = vec![0; DESK_STATE];
            assert_eq!(desk_policies_code(&mut desk, &policies_sheet(&outline.edges, outline.local)), 0);
            desk
        };
        let mut desks: Vec<Vec<u8>> = outlines.iter().map(desk).collect();
        let sheets: Vec<Vec<u8>> = outlines.iter().map(|outline| outline_sheet(&outline.nodes)).collect();
        let mut codes = Vec::new();
        measured(&mut || {
            for (desk, sheet) in desks.iter_mut().zip(&sheets) {
                codes.push(black_box(desk_outline_code(black_box(desk), black_box(sheet))));
            }
        });
        measured(&mut || {
            for (outline, code) in outlines.iter().zip(&codes) {
                assert_eq!(black_box(check_code(black_box(&outline.edges), outline.local, black_box(&outline.nodes))), *code);
            }
        });
        println!("{}\t2\t{name}", outlines.len());
    }
}

/// The answers at the desk are the judge's, on steps on the outlines and off them: how many.
pub fn verify(rng: &mut Rng) -> usize {
    let mut compared = 0;
    for Case { edges, nodes, before, steps, .. } in cases() {
        let mut desk = loaded(&edges, &nodes);
        let mut state = State::start();
        for step in before.iter().chain(&steps).copied().chain(inputs::wild_steps(rng, 200)) {
            assert_eq!(desk_step_code(&mut desk, step) % LEAN, state.judge_code(&edges, 0, step), "{step:?}");
            compared += 1;
        }
    }
    compared
}
