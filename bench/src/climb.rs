//! Looks for outlines whose check is much work, or whose counterexample is.

use crate::inputs::{self, Outline};
use crate::{modelcheck, outlines, shortest};
use reference::rng::Rng;
use std::sync::atomic::Ordering;
use std::time::{Duration, Instant};
use wiforekun::COUNTEREXAMPLE_ROOM;

/// Under which meaning, and whether the counterexample is to be much work: then an outline that is accepted does not count.
#[derive(Clone, Copy)]
pub struct Aim {
    pub local: u32,
    pub trace: bool,
}

/// About how much work an outline is, or 0 where it does not count.
fn work(outline: &Outline, aim: Aim) -> u64 {
    modelcheck::WORK.store(0, Ordering::Relaxed);
    let Outline { edges, local, nodes } = outline;
    let counts = match aim.trace {
        true => shortest::explain(edges, *local, nodes, &mut [0; COUNTEREXAMPLE_ROOM]) / 256 % 256 == 1,
        false => modelcheck::check(edges, *local, nodes) / 256 != 2,
    };
    if counts {
        modelcheck::WORK.load(Ordering::Relaxed)
    } else {
        0
    }
}

/// Changes an outline and keeps what is more work, over and over: so many turns, or until the time is over. At first what is a little less
/// work is kept too, so that a way from one height to a greater one is found. The same seed and turns give the same outline, if the time is
/// enough.
pub fn climb(seed: u64, turns: u64, time: Duration, aim: Aim) {
    let end = Instant::now() + time;
    let mut rng = Rng::new(seed);
    let mut at = Outline { local: aim.local, ..first(&mut rng, seed, aim) };
    let (mut height, mut turn) = (work(&at, aim), 0);
    let (mut best, mut most) = (at.clone(), height);
    while turn < turns && Instant::now() < end {
        let mut next = at.clone();
        for _ in 0..rng.between(1, 4) {
            change(&mut rng, &mut next);
        }
        let found = work(&next, aim);
        // from a twentieth down to nothing at the half of the turns
        let less = height / 20 * turns.saturating_sub(2 * turn) / turns;
        if found > 0 && found + rng.below(less + 1) >= height {
            (at, height) = (next, found);
        }
        if height > most {
            (best, most) = (at.clone(), height);
        }
        turn += 1;
        if turn == turns / 2 {
            (at, height) = (best.clone(), most);
        }
    }
    eprintln!("work {most} after {turn} turns, {} edges", best.edges.len() / 6);
    for table in [&best.nodes, &best.edges] {
        println!("{}", table.iter().map(u8::to_string).collect::<Vec<_>>().join(" "));
    }
}

/// Where a climb begins: the dearest known, the hard one, or a random one.
fn first(rng: &mut Rng, seed: u64, aim: Aim) -> Outline {
    match (seed % 3, aim.trace) {
        (0, true) => outlines::dearest_trace(),
        (0, false) => outlines::dearest(aim.local),
        (1, true) => inputs::hard_refused(rng, 64, 7),
        (1, false) => inputs::hard(rng, 64),
        _ => inputs::grown(rng, 64, 256, !aim.trace),
    }
}

fn change(rng: &mut Rng, outline: &mut Outline) {
    let k = 3 * rng.below(outline.nodes.len() as u64 / 3) as usize;
    let i = 6 * rng.below(outline.edges.len() as u64 / 6) as usize;
    match rng.below(10) {
        0..=2 => {
            let loops: Vec<u8> = (0..outline.nodes.len() / 3).filter(|n| outline.nodes[3 * n] == 5).map(|n| n as u8).collect();
            let node = &mut outline.nodes[k..k + 3];
            let new = match node[0] {
                0 | 1 | 2 | 6 => match rng.below(4) {
                    0 => [0, 0, 0],
                    1 => [1, rng.between(1, 5) as u8, rng.below(16) as u8],
                    2 => [2, rng.between(1, 5) as u8, rng.below(4) as u8],
                    _ if !loops.is_empty() => [6, rng.pick(&loops), 0],
                    _ => return,
                },
                3 => [4, node[1], node[2]],
                4 => [3, node[2], node[1]],
                5 => [8, rng.below(8) as u8, node[1]],
                7 => [rng.pick(&[7, 8]), rng.below(4) as u8, node[2]],
                _ => match rng.below(3) {
                    0 => [5, node[2], 0],
                    1 => [7, rng.below(4) as u8, node[2]],
                    _ => [8, rng.below(8) as u8, node[2]],
                },
            };
            node.copy_from_slice(&new);
        }
        3 => {
            // two subtrees change places; a table that is then no tree is refused
            let j = 3 * rng.below(outline.nodes.len() as u64 / 3) as usize;
            if let (Some(first), Some(second)) = (child(rng, outline.nodes[k]), child(rng, outline.nodes[j])) {
                outline.nodes.swap(k + first, j + second);
            }
        }
        _ if outline.edges.is_empty() => {}
        4 if outline.edges.len() < 6 * 256 => {
            let edge = outline.edges[i..i + 6].to_vec();
            outline.edges.extend(edge);
        }
        5 => outline.edges[i] = rng.below(8) as u8,
        6 => outline.edges[i + 1] = rng.below(8) as u8,
        7 => outline.edges[i + 2] = rng.below(6) as u8,
        8 => {
            outline.edges[i + 3] = rng.between(1, 2) as u8;
            outline.edges[i + 4] = 0;
        }
        _ => outline.edges[i + 5] = rng.below(8) as u8,
    }
}

/// The field of a node that has a child of it.
fn child(rng: &mut Rng, kind: u8) -> Option<usize> {
    match kind {
        3 | 4 => Some(rng.between(1, 2) as usize),
        5 => Some(1),
        7 | 8 => Some(2),
        _ => None,
    }
}
