// pairs verify; pairs PROGRAM CASE PLACES [AT]: one call of `measured`, with the archive's functions (proved) or those of plain.rs (plain).
mod plain;
use plain::{Rows, Sets, CELLS, PLACES, RETIRED, STAY, UNUSED};
use std::hint::black_box;

extern "C" {
    fn pairs_lead(s: *mut u8, n: usize, at: usize, creates: bool, r: *const u8, q: *const u8) -> u32;
    fn pairs_take(s: *mut u8, n: usize, at: usize, creates: bool, r: *const u8, q: *const u8);
    fn pairs_reset(s: *mut u8, n: usize);
    fn pairs_retire(s: *mut u8, n: usize, at: usize);
}

fn flat(r: &Rows) -> [u8; 32] {
    let mut f = [0u8; 32];
    f[..8].copy_from_slice(&r.neither);
    f[8..16].copy_from_slice(&r.first);
    f[16..24].copy_from_slice(&r.second);
    f[24..].copy_from_slice(&r.both);
    f
}

fn base(s: &mut [Sets; 2]) -> *mut u8 {
    s.as_mut_ptr() as *mut u8
}

// What each policy may be in once the event is taken.
fn lead(s: &mut [Sets; 2], n: usize, at: usize, creates: bool, r: &[[u8; 32]; 2]) -> [u8; 2] {
    let both = unsafe { pairs_lead(base(s), n, at, creates, r[0].as_ptr(), r[1].as_ptr()) };
    [both as u8, (both >> 8) as u8]
}

// What the judge does: it looks at what the event leads to, and moves the sets where nothing is broken.
fn event(s: &mut [Sets; 2], n: usize, at: usize, creates: bool, r: &[[u8; 32]; 2]) -> u8 {
    let [p, q] = lead(s, n, at, creates, r);
    if p | q < 128 {
        unsafe { pairs_take(base(s), n, at, creates, r[0].as_ptr(), r[1].as_ptr()) };
    }
    p | q
}

struct Case<'a> {
    sets: &'a mut [Sets; 2],
    old: &'a mut [Sets; 2],
    n: usize,
    at: usize,
    rows: [Rows; 2],
    flat: [[u8; 32]; 2],
}

#[inline(never)]
fn measured(c: &mut Case, proved: bool, what: &str) -> u8 {
    match (what, proved) {
        ("create", true) => return event(c.sets, c.n, c.n - 1, true, &c.flat),
        ("create", false) => {
            (0..2).for_each(|p| plain::create(&mut c.sets[p], c.n - 1));
            return plain::event(c.sets, c.old, c.n, c.n - 1, &c.rows);
        }
        ("reset", true) => unsafe { pairs_reset(base(c.sets), c.n) },
        ("reset", false) => (0..2).for_each(|p| plain::reset(&mut c.sets[p], c.n)),
        ("retire", true) => unsafe { pairs_retire(base(c.sets), c.n, c.at) },
        ("retire", false) => (0..2).for_each(|p| plain::retire(&mut c.sets[p], c.n, c.at)),
        (_, true) => return event(c.sets, c.n, c.at, false, &c.flat),
        (_, false) => return plain::event(c.sets, c.old, c.n, c.at, &c.rows),
    }
    0
}

fn rows(case: &str) -> Rows {
    let with = |q: usize, to: u8| {
        let mut r = STAY;
        r[q] = to;
        r
    };
    let all: [u8; 8] = [2, 4, 8, 16, 32, 1, 1, 1];
    let mut both = with(0, 2);
    both[1] = 4;
    match case {
        "own" => Rows { neither: STAY, first: with(0, 2), second: with(1, 4), both },
        "other" => Rows { neither: with(1, 4), first: with(0, 2), second: with(1, 4), both },
        "two" => Rows { neither: both, first: with(0, 2), second: with(1, 4), both },
        "all" => Rows { neither: all, first: all, second: all, both: all },
        _ => Rows { neither: STAY, first: STAY, second: STAY, both: STAY },
    }
}

// Random events, creations, retirings and resets, held to the plain program, and each event also to one cell after the other.
fn verify() {
    let mut seed = 11u64;
    let mut next = |m: u64| {
        seed = seed.wrapping_mul(6364136223846793005).wrapping_add(1442695040888963407);
        (seed >> 33) % m
    };
    let mut s = Box::new([[1u8; CELLS]; 2]);
    let (mut t, mut old) = (s.clone(), s.clone());
    let mut n = 18usize;
    let stay = [flat(&rows("")), flat(&rows(""))];
    let mut counts = [0usize; 5];
    for _ in 0..40000 {
        match next(10) {
            0..=5 => {
                let mut q = [rows(""); 2];
                for p in 0..2 {
                    for f in [&mut q[p].neither, &mut q[p].first, &mut q[p].second, &mut q[p].both] {
                        if next(2) == 0 {
                            continue;
                        }
                        let often = if next(3) == 0 { 2 } else { 5 };
                        for k in 0..8 {
                            if next(often) == 0 {
                                let most = if next(200) == 0 { 8 } else { 7 };
                                f[k] = 1 << next(most) | if next(4) == 0 { 1 << next(7) } else { 0 };
                            }
                        }
                    }
                }
                let at = match next(n as u64) as usize {
                    UNUSED | RETIRED => 3,
                    k => k,
                };
                let mut u = t.clone();
                let x = plain::cells(&mut u[0], n, at, &q[0]) | plain::cells(&mut u[1], n, at, &q[1]);
                let y = event(&mut s, n, at, false, &[flat(&q[0]), flat(&q[1])]);
                let z = plain::event(&mut t, &mut old, n, at, &q);
                assert!(x == y && y == z);
                counts[if x >= 128 { 1 } else { 0 }] += 1;
                assert!(x >= 128 || (0..2).all(|p| u[p][..n * PLACES] == s[p][..n * PLACES]));
            }
            6 | 7 if n < PLACES => {
                (0..2).for_each(|p| plain::create(&mut t[p], n));
                n += 1;
                event(&mut s, n, n - 1, true, &stay);
                counts[2] += 1;
            }
            8 if n > 18 && next(2) == 0 => {
                let at = 18 + next((n - 18) as u64) as usize;
                (0..2).for_each(|p| plain::retire(&mut t[p], n, at));
                unsafe { pairs_retire(base(&mut s), n, at) };
                n -= 1;
                counts[3] += 1;
            }
            9 if next(20) == 0 => {
                (0..2).for_each(|p| plain::reset(&mut t[p], n));
                unsafe { pairs_reset(base(&mut s), n) };
                counts[4] += 1;
            }
            _ => {}
        }
        let gathered = lead(&mut s, n, 3, false, &stay);
        for p in 0..2 {
            assert!(s[p][..n * PLACES] == t[p][..n * PLACES]);
            assert!(plain::union(&t[p], n * PLACES) == gathered[p]);
        }
    }
    println!("equal on {} events, {} more refused, {} creations, {} retirings, {} resets", counts[0], counts[1], counts[2], counts[3], counts[4]);
}

fn main() {
    let a: Vec<String> = std::env::args().collect();
    if a[1] == "verify" {
        return verify();
    }
    let n: usize = a[3].parse().unwrap();
    let at = if a.len() > 4 { a[4].parse().unwrap() } else { n - 2 };
    let r = rows(&a[2]);
    let mut sets = Box::new([[1u8; CELLS]; 2]);
    let mut old = Box::new([[0u8; CELLS]; 2]);
    let mut c = Case { sets: &mut sets, old: &mut old, n, at, rows: [r, r], flat: [flat(&r), flat(&r)] };
    println!("{}", measured(black_box(&mut c), black_box(a[1] == "proved"), black_box(&a[2])));
}
