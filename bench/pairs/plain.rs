// The sets of two pair policies, plain: the same layout as monitor_pairs, each change written as a plain Rust program would be.
pub const PLACES: usize = 82;
pub const UNUSED: usize = 16;
pub const RETIRED: usize = 17;
pub const CELLS: usize = PLACES * PLACES;
pub const LANES: usize = 16;
pub const STAY: [u8; 8] = [1, 2, 4, 8, 16, 32, 64, 128];

pub type Sets = [u8; CELLS];

// Where a state goes, in each of the four ways in which two places see the event.
#[derive(Clone, Copy)]
pub struct Rows {
    pub neither: [u8; 8],
    pub first: [u8; 8],
    pub second: [u8; 8],
    pub both: [u8; 8],
}

pub fn union(sets: &Sets, len: usize) -> u8 {
    let mut all = [0u8; LANES];
    let (lanes, rest) = sets[..len].as_chunks::<LANES>();
    for v in lanes {
        for j in 0..LANES {
            all[j] |= v[j];
        }
    }
    all.iter().chain(rest).fold(0, |a, x| a | x)
}

#[inline(always)]
fn pick(x: u8, m: u8, row: u8) -> u8 {
    if x & m != 0 { row } else { 0 }
}

#[inline(always)]
fn by_eight(x: u8, r: &[u8; 8]) -> u8 {
    (0..8).fold(0, |a, q| a | pick(x, STAY[q], r[q]))
}

#[inline(never)]
fn move_two(sets: &mut Sets, len: usize, keep: u8, a: u8, ra: u8, b: u8, rb: u8) -> u8 {
    let mut all = 0;
    for x in &mut sets[..len] {
        let y = *x & keep | pick(*x, a, ra) | pick(*x, b, rb);
        *x = y;
        all |= y;
    }
    all
}

#[inline(never)]
fn move_eight(sets: &mut Sets, len: usize, a: u8, b: u8, c: u8, d: u8, e: u8, f: u8, g: u8, h: u8) -> u8 {
    let mut all = 0;
    for x in &mut sets[..len] {
        let v = *x;
        let y = pick(v, 1, a) | pick(v, 2, b) | pick(v, 4, c) | pick(v, 8, d) | pick(v, 16, e) | pick(v, 32, f) | pick(v, 64, g) | pick(v, 128, h);
        *x = y;
        all |= y;
    }
    all
}

fn move_run(sets: &mut Sets, len: usize, t: &[u8; 8]) -> u8 {
    let (mut count, mut at) = (0, [0usize; 8]);
    for q in 0..8 {
        if t[q] != STAY[q] {
            at[count] = q;
            count += 1;
        }
    }
    match count {
        0 => union(sets, len),
        1 => move_two(sets, len, !STAY[at[0]], STAY[at[0]], t[at[0]], 0, 0),
        2 => move_two(sets, len, !(STAY[at[0]] | STAY[at[1]]), STAY[at[0]], t[at[0]], STAY[at[1]], t[at[1]]),
        _ => move_eight(sets, len, t[0], t[1], t[2], t[3], t[4], t[5], t[6], t[7]),
    }
}

fn stays(r: &Rows) -> bool {
    r.neither == STAY && r.first == STAY && r.second == STAY && r.both == STAY
}

fn move_sets(sets: &mut Sets, n: usize, at: usize, r: &Rows) -> u8 {
    let len = n * PLACES;
    if stays(r) {
        return union(sets, len);
    }
    let k = at * PLACES;
    let own = by_eight(sets[k + at], &r.both);
    let mut column = [0u8; PLACES];
    for x in 0..n {
        column[x] = sets[x * PLACES + at];
        sets[x * PLACES + at] = 0;
    }
    let mut row = [0u8; PLACES];
    row.copy_from_slice(&sets[k..k + PLACES]);
    sets[k..k + PLACES].fill(0);
    column[at] = 0;
    row[at] = 0;
    let mut all = own | move_run(sets, len, &r.neither);
    for y in 0..PLACES {
        row[y] = by_eight(row[y], &r.first);
        column[y] = by_eight(column[y], &r.second);
        all |= row[y] | column[y];
    }
    for x in 0..n {
        sets[x * PLACES + at] = column[x];
    }
    sets[k..k + PLACES].copy_from_slice(&row);
    sets[k + at] = own;
    all
}

fn copy_rows(to: &mut Sets, from: &Sets, n: usize) {
    for x in 0..n {
        let mut row = [0u8; PLACES];
        row.copy_from_slice(&from[x * PLACES..(x + 1) * PLACES]);
        to[x * PLACES..(x + 1) * PLACES].copy_from_slice(&row);
    }
}

// Both policies move, and go back to what they were where a state above 6 may be come to.
pub fn event(sets: &mut [Sets; 2], old: &mut [Sets; 2], n: usize, at: usize, r: &[Rows; 2]) -> u8 {
    let mut bad = 0;
    for p in 0..2 {
        if !stays(&r[p]) {
            copy_rows(&mut old[p], &sets[p], n);
        }
        bad |= move_sets(&mut sets[p], n, at, &r[p]);
    }
    if bad >= 128 {
        for p in 0..2 {
            if !stays(&r[p]) {
                copy_rows(&mut sets[p], &old[p], n);
            }
        }
    }
    bad
}

pub fn create(sets: &mut Sets, n: usize) {
    sets.copy_within(UNUSED * PLACES..(UNUSED + 1) * PLACES, n * PLACES);
}

pub fn reset(sets: &mut Sets, n: usize) {
    sets[..n * PLACES].fill(1);
}

pub fn retire(sets: &mut Sets, n: usize, at: usize) {
    for y in 0..PLACES {
        sets[RETIRED * PLACES + y] |= sets[at * PLACES + y];
    }
    for x in 0..n {
        let k = x * PLACES;
        sets[k + RETIRED] |= sets[k + at];
        for y in at..PLACES - 1 {
            sets[k + y] = sets[k + y + 1];
        }
        sets[k + PLACES - 1] = sets[k + UNUSED];
    }
    sets.copy_within((at + 1) * PLACES..n * PLACES, at * PLACES);
}

// One cell after the other, to compare with.
pub fn cells(sets: &mut Sets, n: usize, at: usize, r: &Rows) -> u8 {
    let mut all = 0;
    for x in 0..n {
        for y in 0..PLACES {
            let rows = match (x == at, y == at) {
                (true, true) => &r.both,
                (true, false) => &r.first,
                (false, true) => &r.second,
                _ => &r.neither,
            };
            let w = by_eight(sets[x * PLACES + y], rows);
            sets[x * PLACES + y] = w;
            all |= w;
        }
    }
    all
}
