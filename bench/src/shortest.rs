//! Plain Rust: the check with a counterexample, as crates/checker_lengths, checker_trace and checker have it.

use crate::modelcheck::{arrive, check, come_to, count, fill_rows, forget, later, least, node, readers, Node, Table, Watch};

/// The aims of a node: to end in a state, the watched resource not created or created, or to break the policy.
const BROKEN: usize = 16;
const AIMS: usize = BROKEN + 1;
/// The greatest length that counts, and what stands where there is none.
const MOST: u8 = 200;
const NONE: u8 = 255;
const ROOM: usize = 600;
const WATCHED: usize = 16;

/// A byte for each aim of each start of each node, the policy being open or not. Only what is come to is filled.
type Lengths = [u8; SIZE];
const SIZE: usize = 2 * 64 * 48 * AIMS;

/// Where a node is begun: the policy open or not, the meaning and the state.
#[derive(Clone, Copy)]
struct Start {
    node: usize,
    open: bool,
    meaning: usize,
    state: usize,
}

impl Start {
    fn place(self, aim: usize) -> usize {
        let node = if self.open { 64 + self.node } else { self.node };
        (node * 48 + 8 * self.meaning + self.state) * AIMS + aim
    }

    fn at(self, node: usize) -> Start {
        Start { node, ..self }
    }

    /// The second node of a sequence, after its first has ended in way c.
    fn second(self, node: usize, c: usize) -> Start {
        let meaning = if c < 8 { 0 } else { later(self.meaning) };
        Start { node, meaning, state: c % 8, ..self }
    }

    /// The body of a fresh node, after the creation of another resource or of the watched one.
    fn body(self, name: usize, node: usize, c: usize) -> Start {
        let meaning = if c < 8 { forget(self.meaning, name) } else { name + 1 };
        Start { node, meaning, state: c % 8, ..self }
    }

    /// The body of a sandbox of a policy. Where it is the watched one, which was not open, its opening resets if it sees only its sandbox.
    fn inner(self, watch: Watch, policy: usize, node: usize) -> Start {
        let same = policy == watch.policy;
        let reset = watch.local && same && !self.open;
        Start { node, open: self.open || same, state: if reset { 0 } else { self.state }, ..self }
    }

    /// Where the ends begin that it can come to.
    fn low(self) -> usize {
        if self.meaning == 0 {
            0
        } else {
            8
        }
    }
}

fn get(t: &Lengths, most: u8, start: Start, aim: usize) -> u8 {
    let v = t[start.place(aim)];
    if v < most {
        v
    } else {
        NONE
    }
}

fn plus(a: u8, b: u8) -> u8 {
    if a > MOST || b > MOST - a {
        NONE
    } else {
        a + b
    }
}

fn one_if(b: bool) -> u8 {
    if b {
        1
    } else {
        NONE
    }
}

fn moved(rows: &Table, start: Start, own: bool) -> u16 {
    rows[48 * start.node + if own { 8 } else { 0 } + start.state]
}

fn born(rows: &Table, start: Start, own: bool) -> u16 {
    if own && start.meaning > 0 {
        0
    } else {
        moved(rows, start, own)
    }
}

fn breaking(v: u16, start: Start, aim: usize) -> u8 {
    one_if(aim == BROKEN && start.open && v % 256 >= 64)
}

fn event(v: u16, start: Start, aim: usize, c: usize) -> u8 {
    if c > 0 {
        return breaking(v, start, aim);
    }
    let low = start.low();
    one_if((low..low + 8).contains(&aim) && v >> (aim - low) & 1 == 1)
}

/// What rule c of a node gives, by the lengths below `most`.
fn offer(t: &Lengths, rows: &Table, watch: Watch, most: u8, node: Node, start: Start, aim: usize, c: usize) -> u8 {
    let Node { kind, a, b, .. } = node;
    match kind {
        0 if aim == start.low() + start.state => 0,
        1 => event(moved(rows, start, b == watch.resource), start, aim, c),
        2 => event(moved(rows, start, start.meaning == b + 1), start, aim, c),
        3 if c < BROKEN => plus(get(t, most, start.at(a), c), get(t, most, start.second(b, c), aim)),
        3 if aim == BROKEN => get(t, most, start.at(a), aim),
        4 => get(t, most, start.at(if c == 0 { a } else { b }), aim),
        5 | 6 => get(t, most, start.at(a), aim),
        7 if c >= BROKEN => breaking(born(rows, start, c > BROKEN), start, aim),
        7 if born(rows, start, c >= 8) >> (c % 8) & 1 == 1 => plus(1, get(t, most, start.body(a, b, c), aim)),
        8 if c == 0 => {
            let around = if aim == BROKEN { 1 } else { 2 };
            plus(around, get(t, most, start.inner(watch, a, b), aim))
        }
        8 => one_if(aim == BROKEN && a == watch.policy && start.inner(watch, a, b).state >= 6),
        _ => NONE,
    }
}

/// Can rule c give anything from this start?
fn gives(rows: &Table, node: Node, start: Start, c: usize) -> bool {
    match node.kind {
        7 if c < BROKEN => born(rows, start, c >= 8) >> (c % 8) & 1 == 1,
        _ => true,
    }
}

fn ways(kind: u8) -> usize {
    match kind {
        0 | 5 | 6 => 1,
        1 | 2 | 4 | 8 => 2,
        3 => AIMS,
        7 => AIMS + 1,
        _ => 0,
    }
}

/// An entry set to v, if that is less.
fn put(t: &mut Lengths, start: Start, aim: usize, v: u8) -> bool {
    let entry = &mut t[start.place(aim)];
    let less = v < *entry;
    if less {
        *entry = v;
    }
    less
}

/// What the first node takes to end in way c is asked once for all aims.
fn settle_sequence(t: &mut Lengths, node: Node, start: Start, c: usize) -> bool {
    let v = get(t, MOST + 1, start.at(node.a), c);
    if v > MOST {
        return false;
    }
    let from = start.second(node.b, c);
    count((AIMS - start.low()) as u64);
    let mut changed = false;
    for aim in start.low()..AIMS {
        let sum = plus(v, get(t, MOST + 1, from, aim));
        changed |= put(t, start, aim, sum);
    }
    changed
}

fn settle_rule(t: &mut Lengths, rows: &Table, watch: Watch, node: Node, start: Start, c: usize) -> bool {
    count(1);
    if node.kind == 3 && c < BROKEN {
        return settle_sequence(t, node, start, c);
    }
    let mut changed = false;
    if gives(rows, node, start, c) {
        count(3 * (AIMS - start.low()) as u64);
        for aim in start.low()..AIMS {
            let v = offer(t, rows, watch, MOST + 1, node, start, aim, c);
            changed |= put(t, start, aim, v);
        }
    }
    changed
}

fn settle_start(t: &mut Lengths, rows: &Table, watch: Watch, node: Node, start: Start) -> bool {
    let mut changed = false;
    for c in 0..ways(node.kind) {
        changed |= settle_rule(t, rows, watch, node, start, c);
    }
    changed
}

/// The starts of a node that are come to, by the table u.
fn settle_node(t: &mut Lengths, rows: &Table, u: &Table, watch: Watch, node: Node) -> bool {
    let mut changed = false;
    for meaning in watch.least..6 {
        for open in [false, true] {
            let states = come_to(u, node.number, open, meaning);
            count(2);
            for state in (0..8).filter(|q| states >> q & 1 == 1) {
                changed |= settle_start(t, rows, watch, node, Start { node: node.number, open, meaning, state });
            }
        }
    }
    changed
}

/// A node is settled again only where the lengths of a node that its rule reads have changed. The nodes that are left are gone through in
/// rounds, from the highest to the lowest.
fn fill(t: &mut Lengths, nodes: &[u8], rows: &Table, u: &Table, watch: Watch) {
    *t = [NONE; SIZE];
    let readers = readers(nodes);
    let mut left = u64::MAX >> (64 - nodes.len() / 3);
    let mut k = 0;
    while left != 0 {
        let below = left & ((1 << k) - 1);
        k = 63 - (if below == 0 { left } else { below }).leading_zeros() as usize;
        left -= 1 << k;
        if settle_node(t, rows, u, watch, node(nodes, k)) {
            left |= readers[k];
        }
    }
}

/// What is written so far, and the number of the next fresh resource.
struct Writer<'a> {
    t: &'a Lengths,
    nodes: &'a [u8],
    rows: &'a Table,
    watch: Watch,
    trace: &'a mut [u32],
    at: usize,
    next: u32,
}

impl Writer<'_> {
    fn step(&mut self, step: [u32; 3]) {
        self.trace[3 * self.at..][..3].copy_from_slice(&step);
        self.at += 1;
    }

    /// Can a node end with no step?
    fn idle(&self, start: Start) -> bool {
        get(self.t, 1, start, start.low() + start.state) == 0
    }

    /// Can the second node of a sequence, begun where the whole is to end? Where the whole begins it need not be come to.
    fn idle_after(&self, start: Start, aim: usize, b: usize) -> bool {
        get(self.t, 1, start.second(b, aim), aim) == 0
    }

    /// The nodes that a node leads to with no step, as a set.
    fn leads(&self, start: Start, aim: usize, k: usize) -> u64 {
        let Node { kind, a, b, .. } = node(self.nodes, k);
        let bit_if = |there: bool, k: usize| u64::from(there) << k;
        match kind {
            3 => bit_if(aim == BROKEN || self.idle_after(start, aim, b), a) | bit_if(self.idle(start.at(a)), b),
            4 => 1 << a | 1 << b,
            5 | 6 => 1 << a,
            _ => 0,
        }
    }

    fn closure(&self, start: Start, aim: usize) -> u64 {
        let mut s = 1 << start.node;
        loop {
            let mut r = s;
            count(self.nodes.len() as u64 / 3);
            for k in 0..self.nodes.len() / 3 {
                if r >> k & 1 == 1 {
                    r |= self.leads(start, aim, k);
                }
            }
            if r == s {
                return s;
            }
            s = r;
        }
    }

    /// A node, and a rule there that gives n by entries of fewer steps.
    fn find(&self, start: Start, aim: usize, n: u8) -> Option<(usize, usize)> {
        let s = self.closure(start, aim);
        let rule = |k: usize| {
            let node = node(self.nodes, k);
            count(3 * ways(node.kind) as u64);
            let gives = |c: &usize| offer(self.t, self.rows, self.watch, n, node, start.at(k), aim, *c) == n;
            (0..ways(node.kind)).find(gives)
        };
        (0..self.nodes.len() / 3).filter(|k| s >> k & 1 == 1).find_map(|k| Some((k, rule(k)?)))
    }

    /// The steps of an entry of n steps.
    fn write(&mut self, start: Start, aim: usize, n: u8, names: [u32; 4]) {
        if n == 0 {
            return;
        }
        let Some((k, c)) = self.find(start, aim, n) else { return };
        let Node { kind, a, b, .. } = node(self.nodes, k);
        match kind {
            1 => self.step([0, a as u32, b as u32]),
            2 => self.step([0, a as u32, names[b]]),
            3 => {
                let v = get(self.t, n, start.at(a), c);
                self.write(start.at(a), c, v, names);
                self.write(start.second(b, c), aim, n - v, names);
            }
            7 => {
                let mut given = names;
                given[a] = self.next;
                self.step([0, 0, self.next]);
                self.next += 1;
                if c < BROKEN {
                    self.write(start.body(a, b, c), aim, n - 1, given);
                }
            }
            8 => {
                self.step([1, a as u32, 0]);
                let inner = start.inner(self.watch, a, b);
                if c == 0 && aim == BROKEN {
                    self.write(inner, aim, n - 1, names);
                } else if c == 0 {
                    self.write(inner, aim, n - 2, names);
                    self.step([2, a as u32, 0]);
                }
            }
            _ => {}
        }
    }
}

/// A static that no node names moves as a dynamic resource that is never created.
fn names_static(nodes: &[u8], resource: usize) -> bool {
    nodes.chunks_exact(3).any(|node| node[0] == 1 && usize::from(node[2]) == resource)
}

fn root(watch: Watch) -> Start {
    Start { node: 0, open: false, meaning: watch.least, state: 0 }
}

/// A shortest trace that leaves the policy open and not respected; how many steps are written, or 0.
fn write_shortest(edges: &[u8], local: bool, nodes: &[u8], policy: usize, trace: &mut [u32]) -> u32 {
    let mut rows = [0; 3072];
    fill_rows(&mut rows, edges, nodes, policy);
    let watched = |resource: &usize| *resource == WATCHED || names_static(nodes, *resource);
    let watches = (0..=WATCHED).filter(watched).map(|resource| Watch { local, policy, resource, least: least(resource) });
    // one table, for one resource after the other
    let mut t = [NONE; SIZE];
    let (mut shortest, mut length, mut kept) = (None, NONE, false);
    for watch in watches {
        let Some(u) = arrive(nodes, &rows, watch) else { continue };
        fill(&mut t, nodes, &rows, &u, watch);
        let v = get(&t, MOST + 1, root(watch), BROKEN);
        kept = v < length;
        if kept {
            (shortest, length) = (Some(watch), v);
        }
    }
    let Some(watch) = shortest else { return 0 };
    if !kept {
        let Some(u) = arrive(nodes, &rows, watch) else { return 0 };
        fill(&mut t, nodes, &rows, &u, watch);
    }
    Writer { t: &t, nodes, rows: &rows, watch, trace, at: 0, next: 16 }.write(root(watch), BROKEN, length, [0; 4]);
    length.into()
}

/// As `check`, and 65536 times the number of steps that were written.
pub fn explain(edges: &[u8], local: u32, nodes: &[u8], trace: &mut [u32]) -> u32 {
    if trace.len() < ROOM {
        return 512 + 40;
    }
    let code = check(edges, local, nodes);
    match code / 256 {
        1 => code + 65536 * write_shortest(edges, local == 1, nodes, code as usize % 256, trace),
        _ => code,
    }
}
