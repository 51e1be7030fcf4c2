//! Outlines typed as expressions (document 02, L13). Which texts are lines, `grammar` says. The nodes of a line are found by splitting it
//! at its signs; the two know nothing of each other.

use crate::grammar::{self, Stop};
use crate::outline::{
    self, Node, BACK, CHOICE, END, FRESH, LOOP, NAMED_EVENT, SANDBOX, SEQUENCE, STATIC_EVENT,
};
use crate::sheet::{Refusal, LONGEST, MOST_NODES, OUTLINE_NAMES};

/// "round and curly brackets, an event's aside, nest at most 32 deep"
pub const MOST_NESTED: usize = 32;

const OUTLINE_REFUSED: u32 = 5;

/// The nodes of an expression, or its refusal.
pub fn read_expression(text: &[u8]) -> Result<Vec<Node>, Refusal> {
    if text.len() > LONGEST {
        return Err(Refusal { number: 5, line: 0 });
    }
    let refuse = |number: u32| Err(Refusal { number, line: 1 });
    match grammar::stop(text, MOST_NESTED) {
        Some(Stop::Wrong(_)) => return refuse(15),
        Some(Stop::Deep(_)) => return refuse(16),
        None => (),
    }
    let mut table = Table::default();
    table.choice(&text[..text.len() - 1]);
    let nodes = table.nodes;
    if nodes.len() > MOST_NODES {
        return refuse(17);
    }
    if !nodes.iter().all(Node::fits) {
        return refuse(3);
    }
    match outline::fault(&nodes) {
        Some((number, _)) => refuse(number),
        None => Ok(nodes),
    }
}

/// What the program that reads an expression prints: its outline sheet, or the refusal as the second program prints one.
pub fn sheet(text: &[u8]) -> String {
    match read_expression(text) {
        Ok(nodes) => {
            let line =
                |node: &Node| format!("{} {} {} {}\n", node.number, node.kind, node.a, node.b);
            format!("{OUTLINE_NAMES}\n{}", nodes.iter().map(line).collect::<String>())
        }
        Err(Refusal { number, line }) => {
            format!("line answer detail\n{line} {OUTLINE_REFUSED} {number}\n")
        }
    }
}

/// The number 15 or 16 of a text, its place, and the bytes that some line has after what is before it.
pub fn stopped(text: &[u8]) -> Option<(u32, usize, Vec<u8>)> {
    let (number, place) = match grammar::stop(text, MOST_NESTED)? {
        Stop::Wrong(place) => (15, place),
        Stop::Deep(place) => (16, place),
    };
    Some((number, place, grammar::following(&text[..place])))
}

/// Direct calls of the reader with the empty text, lent a table of one place too few and of just enough: the call, the answer and its
/// detail.
pub fn borders() -> String {
    let told = |call: usize, places: usize| {
        let room = places >= 3 * MOST_NODES;
        let number = if room { read_expression(b"").map_or_else(|r| r.number, |_| 0) } else { 40 };
        format!("{call} 2 {number}\n")
    };
    told(0, 3 * MOST_NODES - 1) + &told(1, 3 * MOST_NODES)
}

/// The nodes so far, and the loops around the place that is read, each with its label.
#[derive(Default)]
struct Table {
    nodes: Vec<Node>,
    loops: Vec<(u8, u64)>,
}

impl Table {
    fn next(&self) -> u64 {
        self.nodes.len() as u64
    }

    fn push(&mut self, kind: u64, a: u64, b: u64) {
        self.nodes.push(Node { number: self.next(), kind, a, b });
    }

    fn choice(&mut self, text: &[u8]) {
        self.joined(CHOICE, &split(text, b'+'), Table::sequence);
    }

    fn sequence(&mut self, text: &[u8]) {
        self.joined(SEQUENCE, &split(text, b'.'), Table::item);
    }

    /// "Both signs join from the left": the last sign is the root, and before the first part stand all the signs.
    fn joined(&mut self, kind: u64, parts: &[&[u8]], read: fn(&mut Table, &[u8])) {
        let first = self.next();
        let signs = parts.len() as u64 - 1;
        for sign in 0..signs {
            self.push(kind, first + sign + 1, 0);
        }
        for (place, part) in parts.iter().enumerate() {
            if place > 0 {
                self.nodes[(first + signs) as usize - place].b = self.next();
            }
            read(self, part);
        }
    }

    fn item(&mut self, text: &[u8]) {
        let open = text.iter().position(|byte| b"({".contains(byte)).unwrap_or(text.len());
        let inside = text.get(open + 1..text.len() - 1).unwrap_or_default();
        match text[0] {
            b'(' => self.choice(inside),
            b'm' => {
                let number = self.next();
                self.push(LOOP, number + 1, 0);
                self.loops.push((text[1], number));
                self.choice(inside);
                self.loops.pop();
            }
            b'h' => {
                let meant = self.loops.iter().rev().find(|(label, _)| *label == text[1]);
                let target = meant.map_or(self.next(), |(_, number)| *number);
                self.push(BACK, target, 0);
            }
            letter @ (b'f' | b'p') => {
                let kind = if letter == b'f' { FRESH } else { SANDBOX };
                self.push(kind, value(&text[1..open]), self.next() + 1);
                self.choice(inside);
            }
            _ if inside.is_empty() => self.push(END, 0, 0),
            _ => {
                let kind = if inside[0] == b's' { STATIC_EVENT } else { NAMED_EVENT };
                self.push(kind, value(&text[..open]), value(&inside[1..]));
            }
        }
    }
}

fn value(digits: &[u8]) -> u64 {
    digits.iter().fold(0, |value, digit| 10 * value + u64::from(digit - b'0'))
}

/// The parts between the signs that stand in no bracket.
fn split(text: &[u8], sign: u8) -> Vec<&[u8]> {
    let mut depth = 0;
    text.split(|byte| {
        match byte {
            b'(' | b'{' => depth += 1,
            b')' | b'}' => depth -= 1,
            _ => (),
        }
        depth == 0 && *byte == sign
    })
    .collect()
}
