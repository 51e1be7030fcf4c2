//! Reading outlines typed as expressions: the proved reader against a plain recursive one of the same algorithm.

use crate::{measured, rules};
use reference::generate::expressions;
use reference::rng::Rng;
use std::hint::black_box;
use wiforekun::{read_expression_code as proved, NODES_ROOM};

const LONGEST: usize = 32_768;
const MOST_NESTED: u32 = 32;
const MOST_NODES: usize = 64;
const NO_LOOP: u8 = 255;

/// A plain program: the number of a refusal, as the proved reader answers it.
fn plain(text: &[u8], table: &mut [u8]) -> usize {
    if table.len() < NODES_ROOM {
        return 512 + 40;
    }
    if text.len() > LONGEST {
        return 512 + 5;
    }
    let mut reader = Reader { text, at: 0, nodes: [[0; 3]; MOST_NODES], count: 0, loops: [NO_LOOP; 10] };
    let refused = |number: usize| 65536 + 512 + number;
    if let Err(number) = reader.choice(MOST_NESTED) {
        return refused(number);
    }
    if reader.text[reader.at..] != *b"\n" {
        return refused(15);
    }
    if reader.count > MOST_NODES {
        return refused(17);
    }
    let nodes = reader.nodes[..reader.count].as_flattened();
    match rules::expression_fault(nodes) {
        0 => {
            table[..nodes.len()].copy_from_slice(nodes);
            reader.count
        }
        number => refused(number),
    }
}

struct Reader<'a> {
    text: &'a [u8],
    at: usize,
    nodes: [[u8; 3]; MOST_NODES],
    count: usize,
    loops: [u8; 10],
}

impl Reader<'_> {
    fn is(&self, byte: u8) -> bool {
        self.text.get(self.at) == Some(&byte)
    }

    fn take(&mut self, byte: u8) -> Result<(), usize> {
        let here = self.is(byte);
        self.at += usize::from(here);
        if here { Ok(()) } else { Err(15) }
    }

    fn digit(&mut self) -> Option<u8> {
        let digit = self.text.get(self.at).filter(|byte| byte.is_ascii_digit())? - b'0';
        self.at += 1;
        Some(digit)
    }

    fn number(&mut self) -> Result<u8, usize> {
        let first = self.digit().ok_or(15_usize)?;
        Ok(self.digit().map_or(first, |second| 10 * first + second))
    }

    fn push(&mut self, kind: u8, a: u8, b: u8) {
        if let Some(node) = self.nodes.get_mut(self.count) {
            *node = [kind, a, b];
        }
        self.count += 1;
    }

    /// A sign's node is put before those of what it joins, which move up by one.
    fn join(&mut self, kind: u8, start: usize, right: usize) {
        if self.count < MOST_NODES {
            for place in (start..self.count).rev() {
                let [kind, a, b] = self.nodes[place];
                let up = |moves: bool| u8::from(moves);
                let a = a + up(matches!(kind, 3..=5) || (kind == 6 && usize::from(a) >= start));
                self.nodes[place + 1] = [kind, a, b + up(matches!(kind, 3 | 4 | 7 | 8))];
            }
            self.nodes[start] = [kind, start as u8 + 1, right as u8 + 1];
        }
        self.count += 1;
    }

    fn choice(&mut self, nest: u32) -> Result<(), usize> {
        let start = self.count;
        self.sequence(nest)?;
        while self.is(b'+') {
            self.at += 1;
            let right = self.count;
            self.sequence(nest)?;
            self.join(4, start, right);
        }
        Ok(())
    }

    fn sequence(&mut self, nest: u32) -> Result<(), usize> {
        let start = self.count;
        self.item(nest)?;
        while self.is(b'.') {
            self.at += 1;
            let right = self.count;
            self.item(nest)?;
            self.join(3, start, right);
        }
        Ok(())
    }

    fn bracket(&mut self, nest: u32, opens: u8, closes: u8) -> Result<(), usize> {
        self.take(opens)?;
        if nest == 0 {
            return Err(16);
        }
        self.choice(nest - 1)?;
        self.take(closes)
    }

    fn item(&mut self, nest: u32) -> Result<(), usize> {
        match self.text.get(self.at).copied().unwrap_or(0) {
            b'(' => self.bracket(nest, b'(', b')'),
            b'm' => self.looped(nest),
            b'h' => {
                self.at += 1;
                let label = self.digit().ok_or(15_usize)?;
                let meant = self.loops[usize::from(label)];
                let target = if meant == NO_LOOP { self.count.min(255) as u8 } else { meant };
                self.push(6, target, 0);
                Ok(())
            }
            letter @ (b'f' | b'p') => {
                self.at += 1;
                let value = self.number()?;
                if !self.is(b'{') {
                    return Err(15);
                }
                self.push(if letter == b'f' { 7 } else { 8 }, value, (self.count + 1).min(255) as u8);
                self.bracket(nest, b'{', b'}')
            }
            b'0'..=b'9' => self.event(),
            _ => Err(15),
        }
    }

    fn looped(&mut self, nest: u32) -> Result<(), usize> {
        self.at += 1;
        let label = usize::from(self.digit().ok_or(15_usize)?);
        if !self.is(b'{') {
            return Err(15);
        }
        let before = self.loops[label];
        self.loops[label] = self.count.min(usize::from(NO_LOOP)) as u8;
        self.push(5, (self.count + 1).min(255) as u8, 0);
        self.bracket(nest, b'{', b'}')?;
        self.loops[label] = before;
        Ok(())
    }

    fn event(&mut self) -> Result<(), usize> {
        let start = self.at;
        let action = self.number()?;
        if !self.is(b'(') {
            if action == 0 && self.at == start + 1 {
                self.push(0, 0, 0);
                return Ok(());
            }
            return Err(15);
        }
        self.at += 1;
        let kind = if self.is(b's') { 1 } else { 2 };
        self.take(if kind == 1 { b's' } else { b'n' })?;
        let on = self.number()?;
        self.take(b')')?;
        self.push(kind, action, on);
        Ok(())
    }
}

struct Case {
    name: &'static str,
    text: Vec<u8>,
}

fn cases() -> Vec<Case> {
    let line = |text: String| (text + "\n").into_bytes();
    let events: Vec<String> = (0..31).map(|n| format!("{}(s{})", n % 31 + 1, n % 16)).collect();
    let loops = |depth: usize, inside: &str| "m1{".repeat(depth) + inside + &"}".repeat(depth);
    let rounds = "f0{1(n0).m2{0+2(n0).h2}.3(n0)}";
    vec![
        Case { name: "expression: 32768 bytes, one choice of ends", text: line("0+".repeat(16_383) + "0") },
        Case { name: "expression: 32768 bytes, one sequence of events", text: line("1(s1).".repeat(5_460) + "10(s10)") },
        Case { name: "expression: 63 nodes, a sequence", text: line(format!("p0{{{}.0}}", events.join("."))) },
        Case { name: "expression: 64 nodes, loops 31 and 30 deep", text: line(loops(31, "h1") + "." + &loops(30, "0")) },
        Case { name: "expression: 20 nodes, the reference channel", text: line(format!("p0{{p1{{m1{{0+{rounds}.h1}}}}}}")) },
    ]
}

fn verify_case(text: &[u8]) {
    let (mut first, mut second) = ([7; NODES_ROOM], [7; NODES_ROOM]);
    let answers = (proved(text, &mut first), plain(text, &mut second));
    assert_eq!(answers.0, answers.1, "the answer to {:?}", String::from_utf8_lossy(text));
    assert_eq!(first, second, "the table of {:?}", String::from_utf8_lossy(text));
}

/// Both answer and store the same on all that is measured and on many more texts.
pub fn verify() -> usize {
    let mut rng = Rng::new(8);
    let mut texts: Vec<Vec<u8>> = cases().into_iter().map(|case| case.text).collect();
    texts.extend((0..20_000).map(|_| expressions::random_case(&mut rng)));
    texts.iter().for_each(|text| verify_case(text));
    texts.len()
}

/// Each case once for callgrind, the proved code first.
pub fn rows(chosen: impl Fn(&str) -> bool) {
    for Case { name, text } in cases().into_iter().filter(|case| chosen(case.name)) {
        let mut table = [0; NODES_ROOM];
        measured(&mut || {
            black_box(proved(black_box(&text), &mut table));
        });
        measured(&mut || {
            black_box(plain(black_box(&text), &mut table));
        });
        println!("1\t2\t{name}");
    }
}
