//! Malformed lines, told apart by 13, 11, 12 and 2: each number at each place, and several faults in one line.

use super::Case;
use crate::damage::Text;
use crate::rng::Rng;
use crate::sheet::{
    LOCAL_NAMES, MOST_EDGES, MOST_NODES, MOST_STEPS, OUTLINE_NAMES, POLICY_NAMES, TRACE_NAMES,
};

/// One of the sheets, by a value line of it that is right.
struct Sheet {
    names: &'static str,
    right: &'static str,
    most: usize,
}

const POLICIES: Sheet = Sheet { names: POLICY_NAMES, right: "0 0 1 1 0 1", most: MOST_EDGES };
const LOCAL: Sheet = Sheet { names: LOCAL_NAMES, ..POLICIES };
const TRACE: Sheet = Sheet { names: TRACE_NAMES, right: "0 1 3", most: MOST_STEPS };
const OUTLINE: Sheet = Sheet { names: OUTLINE_NAMES, right: "0 0 0 0", most: MOST_NODES };

/// Words that make a line wrong, and which fault each is.
const OTHER: &str = "0x";
const LONG: &str = "00000000000";
const OUTSIDE: &str = "4294967296";

pub fn policies() -> Vec<Text> {
    POLICIES.malformed()
}

pub fn traces() -> Vec<Text> {
    TRACE.malformed()
}

pub fn outlines() -> Vec<Text> {
    OUTLINE.malformed()
}

impl Sheet {
    /// The lines, each with its line feed.
    fn text(&self, lines: &[Text]) -> Text {
        let mut text = format!("{}\n", self.names).into_bytes();
        for line in lines {
            text.extend([&line[..], b"\n"].concat());
        }
        text
    }

    /// So many right lines, but for one.
    fn at(&self, count: usize, place: usize, line: &[u8]) -> Text {
        let mut lines = vec![self.right.as_bytes().to_vec(); count];
        lines[place] = line.to_vec();
        self.text(&lines)
    }

    /// The right line with other words at its start and its end.
    fn with(&self, first: &str, last: &str) -> String {
        let mut words: Vec<&str> = self.right.split(' ').collect();
        let end = words.len() - 1;
        for (place, word) in [(0, first), (end, last)] {
            if !word.is_empty() {
                words[place] = word;
            }
        }
        words.join(" ")
    }

    /// Lines with one fault: 11, 12 and 2.
    fn single(&self) -> [String; 3] {
        let short = self.right.rsplit_once(' ').map_or("", |(front, _)| front);
        [self.with("", OTHER), self.with(LONG, ""), short.into()]
    }

    /// Lines with two faults, in both orders.
    fn double(&self) -> Vec<String> {
        let mut lines = Vec::new();
        for (a, b) in [(OTHER, LONG), (OTHER, OUTSIDE), (LONG, OUTSIDE)] {
            lines.extend([self.with(a, b), self.with(b, a)]);
        }
        for word in [OTHER, LONG, OUTSIDE] {
            lines.push(format!(" {}", self.with("", word)));
            lines.push(format!("{} ", self.with(word, "")));
            lines.push(format!("{} 0", self.with(word, "")));
            lines.push(format!("{} {word}", self.right));
        }
        lines.extend([
            OTHER.into(),
            LONG.into(),
            format!("{LONG} {OTHER}"),
            format!("{OTHER} {LONG}"),
        ]);
        lines
    }

    /// Lines with other bytes, in the middle, at the start and at the end.
    fn bytes(&self) -> Vec<Text> {
        let right = self.right.as_bytes();
        let gap = right.iter().position(|byte| *byte == b' ').unwrap_or(0);
        let mut lines = vec![[right, b"\r"].concat(), b"\r".to_vec()];
        for byte in [b'\t', 0, 255, b'/', b':'] {
            let mut line = right.to_vec();
            line[gap] = byte;
            lines.push(line);
        }
        lines.push([&b"\0"[..], right].concat());
        lines.push([right, b"\xff"].concat());
        lines
    }

    /// Lines of digits and spaces alone.
    fn plain(&self) -> Vec<String> {
        let many = vec!["1"; 300].join(" ");
        vec![
            "".into(),
            " ".into(),
            "   ".into(),
            many,
            "7".repeat(40),
            self.with(&"0".repeat(1_000), ""),
        ]
    }

    /// A line that has no line feed, after right ones.
    fn unended(&self, before: usize, line: &[u8]) -> Text {
        [self.text(&vec![self.right.as_bytes().to_vec(); before]), line.to_vec()].concat()
    }

    fn malformed(&self) -> Vec<Text> {
        let mut sheets = Vec::new();
        for line in self.single() {
            sheets.extend([0, 2, 4].map(|place| self.at(5, place, line.as_bytes())));
        }
        sheets.extend(self.double().iter().map(|line| self.at(3, 1, line.as_bytes())));
        sheets.extend(self.bytes().iter().map(|line| self.at(3, 1, line)));
        sheets.extend(self.plain().iter().map(|line| self.at(2, 0, line.as_bytes())));
        // 13, alone and with every other fault
        for line in [self.right, OTHER, LONG, OUTSIDE, " ", "0"] {
            sheets.push(self.unended(2, line.as_bytes()));
        }
        sheets.push(self.unended(0, self.right.as_bytes()));
        sheets.push(self.unended(0, format!(" {}", self.with(LONG, OTHER)).as_bytes()));
        // the last line that is allowed, and the one after it
        for more in [0, 1] {
            let count = self.most + more;
            sheets.extend(self.single().map(|line| self.at(count, count - 1, line.as_bytes())));
            sheets.push(self.unended(count - 1, self.right.as_bytes()));
        }
        // two wrong lines: the first is told
        for (first, second) in [(LONG, OTHER), (OUTSIDE, LONG), ("", OTHER)] {
            let lines =
                [self.with(first, if first.is_empty() { " " } else { "" }), self.with("", second)];
            sheets.push(self.text(&lines.map(String::into_bytes)));
        }
        sheets.push(self.unended(1, b"\n\n\n"));
        sheets.push(b"\n\n\n\n".to_vec());
        sheets
    }

    /// Up to three right lines and then one of random bytes, at times without its line feed.
    fn garbled(&self, rng: &mut Rng) -> Text {
        const BYTES: &[u8] = b"0000123456789          xx\t\r\0\xff/:\n";
        let mut words: Vec<Text> =
            self.right.split(' ').map(|word| word.as_bytes().to_vec()).collect();
        for _ in 0..rng.between(1, 3) {
            let place = rng.below(words.len() as u64) as usize;
            match rng.below(6) {
                0 => words[place].push(rng.pick(BYTES)),
                1 => words[place] = vec![b'0' + rng.below(10) as u8; rng.between(9, 12) as usize],
                2 => words[place].insert(0, rng.pick(BYTES)),
                3 => words[place].push(b' '),
                4 => words.push(vec![b'0']),
                _ if words.len() > 1 => drop(words.remove(place)),
                _ => {}
            }
        }
        let line = match rng.below(5) {
            0 => (0..rng.below(24)).map(|_| rng.pick(BYTES)).collect(),
            _ => words.join(&b' '),
        };
        let feed: &[u8] = if rng.percent(80) { b"\n" } else { b"" };
        [self.unended(rng.below(4) as usize, &line), feed.to_vec()].concat()
    }
}

/// A trace and an outline, each with policies, of which one sheet at least has a garbled line.
pub fn random_cases(rng: &mut Rng) -> [Case; 2] {
    [&TRACE, &OUTLINE].map(|sheet| {
        let wrong = rng.percent(30);
        let named = if rng.percent(50) { &POLICIES } else { &LOCAL };
        let policies = if wrong { named.garbled(rng) } else { named.text(&[]) };
        Case { policies, other: sheet.garbled(rng) }
    })
}
