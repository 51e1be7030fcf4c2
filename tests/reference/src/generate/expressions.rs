//! Expressions: lines of the grammar, near misses, and texts at the borders of their refusals.

use crate::damage::Text;
use crate::rng::Rng;
use crate::sheet::LONGEST;

fn line(text: &str) -> Text {
    format!("{text}\n").into_bytes()
}

/// A choice in so many round brackets, or one in so many curly ones.
fn nested(open: &str, inside: &str, close: &str, depth: usize) -> String {
    open.repeat(depth) + inside + &close.repeat(depth)
}

/// So many parts joined by a sign.
fn joined(part: &str, sign: &str, count: usize) -> String {
    vec![part; count].join(sign)
}

/// The cases that the papers name, and each refusal at both sides of its border.
pub fn fixed_cases() -> Vec<Text> {
    let mut cases: Vec<Text> = LINES.iter().map(|text| line(text)).collect();
    cases.extend(NO_LINES.iter().map(|text| text.as_bytes().to_vec()));
    // each byte where an item may begin, and those of the grammar after one
    cases.extend((0..=255).map(|byte| [b"1(s1).", &[byte][..], b"\n"].concat()));
    cases.extend(BYTES.iter().map(|byte| [b"1(s1)", &[*byte][..], b"0\n"].concat()));
    cases.extend(depths());
    cases.extend(counts());
    cases.extend(lengths());
    cases
}

/// Lines of the grammar: each kind of item, numbers and labels at their borders, both signs, brackets, backs; 3, 7 and 8, alone and
/// together.
const LINES: [&str; 96] = [
    "0",
    "1(s0)",
    "31(s15)",
    "1(n0)",
    "f0{1(n0)}",
    "f3{31(n3)}",
    "02(s03)",
    "2(s3)",
    "32(s0)",
    "99(s0)",
    "1(s16)",
    "1(s99)",
    "0(s3)",
    "00(s1)",
    "00(n1)",
    "f0{0(n0)}",
    "f4{0}",
    "f99{0}",
    "f03{0}",
    "f3{1(n4)}",
    "p0{0}",
    "p7{0}",
    "p07{0}",
    "p8{0}",
    "p99{0}",
    "m0{0}",
    "m9{0}",
    "m1{h1}",
    "h1",
    "m1{0}.h1",
    "m1{h2}",
    "m2{m1{h2}}",
    "m1{m1{h1}}",
    "m1{m1{0}.h1}",
    "m1{m2{m1{h1}.h1}.h1}",
    "m1{m2{h1.h2}}",
    "m1{h1+h1}",
    "0+0",
    "0.0",
    "0+0+0",
    "0.0.0",
    "0+0.0",
    "0.0+0",
    "0.0+0.0",
    "(0)",
    "((0))",
    "(0+0).0",
    "0.(0+0)",
    "0+(0+0)",
    "(0+0)+0",
    "0.(0.0)",
    "(0.0).0",
    "(0+0).(0+0)",
    "1(s1)+2(s2)+3(s3)+4(s4)",
    "1(s1).2(s2).3(s3).4(s4)",
    "m1{0+1(s1).h1}",
    "p0{m1{0+f0{1(n0).2(n0).h1}}}",
    "p0{m1{0+f0{5(n0).h1}}}",
    "m0{h0}",
    "f0{1(n0)}.1(n0)",
    "1(n0).f0{1(n0)}",
    "f0{1(n1)}",
    "f0{f0{1(n0)}}",
    "f0{0}+f0{0}",
    "f0{0}.f1{0}",
    "f0{f1{f2{f3{1(n0).1(n1).1(n2).1(n3)}}}}",
    "f0{(1(n0))}",
    "f0{m1{1(n0).h1}}",
    "m1{f0{1(n0).h1}}",
    "f0{1(n0).f1{2(n1)}.3(n1)}",
    "32(s0).h1",
    "h1.32(s0)",
    "h1.1(n0)",
    "1(n0).h1",
    "32(n0)",
    "1(n4).h1",
    "f4{h1}",
    "p8{h1}",
    "p0{p0{0}}",
    "p0{0}.p0{0}",
    "p1{p0{1(s1)}.2(s2)}.3(s3)",
    "m1{p0{h1}}",
    "p0{m1{h1}}",
    "(m1{(h1)})",
    "m1{(0)}",
    "f0{(0)}",
    "p0{(0)}",
    "p00{f00{0}}",
    "m1{m2{m3{m4{m5{m6{m7{m8{m9{m0{h1.h2.h3.h4.h5.h6.h7.h8.h9.h0}}}}}}}}}}",
    "m1{0.m1{0.h1}.h1}",
    "m1{(m1{h1})+h1}",
    "m5{m5{m5{h5}}}",
    "9(s9)",
    "10(s10)",
    "1(s1)+0.2(s2)+0",
    "f1{m1{p1{1(n1)+h1}}}",
];

/// What is no line: at each place of an item, at the ends, after the line feed. Deep ones are in `depths`.
const NO_LINES: [&str; 100] = [
    "",
    "\n",
    "0",
    "0\n\n",
    "0\n0",
    "0\n ",
    " 0\n",
    "0 \n",
    "0\r\n",
    "\n0\n",
    "00\n",
    "000\n",
    "1\n",
    "01\n",
    "12\n",
    "123(s1)\n",
    "1(s)\n",
    "1(s123)\n",
    "1()\n",
    "1(1)\n",
    "1(x1)\n",
    "1(S1)\n",
    "1(s1\n",
    "1(s1}\n",
    "1{s1}\n",
    "1(s1))\n",
    "1(ss1)\n",
    "1(s1n1)\n",
    "1(n)\n",
    "1(n1",
    "(s1)\n",
    "s1\n",
    "n0\n",
    "h\n",
    "h10\n",
    "hh\n",
    "h1h1\n",
    "h(1)\n",
    "m{0}\n",
    "m10{0}\n",
    "m1\n",
    "m1(0)\n",
    "m1{}\n",
    "m1{0\n",
    "m1{0)\n",
    "m1{0}}\n",
    "m1{0}0\n",
    "m1 {0}\n",
    "f{0}\n",
    "f100{0}\n",
    "f0\n",
    "f0(0)\n",
    "f0{}\n",
    "f0{0\n",
    "p{0}\n",
    "p100{0}\n",
    "p0\n",
    "p0{}\n",
    "p0{0)\n",
    "()\n",
    "(\n",
    ")\n",
    "(0\n",
    "0)\n",
    "(0}\n",
    "{0}\n",
    "}\n",
    "{\n",
    "+\n",
    ".\n",
    "0+\n",
    "+0\n",
    "0.\n",
    ".0\n",
    "0++0\n",
    "0..0\n",
    "0+.0\n",
    "0.+0\n",
    "(0+)\n",
    "(+0)\n",
    "m1{0+}\n",
    "0(0)\n",
    "0m1{0}\n",
    "0h1\n",
    "00+0\n",
    "0.00\n",
    "(00)\n",
    "0(s1)(s1)\n",
    "1(s1)1(s1)\n",
    "-\n",
    "0,0\n",
    "0-0\n",
    "node kind a b\n",
    "M1{0}\n",
    "m1[0]\n",
    "1(s01)",
    "1(s001)\n",
    "f0{1(n0)",
    "m1{h1}",
    "0+0",
];

/// Brackets 31, 32, 33 and 34 deep, of each kind and mixed; what stands at the tie of 15 and 16 and on either side of it.
fn depths() -> Vec<Text> {
    let mut texts = vec![];
    for depth in 31..=34 {
        for (open, close, brackets) in
            [("(", ")", 1), ("m1{", "}", 1), ("p0{", "}", 1), ("p0{(", ")}", 2)]
        {
            texts.push(line(&nested(open, "0", close, depth / brackets)));
        }
        // an event's bracket does not count
        texts.push(line(&nested("(", "1(s1)", ")", depth)));
        texts.push(line(&nested("(", "m1{0}", ")", depth - 1)));
        texts.push(line(&nested("(", "f0{0}", ")", depth - 1)));
        // brackets that are closed count no more
        texts.push(line(&(nested("(", "0", ")", depth) + "." + &nested("(", "0", ")", depth))));
        // 15 before, at and after the place of 16
        texts.push(line(&(nested("(", "0", ")", depth) + ")")));
        texts.push(line(&nested("(", "", ")", depth)));
        texts.push(nested("(", "", "", depth).into_bytes());
        texts.push(line(&nested("(", "0+", ")", depth)));
        texts.push(line(&("x".to_string() + &nested("(", "0", ")", depth))));
        texts.push(line(&(nested("(", "", "", depth - 1) + "1{")));
        texts.push(line(&(nested("(", "", "", depth - 1) + "0(")));
        texts.push(line(&(nested("(", "", "", depth - 1) + "{")));
        texts.push(line(&(nested("(", "", "", depth - 1) + "m(")));
        texts.push(line(&(nested("(", "", "", depth - 1) + "m1(")));
        texts.push(line(&(nested("(", "", "", depth - 1) + "h1(")));
        texts.push(line(&(nested("(", "", "", depth - 1) + "p7{")));
        texts.push(line(&(nested("(", "", "", depth - 1) + "p77{")));
        texts.push(line(&(nested("(", "", "", depth - 1) + "p777{")));
        // 16 before 17, 3, 7 and 8
        texts.push(line(&(joined("h1", "+", 70) + "+" + &nested("(", "32(n9)", ")", depth))));
    }
    texts
}

/// 63, 64, 65 and 66 nodes, by signs, by brackets and by both; with 3, 7 and 8 in them, and a 15 after them.
fn counts() -> Vec<Text> {
    let mut texts = vec![];
    for nodes in 63..=66_usize {
        // n parts have n - 1 signs: an odd number of nodes; a loop around makes it even
        let parts = nodes.div_ceil(2);
        for sign in ["+", "."] {
            let text = joined("0", sign, parts);
            texts.push(line(&if nodes % 2 == 1 {
                text.clone()
            } else {
                format!("m1{{{}}}", joined("0", sign, nodes / 2))
            }));
            texts.push(line(&format!("({text})")));
            texts.push(line(&joined("32(s0)", sign, parts)));
            texts.push(line(&joined("h1", sign, parts)));
            texts.push(line(&joined("1(n0)", sign, parts)));
            texts.push(line(&(text.clone() + sign)));
            texts.push((text + sign + "0").into_bytes());
        }
        texts.push(line(&joined("1(s1)+2(s2)", ".", nodes.div_ceil(4))));
        texts.push(line(&joined(&nested("p0{", "0", "}", 31), ".", 2)));
        texts.push(line(&format!(
            "{}.{}",
            nested("p0{", "0", "}", 31),
            nested("p0{", "0", "}", nodes - 34)
        )));
        texts.push(line(&format!("m1{{{}+h1}}", joined("0", "+", parts - 1))));
    }
    texts
}

/// 32,768 and 32,769 bytes: a line of many nodes, one that lacks its line feed, one that is wrong at its last sign, brackets without end.
fn lengths() -> Vec<Text> {
    let mut texts = vec![];
    for bytes in [LONGEST, LONGEST + 1] {
        let filled =
            |part: &str| -> Text { part.bytes().cycle().take(bytes - 1).chain([b'\n']).collect() };
        texts.push(filled("("));
        texts.push(filled("1(s1)."));
        let first = if bytes % 2 == 0 { "0" } else { "10(s1)" };
        let mut whole = line(&(first.to_string() + &"+0".repeat((bytes - 1 - first.len()) / 2)));
        texts.push(whole.clone());
        whole[bytes - 1] = b'+';
        texts.push(whole);
    }
    texts
}

// ── Random ones ──

/// How a random line is made: the nodes that are left, the labels of the loops around and the names that are given.
struct Maker<'a> {
    rng: &'a mut Rng,
    left: u64,
    labels: Vec<u64>,
    names: Vec<u64>,
    unused: Vec<u64>,
    /// now and then a number out of range, a label or a name that means nothing
    careless: bool,
}

impl Maker<'_> {
    fn number(&mut self, value: u64) -> String {
        if value < 10 && self.rng.percent(10) {
            return format!("0{value}");
        }
        value.to_string()
    }

    fn joined(&mut self, sign: &str, depth: u64, part: fn(&mut Self, u64) -> String) -> String {
        let count = self.rng.pick(&[1, 1, 1, 2, 2, 3, 4, 8]);
        let mut text = part(self, depth);
        for _ in 1..count {
            if self.left < 2 {
                break;
            }
            self.left -= 1;
            text = text + sign + &part(self, depth);
        }
        text
    }

    fn choice(&mut self, depth: u64) -> String {
        self.joined("+", depth, Maker::sequence)
    }

    fn sequence(&mut self, depth: u64) -> String {
        self.joined(".", depth, Maker::item)
    }

    fn item(&mut self, depth: u64) -> String {
        self.left = self.left.saturating_sub(1);
        let odd = self.careless && self.rng.percent(4);
        let deeper = depth > 0 && self.left > 0;
        match self.rng.below(if deeper { 14 } else { 7 }) {
            0 | 1 => "0".into(),
            2 | 3 => {
                let (action, resource) = (self.rng.between(1, 31), self.rng.below(16));
                let action = if odd { self.rng.pick(&[0, 32, 99]) } else { action };
                format!("{}(s{})", self.number(action), self.number(resource))
            }
            4 | 5 => {
                let action = self.rng.between(1, 31);
                let name = if self.names.is_empty() || odd {
                    self.rng.below(5)
                } else {
                    let names = self.names.clone();
                    self.rng.pick(&names)
                };
                if self.names.is_empty() && !odd {
                    return format!("{}(s{})", self.number(action), self.number(name));
                }
                format!("{}(n{})", self.number(action), self.number(name))
            }
            6 => {
                if self.labels.is_empty() && !odd {
                    return "0".into();
                }
                let labels = self.labels.clone();
                let label = if self.labels.is_empty() || odd {
                    self.rng.below(10)
                } else {
                    self.rng.pick(&labels)
                };
                format!("h{label}")
            }
            7..=9 => {
                let label = self.rng.pick(&[1, 1, 1, 2, 3, 9]);
                self.labels.push(label);
                let text = self.choice(depth - 1);
                self.labels.pop();
                format!("m{label}{{{text}}}")
            }
            10 | 11 => {
                let Some(name) = self.unused.pop() else { return "0".into() };
                let name = if odd { self.rng.pick(&[0, 4, 99]) } else { name };
                self.names.push(name);
                let text = self.choice(depth - 1);
                self.names.pop();
                format!("f{}{{{text}}}", self.number(name))
            }
            12 => {
                let policy = if odd { self.rng.pick(&[8, 99]) } else { self.rng.below(8) };
                format!("p{}{{{}}}", self.number(policy), self.choice(depth - 1))
            }
            _ => {
                self.left += 1;
                format!("({})", self.choice(depth - 1))
            }
        }
    }
}

/// A line of the grammar; of about so many nodes at most.
fn random_line(rng: &mut Rng, careless: bool) -> Text {
    let left = rng.pick(&[4, 8, 16, 32, 48, 62, 64, 66, 80]);
    let depth = rng.pick(&[2, 4, 8, 30]);
    let mut maker =
        Maker { rng, left, labels: vec![], names: vec![], unused: vec![3, 2, 1, 0], careless };
    let mut text = maker.choice(depth);
    while maker.left > 1 && maker.rng.percent(85) {
        maker.left -= 1;
        let sign = maker.rng.pick(&["+", "."]);
        text = text + sign + &maker.item(depth);
    }
    if rng.percent(15) {
        let around = rng.between(1, 33) as usize;
        let open = rng.pick(&["(", "(", "m1{"]);
        text = nested(open, &text, if open == "(" { ")" } else { "}" }, around);
    }
    line(&text)
}

const BYTES: &[u8] = b"0123456789()(){}{}mhfpsn++..\n ";

/// A byte more, a byte less or another byte, once or a few times.
fn damaged(rng: &mut Rng, mut text: Text) -> Text {
    for _ in 0..rng.pick(&[1, 1, 1, 2, 3]) {
        let at = rng.below(text.len() as u64 + 1) as usize;
        let byte = if rng.percent(5) { rng.below(256) as u8 } else { rng.pick(BYTES) };
        match rng.below(5) {
            0 => text.insert(at, byte),
            1 if at < text.len() => {
                text.remove(at);
            }
            2 => text.truncate(at),
            3 => {
                let piece = text[..at].to_vec();
                text.extend(piece);
                text.truncate(LONGEST + 1);
            }
            _ if at < text.len() => text[at] = byte,
            _ => text.push(byte),
        }
    }
    text
}

/// Whole lines, careless ones, damaged ones, and bytes at random.
pub fn random_case(rng: &mut Rng) -> Text {
    match rng.below(10) {
        0..=2 => random_line(rng, false),
        3..=5 => random_line(rng, true),
        6..=8 => {
            let text = random_line(rng, true);
            damaged(rng, text)
        }
        _ => (0..rng.below(12)).map(|_| rng.pick(BYTES)).collect(),
    }
}

/// The fixed cases, then random ones.
pub fn cases(seed: u64, count: usize) -> Vec<Text> {
    let mut rng = Rng::new(seed);
    let mut cases = fixed_cases();
    while cases.len() < count {
        cases.push(random_case(&mut rng));
    }
    cases.truncate(count);
    cases
}
