//! The grammar of outlines typed as expressions (document 02, L13) as a list of rules, and Earley's method over it (*An efficient
//! context-free parsing algorithm*, 1970): up to which place a text is the beginning of some line, and how deep its brackets nest.

use std::collections::HashSet;
use Part::{Choice, Item, Label, Line, Number, Sequence};
use Symbol::{Byte, Digit, Whole};

/// What the grammar has a name for.
#[derive(Clone, Copy, Debug, PartialEq, Eq)]
enum Part {
    Line,
    Choice,
    Sequence,
    Item,
    Number,
    Label,
}

#[derive(Clone, Copy, Debug, PartialEq, Eq)]
enum Symbol {
    Byte(u8),
    Digit,
    Whole(Part),
}

impl Symbol {
    fn is(self, byte: u8) -> bool {
        match self {
            Byte(own) => own == byte,
            Digit => byte.is_ascii_digit(),
            Whole(_) => false,
        }
    }
}

/// A part, and one of the ways in which it may be written.
struct Rule(Part, &'static [Symbol]);

/// The sentences of the request, one by one.
const RULES: [Rule; 16] = [
    Rule(Line, &[Whole(Choice), Byte(b'\n')]),
    Rule(Choice, &[Whole(Sequence)]),
    Rule(Choice, &[Whole(Choice), Byte(b'+'), Whole(Sequence)]),
    Rule(Sequence, &[Whole(Item)]),
    Rule(Sequence, &[Whole(Sequence), Byte(b'.'), Whole(Item)]),
    Rule(Item, &[Byte(b'0')]),
    Rule(Item, &[Whole(Number), Byte(b'('), Byte(b's'), Whole(Number), Byte(b')')]),
    Rule(Item, &[Whole(Number), Byte(b'('), Byte(b'n'), Whole(Number), Byte(b')')]),
    Rule(Item, &[Byte(b'm'), Whole(Label), Byte(b'{'), Whole(Choice), Byte(b'}')]),
    Rule(Item, &[Byte(b'h'), Whole(Label)]),
    Rule(Item, &[Byte(b'f'), Whole(Number), Byte(b'{'), Whole(Choice), Byte(b'}')]),
    Rule(Item, &[Byte(b'p'), Whole(Number), Byte(b'{'), Whole(Choice), Byte(b'}')]),
    Rule(Item, &[Byte(b'('), Whole(Choice), Byte(b')')]),
    Rule(Number, &[Digit]),
    Rule(Number, &[Digit, Digit]),
    Rule(Label, &[Digit]),
];

/// A rule of which the first `read` symbols stand in the text, from the place `from` on.
#[derive(Clone, Copy, PartialEq, Eq, Hash)]
struct State {
    rule: usize,
    read: usize,
    from: usize,
}

impl State {
    fn next(&self) -> Option<Symbol> {
        RULES[self.rule].1.get(self.read).copied()
    }

    fn further(self) -> State {
        State { read: self.read + 1, ..self }
    }

    /// Its last byte opened a bracket around a choice, or closed one.
    fn nests(&self) -> bool {
        RULES[self.rule].0 == Item && self.next() == Some(Whole(Choice))
    }

    fn unnests(&self) -> bool {
        RULES[self.rule].1[..self.read].contains(&Whole(Choice))
            && RULES[self.rule].0 == Item
            && self.next().is_none()
    }
}

/// What the text may be up to each place.
struct Sets(Vec<Vec<State>>);

impl Sets {
    fn start() -> Sets {
        let mut sets = Sets(vec![]);
        sets.close(vec![State { rule: 0, read: 0, from: 0 }]);
        sets
    }

    /// The set of the place after these states, with all that follows from them.
    fn close(&mut self, states: Vec<State>) {
        let place = self.0.len();
        let mut seen: HashSet<State> = states.iter().copied().collect();
        let mut set = states;
        let mut done = 0;
        while done < set.len() {
            let state = set[done];
            done += 1;
            let new: Vec<State> = match state.next() {
                Some(Whole(part)) => (0..RULES.len())
                    .filter(|rule| RULES[*rule].0 == part)
                    .map(|rule| State { rule, read: 0, from: place })
                    .collect(),
                Some(_) => vec![],
                // no rule is empty, so what waited for this part stands in an earlier set
                None => self.0.get(state.from).map_or(vec![], |waiting| {
                    let part = Whole(RULES[state.rule].0);
                    waiting.iter().filter(|w| w.next() == Some(part)).map(|w| w.further()).collect()
                }),
            };
            set.extend(new.into_iter().filter(|state| seen.insert(*state)));
        }
        self.0.push(set);
    }

    /// One byte more; the states that it leads to, before what follows from them.
    fn scan(&mut self, byte: u8) -> Vec<State> {
        let last = self.0.last().expect("there is a first set");
        let met: Vec<State> = last
            .iter()
            .filter(|s| s.next().is_some_and(|n| n.is(byte)))
            .map(|s| s.further())
            .collect();
        self.close(met.clone());
        met
    }

    fn is_line(&self) -> bool {
        self.0.last().is_some_and(|set| set.iter().any(|s| s.rule == 0 && s.next().is_none()))
    }
}

/// Where a text is refused before its nodes are looked at.
#[derive(Clone, Copy, Debug, PartialEq, Eq)]
pub enum Stop {
    /// 15: no line has this byte, or this end, at the place.
    Wrong(usize),
    /// 16: an opening bracket at the place is too deep.
    Deep(usize),
}

/// The first of the two, from the left; none for a line whose brackets nest at most this deep.
pub fn stop(text: &[u8], most_nested: usize) -> Option<Stop> {
    let mut sets = Sets::start();
    let mut depth = 0;
    for (place, byte) in text.iter().enumerate() {
        let met = sets.scan(*byte);
        if met.is_empty() {
            return Some(Stop::Wrong(place));
        }
        if met.iter().any(State::nests) {
            depth += 1;
            if depth > most_nested {
                return Some(Stop::Deep(place));
            }
        }
        if met.iter().any(State::unnests) {
            depth -= 1;
        }
    }
    (!sets.is_line()).then_some(Stop::Wrong(text.len()))
}

/// The bytes that some line has after this beginning, in rising order.
pub fn following(beginning: &[u8]) -> Vec<u8> {
    let mut sets = Sets::start();
    for byte in beginning {
        sets.scan(*byte);
    }
    let last = sets.0.last().expect("there is a first set");
    (0..=255).filter(|byte| last.iter().any(|s| s.next().is_some_and(|n| n.is(*byte)))).collect()
}
