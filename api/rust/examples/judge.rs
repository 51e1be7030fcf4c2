//! The monitor on the trace of case B and the checker on the outline of case I (docs/SHEETS.md), in types.

use wiforekun::{check, Answer, Edge, Node, On, Past, State, Step};

const TAKE: u8 = 1;
const READ: u8 = 2;
const GIVE_BACK: u8 = 3;

/// Read only what is taken.
const P: [Edge; 3] = [Edge::new(0, 0, TAKE, On::X, 1), Edge::new(0, 1, GIVE_BACK, On::X, 0), Edge::new(0, 0, READ, On::X, 6)];

fn main() {
    let event = |action: u8, resource| Step::event(action.into(), resource);
    let steps =
        [Step::open(0), Step::create(16), event(TAKE, 16), event(READ, 16), Step::create(17), event(READ, 17), event(GIVE_BACK, 16)];
    let mut state = State::start();
    for (line, step) in (2..).zip(steps) {
        match state.judge(&P, Past::Whole, step) {
            Answer::Allowed => println!("line {line}: allowed"),
            Answer::Violated(policy) => println!("line {line}: violated, policy {policy}"),
            Answer::Refused(refusal) => println!("line {line}: refused, {refusal}"),
        }
    }
    // a sandbox around a loop: end, or fresh n, take n, read n, back
    let nodes = [
        Node::sandbox(0, 1),
        Node::repeat(2),
        Node::either(3, 4),
        Node::END,
        Node::fresh(0, 5),
        Node::then(6, 7),
        Node::on_name(TAKE, 0),
        Node::then(8, 9),
        Node::on_name(READ, 0),
        Node::back(1),
    ];
    println!("the outline: {:?}", check(&P, Past::Whole, &nodes));
}
