//! Random outlines, many in pairs that differ in one place and in the verdict.

use super::policies::{random_edge, random_edges, sighted, Palette};
use super::traces::write_policies;
use super::trees::{choice, fresh, looped, number, sandbox, sequence, Grower, Tree};
use super::Case;
use crate::damage::{random_damage, respaced, rows};
use crate::outline::{
    nodes_fit, Node, BACK, CHOICE, END, FRESH, LOOP, NAMED_EVENT, SANDBOX, SEQUENCE, STATIC_EVENT,
};
use crate::policy::{Edge, Policies, Sight, ON_OWN, ON_SECOND, ON_STATIC};
use crate::pushdown::check;
use crate::rng::Rng;
use crate::sheet::OUTLINE_NAMES;

/// A case before it is written.
#[derive(Clone, Debug)]
pub struct Draft {
    pub palette: Palette,
    pub policies: Policies,
    pub nodes: Vec<Node>,
}

pub fn random_cases(rng: &mut Rng) -> Vec<Case> {
    match rng.below(18) {
        0 => pair(rng, grown_draft),
        1 => pair(rng, recursive_draft),
        2 => pair(rng, counting_draft),
        3..=5 => pair(rng, naming_draft),
        6 => pair(rng, late_draft),
        7..=9 => pair(rng, dense_draft),
        10 => vec![write(&crowded_draft(rng)), write(&crowded_draft(rng))],
        11 => vec![respaced_case(rng)],
        12 => vec![reshaped(rng)],
        13..=14 => pair(rng, reopened_draft),
        15..=16 => both_sights(rng),
        _ => vec![damaged(rng)],
    }
}

/// The draft of a tree, under policies of either sight.
fn drafted(rng: &mut Rng, palette: Palette, edges: Vec<Edge>, tree: &Tree) -> Draft {
    let policies = sighted(rng, edges);
    let nodes = number(rng, tree);
    Draft { palette, policies, nodes }
}

/// A draft from a tree of a random size.
pub fn grown_draft(rng: &mut Rng) -> Draft {
    let size = match rng.below(10) {
        0 => rng.between(30, 60),
        1..=3 => rng.between(14, 30),
        _ => rng.between(4, 14),
    };
    sized_draft(rng, size as usize, 6)
}

/// A draft with a sandbox around a tree of this size.
pub fn sized_draft(rng: &mut Rng, size: usize, most_edges: u64) -> Draft {
    let palette = Palette::random(rng);
    let edges = random_edges(rng, &palette, most_edges);
    let outer = rng.percent(60).then(|| rng.pick(&palette.policies));
    let body = Grower::new(rng, &palette).grow(size);
    let tree = match outer {
        Some(policy) => sandbox(policy, body),
        None => body,
    };
    drafted(rng, palette, edges, &tree)
}

/// A draft whose loop does something before and after its back, inside a sandbox or not.
pub fn recursive_draft(rng: &mut Rng) -> Draft {
    let palette = Palette::random(rng);
    let edges = random_edges(rng, &palette, 6);
    let name = rng.below(4);
    let around = sequence(
        random_event(rng, &palette, Some(name)),
        sequence(inner_back(rng, &palette), random_event(rng, &palette, Some(name))),
    );
    let given = fresh(name, around);
    let body = choice(random_event(rng, &palette, None), given);
    let whole = looped(0, body);
    let tree = match rng.below(3) {
        0 => sandbox(rng.pick(&palette.policies), whole),
        1 => {
            sequence(whole, sandbox(rng.pick(&palette.policies), random_event(rng, &palette, None)))
        }
        _ => {
            sandbox(rng.pick(&palette.policies), sequence(random_event(rng, &palette, None), whole))
        }
    };
    drafted(rng, palette, edges, &tree)
}

/// A draft of a few steps in a row that all matter to its one policy.
pub fn dense_draft(rng: &mut Rng) -> Draft {
    let palette = Palette::small(rng);
    let edges = random_edges(rng, &palette, 6);
    let tree = dense_tree(rng, &palette);
    drafted(rng, palette, edges, &tree)
}

/// A draft with several policies open at once.
pub fn crowded_draft(rng: &mut Rng) -> Draft {
    let palette = Palette::crowded(rng);
    let edges = random_edges(rng, &palette, 4);
    let mut tree = dense_tree(rng, &palette);
    for policy in &palette.policies {
        tree = match rng.percent(70) {
            true => sandbox(*policy, tree),
            false => sequence(sandbox(*policy, random_event(rng, &palette, None)), tree),
        };
    }
    drafted(rng, palette, edges, &tree)
}

/// A sandbox around steps on a static and on one name, some in a sandbox of the same policy.
fn dense_tree(rng: &mut Rng, palette: &Palette) -> Tree {
    let name = rng.below(4);
    let policy = rng.pick(&palette.policies);
    let one = |rng: &mut Rng| {
        let event = match rng.percent(50) {
            true => Tree::Named(rng.pick(&palette.actions), name),
            false => Tree::Static(rng.pick(&palette.actions), rng.pick(&palette.statics)),
        };
        if rng.percent(30) {
            sandbox(policy, event)
        } else {
            event
        }
    };
    let first = one(rng);
    let steps = (1..rng.between(2, 6)).fold(first, |tree, _| sequence(tree, one(rng)));
    let given = fresh(name, steps);
    if rng.percent(60) {
        sandbox(policy, given)
    } else {
        given
    }
}

/// A draft that opens its policy again and again: sandboxes one after the other and inside one another, events between them, and backs
/// inside and after them.
pub fn reopened_draft(rng: &mut Rng) -> Draft {
    let palette = Palette::small(rng);
    let edges = random_edges(rng, &palette, 6);
    let name = rng.below(4);
    let policy = palette.policies[0];
    let one = |rng: &mut Rng| match rng.below(10) {
        0..=1 => Tree::Back(0),
        2 => Tree::End,
        3..=5 => Tree::Static(rng.pick(&palette.actions), rng.pick(&palette.statics)),
        _ => Tree::Named(rng.pick(&palette.actions), name),
    };
    let some = |rng: &mut Rng| match rng.below(10) {
        0..=2 => one(rng),
        3..=6 => sandbox(policy, one(rng)),
        7..=8 => sandbox(policy, sequence(one(rng), one(rng))),
        _ => sandbox((policy + 1) % 8, sequence(one(rng), sandbox(policy, one(rng)))),
    };
    let first = some(rng);
    let body = (1..rng.between(2, 4)).fold(first, |tree, _| sequence(tree, some(rng)));
    let around = |tree: Tree| looped(0, choice(Tree::End, tree));
    let tree = match rng.below(3) {
        0 => fresh(name, around(body)),
        1 => around(fresh(name, body)),
        _ => sandbox(rng.pick(&[policy, policy, (policy + 1) % 8]), around(fresh(name, body))),
    };
    drafted(rng, palette, edges, &tree)
}

/// One draft under both sights, if one is found soon such that the verdicts differ.
pub(super) fn both_sights(rng: &mut Rng) -> Vec<Case> {
    let drafts = [reopened_draft, late_draft, dense_draft, recursive_draft, crowded_draft];
    let mut draft = reopened_draft(rng);
    for _ in 0..12 {
        let [whole, local] = Sight::BOTH.map(|sight| check(&seen_by(&draft, sight).policies, &draft.nodes));
        if whole != local {
            break;
        }
        draft = rng.pick(&drafts)(rng);
    }
    Sight::BOTH.map(|sight| write(&seen_by(&draft, sight))).to_vec()
}

fn seen_by(draft: &Draft, sight: Sight) -> Draft {
    let policies = Policies { sight, ..draft.policies.clone() };
    Draft { policies, ..draft.clone() }
}

/// A draft that opens its sandbox late, under policies whose offending states are left again.
pub fn late_draft(rng: &mut Rng) -> Draft {
    let palette = Palette { policies: vec![rng.below(8)], ..Palette::random(rng) };
    let policy = palette.policies[0];
    let mut edges = random_edges(rng, &palette, 4);
    for _ in 0..rng.between(1, 3) {
        let (from, to) = (rng.between(6, 7), rng.below(3));
        edges.push(Edge { from, to, ..random_edge(rng, &palette, policy, 3) });
    }
    let before = rng.between(3, 8) as usize;
    let inside = rng.between(1, 3) as usize;
    let mut grower = Grower::new(rng, &palette);
    let tree = sequence(grower.grow(before), sandbox(policy, grower.grow(inside)));
    drafted(rng, palette, edges, &tree)
}

/// A draft of two names, one inside the other, in a loop with backs here and there, under a
/// policy that mostly watches what is done to x itself.
pub fn naming_draft(rng: &mut Rng) -> Draft {
    let mut palette = Palette::random(rng);
    palette.actions.truncate(2);
    palette.policies.truncate(2);
    let edges = naming_edges(rng, &palette);
    let outer = rng.below(4);
    let inner = (outer + rng.between(1, 3)) % 4;
    let first = named_events(rng, &palette, &[outer], 1, 2);
    let middle = fresh(inner, named_events(rng, &palette, &[outer, inner], 2, 4));
    let last = named_events(rng, &palette, &[outer], 1, 2);
    let given = fresh(outer, sequence(first, sequence(middle, last)));
    let whole = looped(0, choice(Tree::End, given));
    let tree = match rng.below(3) {
        0 => sequence(whole, sandbox(rng.pick(&palette.policies), Tree::End)),
        _ => sandbox(rng.pick(&palette.policies), whole),
    };
    drafted(rng, palette, edges, &tree)
}

/// Events on the names in turn at random, some backs among them.
fn named_events(rng: &mut Rng, palette: &Palette, names: &[u64], least: u64, most: u64) -> Tree {
    let one = |rng: &mut Rng| match rng.percent(25) {
        true => Tree::Back(0),
        false => Tree::Named(rng.pick(&palette.actions), rng.pick(names)),
    };
    let first = one(rng);
    (1..rng.between(least, most)).fold(first, |tree, _| sequence(tree, one(rng)))
}

fn naming_edges(rng: &mut Rng, palette: &Palette) -> Vec<Edge> {
    let mut edges = Vec::new();
    for policy in &palette.policies {
        let depth = rng.between(2, 4);
        for _ in 0..rng.between(2, 5) {
            let edge = random_edge(rng, palette, *policy, depth);
            let own = Edge { on: ON_OWN, who: 0, ..edge };
            edges.push(if rng.percent(90) { own } else { edge });
        }
    }
    edges
}

/// A draft whose policy counts how deep its loop is nested: by a remainder on the way down,
/// and by another on the way up.
pub fn counting_draft(rng: &mut Rng) -> Draft {
    let palette = counting_palette(rng);
    let (down, up) = rng.pick(&[(1, 4), (2, 3), (2, 4), (3, 2), (3, 3), (4, 2), (5, 1)]);
    let edges = counting_edges(rng, &palette, down, up);
    let event = |index: usize| Tree::Static(palette.actions[index], palette.statics[0]);
    let repeated = |index: usize, times: u64| {
        (1..times).fold(event(index), |tree, _| sequence(tree, event(index)))
    };
    let backs = (1..rng.between(1, 2)).fold(Tree::Back(0), |tree, _| sequence(tree, Tree::Back(0)));
    let (before, after) = (rng.between(1, 2), rng.between(1, 2));
    let deeper = sequence(repeated(0, before), sequence(backs, repeated(2, after)));
    let whole = sequence(looped(0, choice(event(1), deeper)), event(3));
    let tree = match rng.below(3) {
        0 => sequence(whole, sandbox(palette.policies[0], Tree::End)),
        1 => sandbox(palette.policies[0], fresh(rng.below(4), whole)),
        _ => sandbox(palette.policies[0], whole),
    };
    drafted(rng, palette, edges, &tree)
}

/// One policy, one static and the four actions: down, at the bottom, up, at the end.
fn counting_palette(rng: &mut Rng) -> Palette {
    let first = rng.between(1, 28);
    Palette {
        actions: (first..first + 4).collect(),
        statics: vec![rng.below(16)],
        policies: vec![rng.below(8)],
    }
}

fn counting_edges(rng: &mut Rng, palette: &Palette, down: u64, up: u64) -> Vec<Edge> {
    let (policy, who) = (palette.policies[0], palette.statics[0]);
    let edge = |from: u64, index: usize, to: u64| Edge {
        policy,
        from,
        action: palette.actions[index],
        on: ON_STATIC,
        who,
        to,
    };
    let mut edges: Vec<Edge> = (0..down).map(|s| edge(s, 0, (s + 1) % down)).collect();
    edges.extend((0..up).map(|s| edge(down + s, 2, down + (s + 1) % up)));
    edges.push(edge(rng.below(down), 1, down));
    edges.push(edge(down + rng.below(up), 3, rng.between(6, 7)));
    edges
}

fn inner_back(rng: &mut Rng, palette: &Palette) -> Tree {
    match rng.below(3) {
        0 => Tree::Back(0),
        1 => sandbox(rng.pick(&palette.policies), Tree::Back(0)),
        _ => sequence(Tree::Back(0), random_event(rng, palette, None)),
    }
}

fn random_event(rng: &mut Rng, palette: &Palette, name: Option<u64>) -> Tree {
    let action = rng.pick(&palette.actions);
    match name {
        Some(name) if rng.percent(75) => Tree::Named(action, name),
        _ if rng.percent(15) => Tree::End,
        _ => Tree::Static(action, rng.pick(&palette.statics)),
    }
}

/// A refused draft and an accepted one, one change apart.
pub(super) fn pair(rng: &mut Rng, draft: fn(&mut Rng) -> Draft) -> Vec<Case> {
    loop {
        let first = draft(rng);
        let accepted = check(&first.policies, &first.nodes).is_none();
        for _ in 0..12 {
            let second = mutated(rng, &first);
            if check(&second.policies, &second.nodes).is_none() != accepted {
                return vec![write(&first), write(&second)];
            }
        }
    }
}

/// The draft with one edge or one node changed.
pub fn mutated(rng: &mut Rng, draft: &Draft) -> Draft {
    loop {
        let mut next = draft.clone();
        let edges = &mut next.policies.edges;
        if rng.percent(50) && !edges.is_empty() {
            let at = rng.below(edges.len() as u64) as usize;
            let Edge { policy, on, .. } = edges[at];
            edges[at] = random_edge(rng, &draft.palette, policy, 4);
            if on == ON_SECOND && rng.percent(60) {
                edges[at] = Edge { on, who: 0, ..edges[at] };
            }
        } else {
            let at = rng.below(next.nodes.len() as u64) as usize;
            change_node(rng, &draft.palette, &mut next.nodes[at]);
        }
        if nodes_fit(&next.nodes) {
            return next;
        }
    }
}

fn change_node(rng: &mut Rng, palette: &Palette, node: &mut Node) {
    match node.kind {
        STATIC_EVENT | NAMED_EVENT if rng.percent(50) => node.a = rng.pick(&palette.actions),
        STATIC_EVENT => node.b = rng.pick(&palette.statics),
        NAMED_EVENT => node.b = rng.below(4),
        SANDBOX => node.a = rng.below(8),
        _ => std::mem::swap(&mut node.a, &mut node.b),
    }
}

fn respaced_case(rng: &mut Rng) -> Case {
    let case = write(&grown_draft(rng));
    Case { policies: respaced(rng, &case.policies), other: respaced(rng, &case.other) }
}

/// Values in their ranges, but some children, backs or names that may be wrong.
pub(super) fn reshaped(rng: &mut Rng) -> Case {
    let size = rng.between(6, 14) as usize;
    let mut draft = sized_draft(rng, size, 4);
    let shape = rng.percent(40);
    for _ in 0..rng.between(1, 3) {
        let at = rng.below(draft.nodes.len() as u64) as usize;
        let place = rng.below(draft.nodes.len() as u64 + 1);
        let node = &mut draft.nodes[at];
        match node.kind {
            END | STATIC_EVENT if shape => node.number = place,
            END | STATIC_EVENT if rng.percent(50) => {
                *node = Node { kind: BACK, a: place, b: 0, ..*node }
            }
            END | STATIC_EVENT => {
                *node = Node { kind: NAMED_EVENT, a: 1, b: rng.below(4), ..*node }
            }
            NAMED_EVENT => node.b = rng.below(4),
            BACK => node.a = place,
            FRESH if !shape => node.a = rng.below(4),
            LOOP if !shape => *node = Node { kind: SANDBOX, a: rng.below(8), b: node.a, ..*node },
            SEQUENCE | CHOICE | LOOP if shape => node.a = place,
            FRESH | SANDBOX if shape => node.b = place,
            _ => {}
        }
    }
    write(&draft)
}

fn damaged(rng: &mut Rng) -> Case {
    let size = rng.between(3, 12) as usize;
    let mut case = write(&sized_draft(rng, size, 4));
    for _ in 0..rng.between(1, 3) {
        let sheet = if rng.percent(15) { &mut case.policies } else { &mut case.other };
        *sheet = random_damage(rng, sheet);
    }
    case
}

pub fn write(draft: &Draft) -> Case {
    Case {
        policies: write_policies(&draft.policies),
        other: rows(OUTLINE_NAMES, draft.nodes.iter().map(Node::row)),
    }
}
