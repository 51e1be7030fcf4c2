//! Shortest counterexamples: two methods against each other, and the checker of a list of steps against hand-made wrong ones.

use reference::counterexample::{
    counterexample, counterexample_tables, fault, longest_trace, Counterexample, Fault, MOST_SHOWN,
    TABLE_NUMBERS,
};
use reference::generate::counterexamples::fixed_cases;
use reference::generate::fixed::{outline, policies, trace, OUTLINE_I, P, POLICIES_K};
use reference::generate::outlines::{
    counting_draft, crowded_draft, dense_draft, grown_draft, late_draft, mutated, naming_draft,
    recursive_draft, sized_draft, Draft,
};
use reference::judge::{seen, unclosed, Answer, Judge, Step, OPEN};
use reference::least::{shortest_length, shortest_run};
use reference::outline::Node;
use reference::policy::{offends, Policies, Policy, POLICIES};
use reference::program::{self, tables as tables_of};
use reference::pushdown::{breaks, check};
use reference::rng::Rng;
use reference::run::{Run, Way};
use reference::search::shortest;
use reference::sheet::{read_outline, read_policies, read_trace};

fn tables(edges: &str, nodes: &str) -> (Policies, Vec<Node>) {
    (read_policies(&policies(edges)).unwrap(), read_outline(&outline(nodes)).unwrap())
}

fn steps(values: &str) -> Vec<Step> {
    read_trace(&trace(values)).unwrap()
}

fn random_draft(rng: &mut Rng, round: usize) -> Draft {
    let size = rng.between(3, 11) as usize;
    let draft = match round % 8 {
        0 => counting_draft(rng),
        1 => recursive_draft(rng),
        2 | 3 => naming_draft(rng),
        4 => late_draft(rng),
        5 => dense_draft(rng),
        6 => crowded_draft(rng),
        _ => sized_draft(rng, size, 5),
    };
    if round.is_multiple_of(2) {
        mutated(rng, &draft)
    } else {
        draft
    }
}

#[derive(Default)]
struct Tally {
    broken: usize,
    exact: usize,
    all: usize,
    longest: u64,
}

/// The search over runs finds nothing shorter, and where it has seen all traces up to there, the same length.
fn same_length(draft: &Draft, policy: usize, bound: usize, tally: &mut Tally) {
    let Draft { policies: edges, nodes, .. } = draft;
    let least = shortest_length(edges, nodes, policy);
    assert_eq!(least.is_some(), breaks(edges, nodes, policy), "{policy}: {draft:?}");
    if least.is_none() && !draft.palette.policies.contains(&(policy as u64)) {
        return;
    }
    let seen = shortest(edges, nodes, policy, bound, 40);
    match (least, seen.length) {
        (Some(least), Some(found)) if found < seen.whole_below => {
            assert_eq!(least, found, "{policy}: {draft:?}");
            tally.exact += 1;
            tally.longest = tally.longest.max(least);
        }
        (Some(least), Some(found)) => {
            assert!(seen.whole_below <= least && least <= found, "{policy}: {draft:?}")
        }
        (Some(least), None) => {
            assert!(!seen.all && least >= seen.whole_below, "{policy}: {draft:?}")
        }
        (None, found) => assert_eq!(found, None, "{policy}: {draft:?}"),
    }
    tally.broken += usize::from(least.is_some());
    tally.all += usize::from(seen.all);
}

#[test]
fn two_methods_agree() {
    let mut rng = Rng::new(301);
    let mut tally = Tally::default();
    for round in 0..900 {
        let draft = random_draft(&mut rng, round);
        (0..POLICIES).for_each(|policy| same_length(&draft, policy, 400, &mut tally));
    }
    let Tally { broken, exact, all, longest } = tally;
    println!("{broken} policies broken, {exact} by a length that the search knows to be the least, up to {longest}; {all} seen whole");
    assert!(broken > 300 && exact * 100 >= broken * 90 && longest >= 12);
}

/// The run of fewest steps has that many, is a counterexample, and is judged as one: all steps but the last are allowed, unless
/// another policy is broken before; what the checker says of it after a change agrees with the definition.
#[test]
fn shortest_runs_are_counterexamples() {
    let mut rng = Rng::new(302);
    let (mut shown, mut halted_before) = (0, 0);
    for round in 0..800 {
        let draft =
            if round % 20 == 0 { grown_draft(&mut rng) } else { random_draft(&mut rng, round) };
        let Draft { policies: edges, nodes, .. } = &draft;
        for policy in (0..POLICIES).filter(|policy| breaks(edges, nodes, *policy)) {
            let (length, run) = shortest_run(edges, nodes, policy, MOST_SHOWN).unwrap();
            assert_eq!(Some(length), shortest_length(edges, nodes, policy));
            assert!(length >= 2, "an event and an opening are needed");
            let Some(run) = run else { continue };
            assert_eq!(run.steps.len() as u64, length, "{policy}: {draft:?}");
            assert_eq!(fault(edges, nodes, policy, &run.steps), None, "{policy}: {draft:?}");
            for end in 0..run.steps.len() {
                let shorter = fault(edges, nodes, policy, &run.steps[..end]);
                assert!(
                    matches!(shorter, Some(Fault::NotOpen | Fault::Respected)),
                    "{policy}: {draft:?}"
                );
            }
            halted_before += usize::from(judged(&draft, policy, &run.steps));
            shown += 1;
        }
    }
    println!("{shown} counterexamples, on {halted_before} of them another policy is broken before the end");
    assert!(shown > 300 && halted_before > 5);
}

/// Is another policy broken before the end?
fn judged(draft: &Draft, policy: usize, steps: &[Step]) -> bool {
    let mut judge = Judge::new(&draft.policies);
    let answers: Vec<Answer> = steps.iter().map(|step| judge.judge(*step)).collect();
    let first = answers.iter().position(|answer| *answer != Answer::Allowed).unwrap();
    match answers[first] {
        Answer::Violated(named) if first + 1 == steps.len() => {
            // of several at the end the judge names the lowest, which may be another one
            assert!(named <= policy);
            false
        }
        Answer::Violated(named) => {
            assert_ne!(named, policy);
            true
        }
        answer => panic!("{answer:?}"),
    }
}

/// All traces that some run of at most `bound` looked-at runs makes, against the checker: exactly the beginnings of `given` that are
/// traces.
fn made_by_search(nodes: &[Node], given: &[Step], bound: usize) -> (usize, bool) {
    let mut made = 0;
    let mut waiting = vec![Run::start()];
    for _ in 0..bound {
        let Some(run) = waiting.pop() else { return (made, true) };
        if run.is_over() || run.parts().len() > 40 {
            continue;
        }
        for way in [Way::Left, Way::Right] {
            let mut next = run.clone();
            next.advance(nodes, way);
            if next.steps.len() <= given.len() && next.steps == given[..next.steps.len()] {
                made = made.max(next.steps.len());
                waiting.push(next);
            }
            if !run.chooses(nodes) {
                break;
            }
        }
    }
    (made, false)
}

#[test]
fn beginnings_that_are_traces() {
    let mut rng = Rng::new(303);
    let (mut whole, mut cut) = (0, 0);
    for round in 0..1_500 {
        let draft = random_draft(&mut rng, round);
        let mut run = Run::start();
        for _ in 0..rng.between(0, 60) {
            let way = if rng.percent(50) { Way::Left } else { Way::Right };
            run.advance(&draft.nodes, way);
        }
        let mut given = run.steps.clone();
        given.truncate(25);
        assert_eq!(longest_trace(&draft.nodes, &given), given.len(), "{draft:?}");
        if given.is_empty() {
            continue;
        }
        // one step changed, left out or put in
        let at = rng.below(given.len() as u64) as usize;
        let other = given[rng.below(given.len() as u64) as usize];
        match rng.below(5) {
            0 => given[at].a = rng.below(8),
            1 => given[at] = other,
            2 => drop(given.remove(at)),
            3 => given.insert(at, other),
            _ => given.truncate(at),
        }
        let made = longest_trace(&draft.nodes, &given);
        let (found, all) = made_by_search(&draft.nodes, &given, 3_000);
        assert!(found <= made, "{given:?} {draft:?}");
        // the search numbers fresh resources in one way only, so what it lacks must be a create, or come after one
        if all && made != found {
            assert_eq!((given[found].kind, given[found].a), (0, 0), "{given:?} {draft:?}");
        }
        whole += usize::from(all && found == made);
        cut += usize::from(made < given.len());
    }
    println!("{whole} agree with a whole search, {cut} are no trace");
    assert!(whole > 900 && cut > 300);
}

// Case K: creates counted to 6; the outline of I. The shortest: open, create 16, take it, read it, create 17, take, read, create 18.
const SHORTEST_K: &str = "1 0 0; 0 0 16; 0 1 16; 0 2 16; 0 0 17; 0 1 17; 0 2 17; 0 0 18";

#[test]
fn case_k() {
    let (edges, nodes) = tables(POLICIES_K, OUTLINE_I);
    let shown = Counterexample::Shown { policy: 0, steps: steps(SHORTEST_K) };
    assert_eq!(counterexample(&edges, &nodes), shown);
    assert_eq!(shown.numbers(), (1, 0, 8));
    assert_eq!(fault(&edges, &nodes, 0, &steps(SHORTEST_K)), None);
}

#[test]
fn wrong_traces_of_case_k() {
    let (edges, nodes) = tables(POLICIES_K, OUTLINE_I);
    let wrong = |values: &str, why: Fault| {
        assert_eq!(fault(&edges, &nodes, 0, &steps(values)), Some(why), "{values}")
    };
    // numbered from 17; a number left out; two names exchanged; a number given twice; a static
    wrong("1 0 0; 0 0 17; 0 1 17; 0 2 17; 0 0 18; 0 1 18; 0 2 18; 0 0 19", Fault::Misnumbered(1));
    wrong("1 0 0; 0 0 16; 0 1 16; 0 2 16; 0 0 17; 0 1 17; 0 2 17; 0 0 19", Fault::Misnumbered(7));
    wrong("1 0 0; 0 0 17; 0 1 17; 0 2 17; 0 0 16; 0 1 16; 0 2 16; 0 0 18", Fault::Misnumbered(1));
    wrong("1 0 0; 0 0 16; 0 1 16; 0 2 16; 0 0 16; 0 1 16; 0 2 16; 0 0 17", Fault::NotATrace(4));
    wrong("1 0 0; 0 0 15", Fault::NotATrace(1));
    // a name mixed up after a back, an event on what is not created, steps exchanged, left out, one too many
    wrong("1 0 0; 0 0 16; 0 1 16; 0 2 16; 0 0 17; 0 1 16; 0 2 17; 0 0 18", Fault::NotATrace(5));
    wrong("1 0 0; 0 0 16; 0 1 17; 0 2 16; 0 0 17; 0 1 17; 0 2 17; 0 0 18", Fault::NotATrace(2));
    wrong("1 0 0; 0 0 16; 0 2 16; 0 1 16; 0 0 17; 0 1 17; 0 2 17; 0 0 18", Fault::NotATrace(2));
    wrong("0 0 16; 0 1 16; 0 2 16; 0 0 17; 0 1 17; 0 2 17; 0 0 18", Fault::NotATrace(0));
    wrong("1 1 0; 0 0 16; 0 1 16; 0 2 16; 0 0 17; 0 1 17; 0 2 17; 0 0 18", Fault::NotATrace(0));
    wrong(
        "1 0 0; 1 0 0; 0 0 16; 0 1 16; 0 2 16; 0 0 17; 0 1 17; 0 2 17; 0 0 18",
        Fault::NotATrace(1),
    );
    // nothing broken yet; closed; nothing at all
    wrong("1 0 0; 0 0 16; 0 1 16; 0 2 16; 0 0 17; 0 1 17; 0 2 17", Fault::Respected);
    wrong("1 0 0; 2 0 0", Fault::NotOpen);
    wrong("", Fault::NotOpen);
    // one longer than the shortest is a counterexample, but has another length
    let longer = "1 0 0; 0 0 16; 0 1 16; 0 2 16; 0 0 17; 0 1 17; 0 2 17; 0 0 18; 0 1 18";
    assert_eq!(fault(&edges, &nodes, 0, &steps(longer)), None);
    // no trace of another policy
    assert_eq!(fault(&edges, &nodes, 1, &steps(SHORTEST_K)), Some(Fault::NotOpen));
}

/// A step that is none: what lies in a table need not have come from a sheet.
#[test]
fn numbers_that_are_no_step() {
    let (edges, nodes) = tables("0 0 2 1 0 6", "8 0 1; 1 2 3");
    let open = Step::open(0);
    for step in [
        Step { kind: 3, a: 2, b: 3 },
        Step { kind: 0, a: 2, b: 65_539 },
        Step { kind: 256, a: 2, b: 3 },
    ] {
        assert_eq!(fault(&edges, &nodes, 0, &[open, step]), Some(Fault::NotATrace(1)));
    }
    assert_eq!(
        fault(&edges, &nodes, 0, &[Step { b: 1, ..open }, Step::event(2, 3)]),
        Some(Fault::NotATrace(0))
    );
    assert_eq!(fault(&edges, &nodes, 0, &[open, Step::event(2, 3)]), None);
}

/// The closing ends the sandbox; before it, and where another opening is unclosed, the policy is open.
#[test]
fn open_at_the_end() {
    let (edges, nodes) = tables("0 0 2 1 0 6", "8 0 1; 3 2 3; 8 0 4; 8 1 5; 1 2 3; 0 0 0");
    let all = steps("1 0 0; 1 0 0; 0 2 3; 2 0 0; 1 1 0; 2 1 0; 2 0 0");
    let faults: Vec<Option<Fault>> =
        (0..=all.len()).map(|end| fault(&edges, &nodes, 0, &all[..end])).collect();
    let (closed, fine) = (Some(Fault::NotOpen), Some(Fault::Respected));
    assert_eq!(faults, [closed, fine, fine, None, None, None, None, closed]);
    assert_eq!(fault(&edges, &nodes, 1, &all[..5]), Some(Fault::Respected));
}

/// A loop that puts parts without end before its first step: lists of parts have no bound, and still the checker ends.
#[test]
fn parts_without_end() {
    let (edges, nodes) = tables(
        "0 0 1 0 3 1; 0 1 1 0 3 2; 0 2 1 0 3 6",
        "8 0 1; 5 2 0; 4 3 4; 0 0 0; 3 5 6; 6 1 0; 1 1 3",
    );
    assert_eq!(fault(&edges, &nodes, 0, &steps("1 0 0; 0 1 3; 0 1 3; 0 1 3")), None);
    assert_eq!(fault(&edges, &nodes, 0, &steps("1 0 0; 0 1 3; 0 1 4")), Some(Fault::NotATrace(2)));
    assert_eq!(shortest_length(&edges, &nodes, 0), Some(4));
    let run = shortest_run(&edges, &nodes, 0, MOST_SHOWN).unwrap().1.unwrap();
    assert_eq!(run.steps, steps("1 0 0; 0 1 3; 0 1 3; 0 1 3"));
}

#[test]
fn tables_lent() {
    let (edges, nodes) = tables(POLICIES_K, OUTLINE_I);
    let (accepted, _) = tables(P, OUTLINE_I);
    assert_eq!(TABLE_NUMBERS, 600);
    for numbers in [0, 599] {
        assert_eq!(counterexample_tables(&edges.edges, 0, &nodes, numbers), Err(40));
        assert_eq!(counterexample_tables(&accepted.edges, 0, &nodes, numbers), Err(40));
        assert_eq!(counterexample_tables(&edges.edges, 0, &[], numbers), Err(40));
    }
    for numbers in [600, 601] {
        assert_eq!(
            counterexample_tables(&edges.edges, 0, &nodes, numbers),
            Ok(counterexample(&edges, &nodes))
        );
        assert_eq!(counterexample_tables(&accepted.edges, 0, &nodes, numbers), Ok(Counterexample::Accepted));
        assert_eq!(counterexample_tables(&edges.edges, 0, &[], numbers), Err(41));
    }
    assert_eq!(check(&accepted, &nodes), None);
}

/// What the stored cases must have.
#[derive(Debug, Default)]
struct Has {
    lengths: Vec<u64>,
    opening_last: bool,
    never_used: bool,
    seventy: bool,
    after_a_back: bool,
    judge_stops_before: bool,
    short_for_another: bool,
    most_unclosed: Vec<usize>,
    accepted: usize,
    refused: usize,
}

#[test]
fn the_stored_cases_have_every_border() {
    let mut has = Has::default();
    for case in fixed_cases() {
        let Ok((edges, nodes)) = tables_of(&case.policies, &case.other) else {
            has.refused += 1;
            continue;
        };
        match counterexample(&edges, &nodes) {
            Counterexample::Accepted => has.accepted += 1,
            Counterexample::Longer { policy, length } => {
                has.lengths.push(length);
                let other = |p: usize| {
                    shortest_length(&edges, &nodes, p).is_some_and(|length| length <= MOST_SHOWN)
                };
                has.short_for_another |= (policy + 1..POLICIES).any(other);
            }
            Counterexample::Shown { policy, steps } => {
                assert_eq!(fault(&edges, &nodes, policy, &steps), None);
                has.look(&edges, policy, &steps);
            }
        }
    }
    for length in [2, 3, 199, 200, 201, 202] {
        assert!(has.lengths.contains(&length), "{length}: {has:?}");
    }
    // an opening and an event are needed
    assert!(!has.lengths.contains(&0) && !has.lengths.contains(&1));
    assert!(has.opening_last && has.never_used && has.seventy && has.after_a_back, "{has:?}");
    assert!(has.judge_stops_before && has.short_for_another, "{has:?}");
    // the judge's limit of openings, at both sides
    assert!([64, 65].iter().all(|most| has.most_unclosed.contains(most)), "{has:?}");
    assert!(has.accepted >= 5 && has.refused >= 10, "{has:?}");
}

impl Has {
    fn look(&mut self, edges: &Policies, policy: usize, steps: &[Step]) {
        let number = Policy::of(edges, policy);
        let events = seen(&number, steps);
        let offending = |instance| offends(number.states_after(instance, &events));
        let offenders: Vec<_> =
            number.instances(&events).into_iter().filter(|instance| offending(*instance)).collect();
        let last = steps[steps.len() - 1];
        let created = events.iter().filter(|event| event.action == 0).count();
        self.lengths.push(steps.len() as u64);
        self.opening_last |= last.kind == OPEN;
        self.never_used |= offenders.iter().all(|instance| instance.x.is_none());
        self.seventy |= created == 70;
        let most = (0..=steps.len()).map(|end| unclosed(&steps[..end]).len()).max();
        self.most_unclosed.extend(most);
        // a name means again what it meant before a later one was given
        self.after_a_back |= created > 1 && last.kind == 0 && last.a != 0 && last.b == 16;
        let mut judge = Judge::new(edges);
        let stops = steps.iter().position(|step| judge.judge(*step) != Answer::Allowed).unwrap();
        self.judge_stops_before |= stops + 1 < steps.len();
    }
}

/// Case K again, as sheets: what is printed, and the one line that is the same for every program.
#[test]
fn printed() {
    let k = (policies(POLICIES_K), outline(OUTLINE_I));
    assert_eq!(program::why(&k.0, &k.1), String::from_utf8(trace(SHORTEST_K)).unwrap());
    assert_eq!(program::shown(&k.0, &k.1), "1 0 8\n7 1 0 1\n");
    assert_eq!(program::why(&policies(P), &k.1), "kind a b\n");
    assert_eq!(program::shown(&policies(P), &k.1), "0 0 0\n");
    assert_eq!(program::why(b"", &k.1), "line answer detail\n1 3 1\n");
    assert_eq!(program::shown(b"", &k.1), "3 1 0\n");
    assert_eq!(program::why(&k.0, b"node kind a b\n"), "line answer detail\n2 5 9\n");
    assert_eq!(program::shown(&k.0, b"node kind a b\n"), "5 9 0\n");
}
