//! Policies that look only at their sandbox: the paper's case under both meanings, and what the fixed cases have.

use reference::generate::fixed::local::{both, local, neither, sandbox_outlines, sandbox_traces};
use reference::generate::fixed::{outline, policies, trace, P};
use reference::generate::{counterexamples, outlines, traces, Case, Kind};
use reference::judge::{seen, Step};
use reference::policy::{Policies, Policy, Sight};
use reference::program::{check, monitor, shown};
use reference::rng::Rng;
use reference::sheet::{read_policies, Refusal, LOCAL_NAMES, POLICY_NAMES};

fn judged(edges: &str, steps: &str) -> [String; 2] {
    let whole = Case { policies: policies(edges), other: trace(steps) };
    [whole.clone(), local(&whole)].map(|case| {
        let printed = monitor(&case.policies, &case.other);
        printed.strip_prefix("line answer detail\n").unwrap().replace('\n', ";")
    })
}

fn checked(edges: &str, nodes: &str) -> [String; 2] {
    let whole = Case { policies: policies(edges), other: outline(nodes) };
    [whole.clone(), local(&whole)].map(|case| {
        let printed = check(&case.policies, &case.other);
        printed.strip_prefix("line answer detail\n").unwrap().replace('\n', ";")
    })
}

#[test]
fn case_c() {
    assert_eq!(judged(P, "0 2 3; 1 0 0"), ["2 0 0;3 1 0;", "2 0 0;3 0 0;"]);
    assert_eq!(judged(P, "0 2 3; 1 0 0; 0 2 3"), ["2 0 0;3 1 0;4 2 20;", "2 0 0;3 0 0;4 1 0;"]);
}

#[test]
fn what_was_done_before_is_forgotten() {
    assert_eq!(judged(P, "0 1 3; 1 0 0; 0 2 3"), ["2 0 0;3 0 0;4 0 0;", "2 0 0;3 0 0;4 1 0;"]);
    let opened_again = "1 0 0; 0 1 3; 2 0 0; 1 0 0; 0 2 3";
    assert_eq!(judged(P, opened_again).map(|told| told[24..].to_string()), ["6 0 0;", "6 1 0;"]);
}

#[test]
fn a_nested_opening_forgets_nothing() {
    for told in judged(P, "1 0 0; 0 1 3; 1 0 0; 0 2 3; 2 0 0; 0 2 3") {
        assert_eq!(told, "2 0 0;3 0 0;4 0 0;5 0 0;6 0 0;7 0 0;");
    }
    for told in judged("0 0 1 1 0 1; 0 1 2 1 0 6", "1 0 0; 0 1 3; 1 0 0; 0 2 3") {
        assert_eq!(told, "2 0 0;3 0 0;4 0 0;5 1 0;");
    }
}

#[test]
fn backs_inside_and_after_the_sandbox() {
    let after = "0 0 1 1 0 1; 0 1 2 1 0 6";
    // loop: open, and read, or take and the loop again; then close
    assert_eq!(checked(after, "5 1 0; 8 0 2; 4 3 4; 1 2 3; 3 5 6; 1 1 3; 6 0 0"), ["0 1 0;", "0 1 0;"]);
    // loop: open, and take or read; close; the loop again
    assert_eq!(checked(after, "5 1 0; 3 2 3; 8 0 4; 6 0 0; 4 5 6; 1 1 3; 1 2 3"), ["0 1 0;", "0 0 0;"]);
}

#[test]
fn what_a_policy_sees() {
    let steps = [
        Step::event(1, 3),
        Step::open(2),
        Step::event(2, 3),
        Step::open(5),
        Step::open(2),
        Step::event(3, 3),
        Step::close(2),
        Step::close(5),
        Step::close(2),
        Step::event(4, 3),
        Step::open(2),
    ];
    let actions = |sight: Sight, number: usize, end: usize| {
        let policy = Policy::of(&Policies { sight, edges: vec![] }, number);
        seen(&policy, &steps[..end]).iter().map(|event| event.action).collect::<Vec<u64>>()
    };
    for end in 0..=steps.len() {
        let all = [1, 2, 3, 4].into_iter().filter(|n| steps[..end].contains(&Step::event(*n, 3)));
        assert_eq!(actions(Sight::Whole, 2, end), all.collect::<Vec<u64>>());
    }
    let seen: Vec<Vec<u64>> = (0..=steps.len()).map(|end| actions(Sight::Local, 2, end)).collect();
    let due: [&[u64]; 12] =
        [&[], &[1], &[], &[2], &[2], &[2], &[2, 3], &[2, 3], &[2, 3], &[2, 3], &[2, 3, 4], &[]];
    assert_eq!(seen, due);
    assert_eq!(actions(Sight::Local, 5, 11), [3, 4]);
    assert_eq!(actions(Sight::Local, 6, 11), [1, 2, 3, 4]);
}

#[test]
fn names_lines() {
    let refusal = |text: &[u8]| read_policies(text).err();
    let neither_line = Some(Refusal { number: 1, line: 1 });
    assert_eq!(read_policies(b"local from action on who to\n").unwrap().sight, Sight::Local);
    assert_eq!(read_policies(b"policy from action on who to\n").unwrap().sight, Sight::Whole);
    for text in [
        &b"local from action on who to"[..],
        b"Local from action on who to\n",
        b"local from action on who to \n",
        b"policy local from action on who to\n",
        b"from action on who to\n",
    ] {
        assert_eq!(refusal(text), neither_line);
    }
    assert_eq!(
        refusal(b"local from action on who to\npolicy from action on who to\n"),
        Some(Refusal { number: 11, line: 2 })
    );
    let refusals: Vec<Option<Refusal>> = neither().iter().map(|text| refusal(text)).collect();
    assert!(refusals.iter().filter(|refusal| **refusal == neither_line).count() >= 35);
    for number in [2, 3, 4, 5, 11, 12, 13] {
        assert!(refusals.iter().flatten().any(|refusal| refusal.number == number), "{number}");
    }
}

/// The fixed cases tell the two meanings apart, in both directions.
#[test]
fn the_fixed_cases_tell_them_apart() {
    let traces = tally(both(sandbox_traces()), |case| monitor(&case.policies, &case.other));
    assert!(traces.iter().all(|pairs| *pairs >= 6), "{traces:?}");
    let outlines = tally(both(sandbox_outlines()), |case| check(&case.policies, &case.other));
    assert!(outlines.iter().all(|pairs| *pairs >= 6), "{outlines:?}");
}

/// Random sheets, half of which are local: on many the other meaning has other answers.
#[test]
fn random_cases_tell_them_apart() {
    for (kind, least) in [(Kind::Trace, 25), (Kind::Outline, 5), (Kind::Counterexample, 5)] {
        let printed = |case: &Case| match kind {
            Kind::Trace => monitor(&case.policies, &case.other),
            Kind::Outline => check(&case.policies, &case.other),
            Kind::Counterexample => shown(&case.policies, &case.other),
        };
        let mut rng = Rng::new(401);
        let (mut locals, mut differ, mut all) = (0, 0, 0);
        while all < 300 {
            let cases = match kind {
                Kind::Trace => vec![traces::random_case(&mut rng)],
                Kind::Outline => outlines::random_cases(&mut rng),
                Kind::Counterexample => counterexamples::random_cases(&mut rng),
            };
            all += cases.len();
            for case in cases.iter().filter(|case| case.policies.starts_with(LOCAL_NAMES.as_bytes())) {
                let values = &case.policies[LOCAL_NAMES.len()..];
                let whole = [POLICY_NAMES.as_bytes(), values].concat();
                locals += 1;
                differ += usize::from(printed(case) != printed(&Case { policies: whole, ..case.clone() }));
            }
        }
        println!("{kind:?}: {locals} of {all} local, {differ} of them answered otherwise by the whole past");
        assert!(locals * 100 >= all * 40 && differ * 100 >= locals * least);
    }
}

/// How many pairs only the whole past objects to, only the local one does, and for how many it is the same.
fn tally(cases: Vec<Case>, printed: impl Fn(&Case) -> String) -> [usize; 3] {
    let mut tally = [0; 3];
    for pair in cases.chunks(2) {
        let texts = [printed(&pair[0]), printed(&pair[1])];
        let lines = texts.each_ref().map(|text| {
            let objects = |line: &&str| line.split(' ').nth(1) == Some("1");
            text.lines().position(|line| objects(&line)).unwrap_or(usize::MAX)
        });
        assert!(texts.iter().all(|text| !text.contains(" 3 ") && !text.contains(" 5 ")), "{texts:?}");
        tally[match lines[0].cmp(&lines[1]) {
            std::cmp::Ordering::Less => 0,
            std::cmp::Ordering::Greater => 1,
            std::cmp::Ordering::Equal => 2,
        }] += 1;
    }
    println!("{tally:?}");
    tally
}
