//! The paper's examples: P, the printed trace, and the cases A to L.

use reference::generate::fixed::{
    outline, policies, trace, OUTLINE_I, OUTLINE_J, OUTLINE_L, P, POLICIES_J, POLICIES_K, TRACE,
};
use reference::program::{check, monitor};
use reference::run::{Run, Way};
use reference::sheet::read_outline;

fn judged(edges: &str, steps: &str) -> String {
    let printed = monitor(&policies(edges), &trace(steps));
    printed.strip_prefix("line answer detail\n").unwrap().replace('\n', ";")
}

fn checked(edges: &str, nodes: &str) -> String {
    let printed = check(&policies(edges), &outline(nodes));
    printed.strip_prefix("line answer detail\n").unwrap().replace('\n', ";")
}

#[test]
fn the_sheets_are_those_of_the_paper() {
    let p = "policy from action on who to\n0 0 1 1 0 1\n0 1 3 1 0 0\n0 0 2 1 0 6\n";
    let t = "kind a b\n1 0 0\n0 0 16\n0 1 16\n0 2 16\n0 0 17\n0 2 17\n0 3 16\n";
    assert_eq!(policies(P), p.as_bytes());
    assert_eq!(trace(TRACE), t.as_bytes());
}

#[test]
fn a_empty_trace() {
    assert_eq!(judged(P, ""), "");
}

#[test]
fn b_printed_trace() {
    let printed = "line answer detail\n2 0 0\n3 0 0\n4 0 0\n5 0 0\n6 0 0\n7 1 0\n8 2 20\n";
    assert_eq!(monitor(&policies(P), &trace(TRACE)), printed);
}

#[test]
fn c_violated_at_the_opening() {
    assert_eq!(judged(P, "0 2 3; 1 0 0"), "2 0 0;3 1 0;");
}

#[test]
fn d_offending_state_left() {
    let edges = format!("{P}; 0 6 3 1 0 0");
    assert_eq!(judged(&edges, "0 2 3; 0 3 3; 1 0 0"), "2 0 0;3 0 0;4 0 0;");
}

#[test]
fn e_inner_closing() {
    assert_eq!(judged(P, "1 0 0; 1 0 0; 2 0 0; 0 2 3"), "2 0 0;3 0 0;4 0 0;5 1 0;");
}

#[test]
fn f_instance_that_never_occurred() {
    assert_eq!(judged("0 0 4 2 0 6", "1 0 0; 0 4 3"), "2 0 0;3 1 0;");
}

#[test]
fn g_several_edges() {
    assert_eq!(judged("0 0 2 1 0 1; 0 0 2 1 0 6", "1 0 0; 0 2 3"), "2 0 0;3 1 0;");
}

#[test]
fn h_refused_steps() {
    assert_eq!(judged("", "0 0 15"), "2 2 22;");
    assert_eq!(judged("", "0 0 16; 0 0 16"), "2 0 0;3 2 27;");
    assert_eq!(judged("", "0 2 16"), "2 2 24;");
}

#[test]
fn i_accepted() {
    assert_eq!(checked(P, OUTLINE_I), "0 0 0;");
}

#[test]
fn j_fresh_resources_differ() {
    assert_eq!(checked(POLICIES_J, OUTLINE_J), "0 0 0;");
}

#[test]
fn k_creates_counted() {
    assert_eq!(checked(POLICIES_K, OUTLINE_I), "0 1 0;");
}

#[test]
fn l_no_trace_but_the_empty_one() {
    assert_eq!(checked(P, OUTLINE_L), "0 0 0;");
    let nodes = read_outline(&outline(OUTLINE_L)).unwrap();
    let mut run = Run::start();
    for _ in 0..1_000 {
        run.advance(&nodes, Way::Left);
        assert!(run.steps.is_empty() && !run.is_over());
    }
}

#[test]
fn limits_of_creates_and_openings() {
    let creates: String = (16..81).map(|r| format!("0 0 {r};")).collect();
    let printed = judged("", &creates);
    assert!(printed.ends_with("65 0 0;66 2 30;"), "{printed}");
    let printed = judged("", &"1 3 0;".repeat(65));
    assert!(printed.ends_with("65 0 0;66 2 32;"), "{printed}");
    let across: String = (0..65).map(|n| format!("1 {} 0;", n % 8)).collect();
    let printed = judged("", &across);
    assert!(printed.ends_with("65 0 0;66 2 32;"), "{printed}");
}

#[test]
fn sandboxes_close_inside_out() {
    let opened = "2 0 0;3 0 0;";
    assert_eq!(judged("", "1 0 0; 1 1 0; 2 0 0; 2 1 0; 2 0 0"), format!("{opened}4 2 26;5 0 0;6 0 0;"));
    assert_eq!(judged("", "1 0 0; 1 1 0; 2 2 0; 2 1 0; 2 1 0"), format!("{opened}4 2 25;5 0 0;6 2 25;"));
    // a policy in two places: its outer opening is not closed by name
    assert_eq!(
        judged("", "1 0 0; 1 1 0; 1 0 0; 2 1 0; 2 0 0; 2 0 0; 2 1 0; 2 0 0"),
        format!("{opened}4 0 0;5 2 26;6 0 0;7 2 26;8 0 0;9 0 0;")
    );
    // what was refused is open still
    assert_eq!(judged(P, "1 0 0; 1 1 0; 2 0 0; 0 2 3"), format!("{opened}4 2 26;5 1 0;"));
}

#[test]
fn refused_sheets_print_one_line() {
    let p = policies(P);
    assert_eq!(monitor(&[], &[]), "line answer detail\n1 3 1\n");
    assert_eq!(monitor(&p, &[]), "line answer detail\n1 4 1\n");
    assert_eq!(check(&p, &[]), "line answer detail\n1 5 1\n");
    assert_eq!(check(&p, b"node kind a b\n"), "line answer detail\n2 5 9\n");
    assert_eq!(monitor(&[b' '; 32_769], &[]), "line answer detail\n0 3 5\n");
}
