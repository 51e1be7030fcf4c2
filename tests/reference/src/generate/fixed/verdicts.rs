//! I to L, and outlines whose verdict hangs on one point of the definitions.

use super::{outline_case, Case, OUTLINE_I, OUTLINE_J, OUTLINE_L, P, POLICIES_J, POLICIES_K};

/// I to L.
pub(super) fn outline_examples() -> Vec<Case> {
    vec![
        outline_case(P, OUTLINE_I),
        outline_case(POLICIES_J, OUTLINE_J),
        outline_case(POLICIES_K, OUTLINE_I),
        outline_case(P, OUTLINE_L),
        outline_case("", OUTLINE_I),
        outline_case("", "0 0 0"),
        outline_case("", ""),
        outline_case("0 0 1 1 1 1", ""),
    ]
}

/// Verdicts that hang on one point of the definitions.
pub(super) fn checked_examples() -> Vec<Case> {
    // Action 2 on x after action 1 on x is offending.
    let twice = "4 0 1 1 0 1; 4 1 2 1 0 6";
    // The same, counting any resource for the first.
    let any = "4 0 1 1 0 1; 4 0 1 2 0 1; 4 1 2 1 0 6";
    let recover = "2 0 1 1 0 6; 2 6 2 1 0 0";
    // A created resource offends until action 1 on it.
    let recover_own = "3 0 0 1 0 6; 3 6 1 1 0 0";
    // Action 6 on x after action 5 on x is offending.
    let five_six = "0 0 5 1 0 1; 0 1 6 1 0 6";
    let lower_later = "5 0 1 0 3 6; 5 6 2 0 3 0; 2 0 2 0 3 6";
    vec![
        // Two names never mean one resource.
        outline_case(twice, "8 4 1; 7 0 2; 7 1 3; 3 4 5; 2 1 0; 2 2 1"),
        outline_case(any, "8 4 1; 7 0 2; 7 1 3; 3 4 5; 2 1 0; 2 2 1"),
        outline_case(twice, "8 4 1; 7 0 2; 7 1 3; 3 4 5; 2 1 0; 2 2 0"),
        // After a back a name means what it meant before: action 1, back, action 2.
        outline_case(twice, "8 4 1; 5 2 0; 4 3 4; 0 0 0; 7 0 5; 3 6 7; 2 1 0; 3 8 9; 6 1 0; 2 2 0"),
        // Action 2, back, action 1: no resource has 1 before 2.
        outline_case(twice, "8 4 1; 5 2 0; 4 3 4; 0 0 0; 7 0 5; 3 6 7; 2 2 0; 3 8 9; 6 1 0; 2 1 0"),
        // The same where the first action may be on any resource.
        outline_case(any, "8 4 1; 5 2 0; 4 3 4; 0 0 0; 7 0 5; 3 6 7; 2 2 0; 3 8 9; 6 1 0; 2 1 0"),
        // Broken before the sandbox opens; recovered before; recovered inside; closed before.
        outline_case(recover, "3 1 2; 1 1 3; 8 2 3; 0 0 0"),
        outline_case(recover, "3 1 2; 3 3 4; 8 2 5; 1 1 3; 1 2 3; 0 0 0"),
        outline_case(recover, "8 2 1; 3 2 3; 1 1 3; 1 2 3"),
        outline_case(recover, "3 1 2; 8 2 3; 1 1 3; 0 0 0"),
        // An inner closing leaves the outer sandbox.
        outline_case(recover, "8 2 1; 3 2 3; 8 2 4; 1 1 3; 0 0 0"),
        outline_case(recover, "3 1 2; 8 2 3; 1 1 3; 8 2 4; 0 0 0"),
        // A sandbox around a back stays open meanwhile; one that was closed does not.
        outline_case(recover, "5 1 0; 4 2 3; 1 1 3; 8 2 4; 6 0 0"),
        outline_case(recover, "5 1 0; 4 2 3; 1 1 3; 3 4 5; 8 2 6; 6 0 0; 0 0 0"),
        outline_case(recover, "5 1 0; 4 2 3; 1 1 3; 3 4 5; 6 0 0; 8 2 6; 0 0 0"),
        // The lowest policy over all traces, broken only after a higher one.
        outline_case(lower_later, "8 5 1; 8 2 2; 3 3 4; 1 1 3; 1 2 3"),
        outline_case(lower_later, "8 2 1; 3 2 3; 8 5 4; 1 2 4; 1 1 3"),
        outline_case("7 0 9 2 0 7; 6 0 9 2 0 6", "8 7 1; 8 6 2; 1 9 3"),
        outline_case("7 0 9 2 0 7; 6 0 9 2 0 6", "8 6 1; 3 2 3; 8 7 4; 0 0 0; 1 9 3"),
        // A loop is no iteration; what follows an endless loop never runs.
        outline_case("1 0 1 0 3 1; 1 1 1 0 3 6", "8 1 1; 5 2 0; 1 1 3"),
        outline_case("1 0 1 0 3 1; 1 1 1 0 3 6", "8 1 1; 5 2 0; 3 3 4; 1 1 3; 6 1 0"),
        outline_case("1 0 1 0 3 6", "8 1 1; 3 2 3; 5 4 0; 1 1 3; 6 2 0"),
        outline_case("1 0 1 0 3 6", "8 1 1; 3 2 3; 5 4 0; 1 1 3; 4 5 6; 6 2 0; 0 0 0"),
        // Sandboxes without end, nested by a back.
        outline_case("0 0 1 0 3 6", "5 1 0; 8 0 2; 6 0 0"),
        outline_case("0 0 1 0 3 6", "5 1 0; 8 0 2; 4 3 4; 6 0 0; 1 1 3"),
        // Create seen by its own instance, by others, and by one that never occurs.
        outline_case("3 0 0 1 0 6", "8 3 1; 7 2 2; 0 0 0"),
        outline_case("3 0 0 2 0 6", "8 3 1; 7 2 2; 0 0 0"),
        outline_case("3 0 0 1 0 1; 3 1 0 1 0 6", "8 3 1; 5 2 0; 7 2 3; 6 1 0"),
        outline_case("3 0 0 1 0 1; 3 1 0 2 0 6", "8 3 1; 5 2 0; 7 2 3; 6 1 0"),
        outline_case("3 0 0 2 0 1; 3 1 0 1 0 6", "8 3 1; 5 2 0; 7 2 3; 6 1 0"),
        outline_case("3 0 0 1 0 6; 3 6 0 2 0 0", "3 1 2; 7 0 3; 8 3 4; 0 0 0; 0 0 0"),
        outline_case("3 0 0 2 0 6; 3 6 1 1 0 0", "7 0 1; 3 2 3; 2 1 0; 8 3 4; 0 0 0"),
        // Created resources that offend and recover before the sandbox opens, or only after.
        outline_case(recover_own, "3 1 2; 7 0 3; 8 3 4; 2 1 0; 0 0 0"),
        outline_case(
            recover_own,
            "3 1 2; 5 3 0; 8 3 4; 4 5 6; 0 0 0; 0 0 0; 7 0 7; 3 8 9; 2 1 0; 6 1 0",
        ),
        outline_case(
            recover_own,
            "3 1 2; 5 3 0; 8 3 4; 4 5 6; 0 0 0; 0 0 0; 7 0 7; 3 9 8; 2 1 0; 6 1 0",
        ),
        outline_case(recover_own, "5 1 0; 4 2 3; 0 0 0; 7 0 4; 3 5 6; 2 1 0; 8 3 7; 6 0 0"),
        outline_case(
            recover_own,
            "5 1 0; 4 2 3; 8 3 8; 7 0 4; 3 5 6; 2 1 0; 3 7 9; 6 0 0; 0 0 0; 0 0 0",
        ),
        outline_case(
            recover_own,
            "5 1 0; 4 2 3; 8 3 8; 7 0 4; 3 6 5; 2 1 0; 3 7 9; 6 0 0; 0 0 0; 0 0 0",
        ),
        outline_case(
            "1 0 1 1 0 6; 1 6 1 1 0 7; 1 7 1 1 0 0",
            "3 1 2; 3 3 4; 8 1 5; 3 6 7; 1 1 9; 0 0 0; 1 1 9; 1 1 9",
        ),
        outline_case(
            "1 0 1 1 0 6; 1 6 1 1 0 7; 1 7 1 1 0 0",
            "3 1 2; 3 3 4; 8 1 5; 0 0 0; 1 1 9; 0 0 0",
        ),
        // Each activation's name is a resource of its own.
        outline_case(POLICIES_J, "8 0 1; 5 2 0; 7 0 3; 3 4 5; 2 5 0; 7 1 6; 3 7 8; 2 5 1; 6 1 0"),
        outline_case(five_six, "8 0 1; 5 2 0; 7 2 3; 3 4 5; 2 6 2; 3 6 7; 2 5 2; 6 1 0"),
        outline_case(five_six, "8 0 1; 5 2 0; 7 2 3; 3 4 5; 2 5 2; 3 6 7; 2 6 2; 6 1 0"),
        outline_case(
            five_six,
            "8 0 1; 5 2 0; 4 3 4; 0 0 0; 7 2 5; 3 6 7; 2 6 2; 3 8 9; 6 1 0; 2 5 2",
        ),
        outline_case(
            five_six,
            "8 0 1; 5 2 0; 4 3 4; 0 0 0; 7 2 5; 3 6 7; 2 5 2; 3 8 9; 6 1 0; 2 6 2",
        ),
    ]
}
