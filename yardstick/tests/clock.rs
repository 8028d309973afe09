//! One clock, and what counts as one state: tiny statement lists and all the rows of their tables.

mod common;

use common::{all_rows, rows};

#[test]
fn only_ends_are_run_through() {
    all_rows(
        "",
        &[
            ("skip", "0 - 1; 1 - 1"),
            ("skip; delay 0", "0 - 1; 1 - 2; 2 - 2"),
            ("skip; if false then skip endif", "0 - 1; 1 - 2; 2 - 2"),
            ("skip; loop exit endloop", "0 - 1; 1 - 2; 2 - 2"),
            ("loop skip; exit endloop", "0 - 1; 1 - 2; 2 - 2"),
            ("skip; parallel skip || skip endparallel", "0 - 1; 1 - 2; 2 - 2"),
            ("if true then if true then skip endif endif", "0 - 1; 1 - 1"),
            ("switch case false: skip default: skip endswitch", "0 - 1; 1 - 1"),
            ("parallel skip || parallel skip || delay 1 endparallel endparallel", "0 - 1; 1 - 1"),
            ("if true then skip; skip else skip endif; skip", "0 - 1; 1 - 2; 2 - 3; 3 - 3"),
        ],
    );
}

#[test]
fn delays() {
    all_rows(
        "",
        &[
            ("delay 0", "0 - 1; 1 - 1"),
            ("delay 1", "0 - 1; 1 - 1"),
            ("delay 3", "0 - 1; 1 - 2; 2 - 3; 3 - 3"),
            ("skip; delay 2", "0 - 1; 1 - 2; 2 - 3; 3 - 3"),
            ("loop delay 2 endloop", "0 - 1; 1 - 0"),
            // Begun from the loop's head or from the delay's own, one clock left is one state.
            ("loop delay 2; skip endloop", "0 - 1; 1 - 2; 2 - 0"),
        ],
    );
}

#[test]
fn loops() {
    all_rows(
        "input A;",
        &[
            ("loop skip endloop", "0 - 0 0"),
            ("loop delay 0 endloop", "0 - 0 0"),
            ("loop if A then skip endif endloop", "0 - 0 0"),
            // A body that has waited restarts at once when it ends.
            ("loop skip; if false then skip endif endloop", "0 - 1 1; 1 - 1 1"),
            // Its second end in no time waits at the loop.
            ("loop if A then skip; delay 0 endif endloop", "0 - 0 1; 1 - 0 1"),
            // The test is made anew when it restarts.
            ("while A do loop skip; delay 0 endloop", "0 - 1 2; 1 - 1 1; 2 - 1 2"),
            ("while A do loop skip endloop", "0 - 1 0; 1 - 1 1"),
            ("while A do loop delay 0 endloop; skip", "0 - 1 0; 1 - 1 1"),
            // Left by break or exit, the inner statement has finished in that clock.
            ("loop switch case true: skip; break default: skip endswitch endloop", "0 - 1 1; 1 - 1 1"),
            ("loop loop skip; exit endloop endloop", "0 - 1 1; 1 - 1 1"),
            ("loop loop exit endloop endloop", "0 - 0 0"),
            ("loop switch case true: break default: skip endswitch endloop", "0 - 0 0"),
            // Exit passes through switches, break through loops.
            ("loop switch case A: exit default: skip endswitch endloop", "0 - 0 1; 1 - 1 1"),
            (
                "parallel loop if A then break endif endloop || delay 9; skip endparallel; skip",
                "0 - 1 2; 1 - 3 2; 2 - 2 2; 3 - 4 2; \
              4 - 5 2; 5 - 6 2; 6 - 7 2; 7 - 8 2; 8 - 9 2; 9 - 10 2; 10 - 11 2; 11 - 11 2",
            ),
        ],
    );
}

#[test]
fn switches() {
    all_rows(
        "input A;",
        &[
            // After a case one stands at the next test, after the last at the default's own first statement.
            ("switch case A: skip case A: skip default: skip endswitch", "0 - 1 2; 1 - 1 1; 2 - 1 3; 3 - 1 1"),
            // Each test is made when it is reached, and a true case does not stop the switch.
            (
                "switch case true: skip case A: skip; skip default: delay 0 endswitch",
                "0 - 1 1; 1 - 2 3; 2 - 2 2; 3 - 4 4; 4 - 2 2",
            ),
            ("switch case true: skip; break case true: skip default: skip endswitch", "0 - 1 1; 1 - 2 2; 2 - 2 2"),
            // Both cases end at the default's first statement: one state.
            (
                "switch case A: skip; break case !A: skip; default: skip; skip endswitch",
                "0 - 1 2; 1 - 3 3; 2 - 4 4; 3 - 4 4; 4 - 4 4",
            ),
            // The first test is never a place: the switch is.
            ("skip; switch case A: skip default: skip endswitch", "0 - 1 1; 1 - 2 3; 2 - 2 2; 3 - 2 2"),
        ],
    );
}

#[test]
fn branches_agree_or_leave_the_bit() {
    all_rows(
        "output L;",
        &[
            ("parallel raise(L) || lower(L) endparallel", "0 0 1; 1 0 1"),
            ("parallel raise(L) || raise(L) endparallel", "0 0 1; 1 1 1"),
            ("parallel raise(L) || skip endparallel", "0 0 1; 1 1 1"),
            ("parallel invert(L) || raise(L) endparallel", "0 0 1; 1 1 1"),
            // Setting a bit to the value it has is a try.
            ("parallel lower(L) || invert(L) endparallel", "0 0 1; 1 0 1"),
            // All branches are judged together, not two by two.
            ("parallel raise(L) || lower(L) || raise(L) endparallel", "0 0 1; 1 0 1"),
            ("parallel raise(L) || raise(L) || lower(L) endparallel", "0 0 1; 1 0 1"),
            // An inner disagreement does not count against an outer branch.
            ("parallel parallel raise(L) || lower(L) endparallel || raise(L) endparallel", "0 0 1; 1 1 1"),
            ("parallel raise(L) || parallel raise(L) || lower(L) endparallel endparallel", "0 0 1; 1 1 1"),
            ("parallel parallel raise(L) || raise(L) endparallel || lower(L) endparallel", "0 0 1; 1 0 1"),
        ],
    );
    // Integers are judged bit by bit: 1 and 3 agree on bit 0 alone.
    all_rows(
        "output A, B; integer x[2];",
        &[
            (
                "parallel x := 1 || x := 3 endparallel; parallel if x[0] then raise(A) endif || if x[1] then raise(B) endif endparallel",
                "0 0 0 1; 1 0 0 2; 2 1 0 2",
            ),
            ("parallel x := 2 || raise(x[0]) endparallel; if x == 2 then raise(A) endif", "0 0 0 1; 1 0 0 2; 2 1 0 2"),
            ("parallel x := 2 || raise(x[1]) endparallel; if x == 2 then raise(A) endif", "0 0 0 1; 1 0 0 2; 2 1 0 2"),
        ],
    );
}

#[test]
fn reads_see_the_start_of_the_clock() {
    all_rows(
        "output A, B;",
        &[
            ("parallel raise(A) || if A then raise(B) endif endparallel", "0 0 0 1; 1 1 0 1"),
            ("parallel raise(A) || invert(A) || if A then raise(B) else skip endif endparallel", "0 0 0 1; 1 1 0 1"),
            ("raise(A); if A then raise(B) endif", "0 0 0 1; 1 1 0 2; 2 1 1 2"),
        ],
    );
}

#[test]
fn jumps_in_a_parallel() {
    all_rows(
        "output E, B;",
        &[
            // The first branch in the text that jumps decides.
            ("loop parallel exit || break endparallel; raise(B); exit endloop; raise(E)", "0 0 0 1; 1 1 0 1"),
            ("loop parallel break || exit endparallel; raise(B); exit endloop; raise(E)", "0 0 0 1; 1 0 1 2; 2 1 1 2"),
            ("loop parallel skip || break || exit endparallel; raise(B); exit endloop", "0 0 0 1; 1 0 1 2; 2 0 1 2"),
            // All tries are dropped, before the jump and after it in the text.
            ("parallel raise(E) || break || raise(B) endparallel", "0 0 0 1; 1 0 0 1"),
            ("loop parallel raise(E) || exit endparallel endloop; raise(B)", "0 0 0 1; 1 0 1 1"),
            // Tries made after the jump, in the same clock, count.
            ("loop parallel exit || lower(E) endparallel endloop; raise(E)", "0 0 0 1; 1 1 0 1"),
            ("parallel loop exit endloop; raise(E) || raise(B) endparallel", "0 0 0 1; 1 1 1 1"),
            // A jump that a branch catches by itself is none.
            ("parallel loop skip; exit endloop || raise(E); raise(B) endparallel", "0 0 0 1; 1 1 0 2; 2 1 1 2"),
            (
                "parallel switch case true: break default: raise(B) endswitch || raise(E) endparallel",
                "0 0 0 1; 1 1 0 1",
            ),
            // An exit leaves both parallels, a break the inner one.
            ("loop parallel parallel exit || skip endparallel || raise(E) endparallel endloop", "0 0 0 1; 1 0 0 1"),
            ("parallel parallel break || skip endparallel; raise(B) || raise(E) endparallel", "0 0 0 1; 1 1 1 1"),
        ],
    );
}

#[test]
fn branches_that_have_finished() {
    all_rows(
        "input A;",
        &[
            ("parallel skip || skip; skip endparallel", "0 - 1 1; 1 - 2 2; 2 - 2 2"),
            // Of a finished branch only that it has finished is kept.
            ("parallel if A then skip else delay 1 endif || delay 2 endparallel", "0 - 1 1; 1 - 2 2; 2 - 2 2"),
            ("parallel if A then skip endif || delay 2 endparallel", "0 - 1 1; 1 - 2 2; 2 - 2 2"),
            // Both finished in no time: so has the parallel, and what follows runs in the same clock.
            ("parallel delay 0 || if false then skip endif endparallel; skip", "0 - 1 1; 1 - 1 1"),
            ("loop parallel delay 0 || delay 0 endparallel endloop", "0 - 0 0"),
            // The last branch ends in this clock, and the loop restarts at once.
            ("loop parallel skip || skip; delay 0 endparallel endloop", "0 - 1 1; 1 - 1 1"),
            ("loop parallel skip || skip endparallel endloop", "0 - 0 0"),
            // A parallel that has not begun is one activity.
            (
                "parallel skip; parallel skip || skip endparallel || skip; skip; skip endparallel",
                "0 - 1 1; 1 - 2 2; 2 - 3 3; 3 - 3 3",
            ),
        ],
    );
}

#[test]
fn values() {
    let truths = [
        "x - 5 == 0 - 2",
        "x - 5 < 0",
        "!(x - 5 > 0)",
        "(0 - 7) / 2 == 0 - 3",
        "(0 - 7) % 2 == 0 - 1",
        "7 / (0 - 2) == 0 - 3",
        "7 % (0 - 2) == 1",
        "7 / 0 == 0",
        "7 % 0 == 7",
        "(0 - 7) / 0 == 0",
        "(0 - 7) % 0 == 0 - 7",
        "y == 3",
        "int(true) + int(x == 3) == 2",
        "x * 65535 / 65535 == 3",
        "x[0] & x[1] & !x[2]",
        "true != false",
        "b & !c",
    ];
    for truth in truths {
        let declarations = "output A; integer x[3] = 3, y[2] = 7; internal b.L = true, c;";
        assert_eq!(
            rows(&format!("program p; {declarations} if {truth} then raise(A) endif endprog")),
            "0 0 1; 1 1 1",
            "{truth}"
        );
    }
    // What is kept are the low bits of the two's complement form.
    for (width, value, kept) in
        [(3, "x - 5", 6), (16, "0 - 1", 65_535), (1, "2", 0), (4, "(0 - 7) / 2", 13), (2, "7", 3)]
    {
        let source = format!(
            "program p; output A; integer x[{width}] = 3; x := {value}; if x == {kept} then raise(A) endif endprog"
        );
        assert_eq!(rows(&source), "0 0 1; 1 0 2; 2 1 2", "{value}");
    }
}

#[test]
fn numbering_and_listing() {
    // The first declared input is the lowest bit, the first declared output stands first.
    all_rows(
        "input I, J; output X, Y = true; internal b;",
        &[(
            "loop if I then raise(X) endif; if J then lower(Y) endif endloop",
            "0 0 1 0 1 2 1; 1 1 1 3 1 4 4; 2 0 0 2 5 2 5; 3 1 1 3 1 4 1; 4 1 0 4 5 4 5; 5 1 0 4 5 4 4",
        )],
    );
    all_rows("output X, Y = true;", &[("loop skip endloop", "0 0 1 0")]);
}

#[test]
fn the_end_is_one_place() {
    all_rows(
        "input A;",
        &[
            ("if A then skip else delay 1 endif", "0 - 1 1; 1 - 1 1"),
            ("if A then delay 2 endif", "0 - 1 2; 1 - 1 1; 2 - 1 1"),
        ],
    );
}
