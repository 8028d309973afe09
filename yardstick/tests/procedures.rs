//! T-01, sentence by sentence, and how its open points are read; `^` marks the place of a refusal.

mod common;

use std::time::Instant;

use common::{all_compile, all_refused, compiled, rows, states};

/// What the statement lists below use, before their procedures.
const VARIABLES: &str = "input I, J; output A, B; integer x[3] = 1, y[3], z[16];";

/// A program of procedures and a list.
fn program(procedures: &str, list: &str) -> String {
    format!("program p; {VARIABLES} {procedures} {list} endprog")
}

/// Checks that a list with procedures makes the same table as one without.
fn same(procedures: &str, list: &str, expanded: &str) {
    let [one, other] = [program(procedures, list), program("", expanded)].map(|source| compiled(&source));
    let (one, other) = (one.expect(list), other.expect(expanded));
    assert_eq!(one.table, other.table, "{procedures} {list}");
    assert_eq!(one.file, other.file, "{procedures} {list}");
}

/// Checks that each list, with `^` at the place, is refused with `number`.
fn refused(number: u8, procedures: &str, lists: &[&str]) {
    for list in lists {
        all_refused(number, &[&program(procedures, list)]);
    }
}

/// Checks that each list compiles with the procedures.
fn compiles(procedures: &str, lists: &[&str]) {
    for list in lists {
        all_compile(&[&program(procedures, list)]);
    }
}

/// `count` statements.
fn skips(count: usize) -> String {
    vec!["skip"; count].join(";")
}

/// A sum of `count` ones: that many parts and one less.
fn ones(count: usize) -> String {
    vec!["1"; count].join("+")
}

/// `list` inside so many loops.
fn loops(count: usize, list: &str) -> String {
    format!("{}{list}{}", "loop ".repeat(count), " endloop".repeat(count))
}

#[test]
fn among_the_declarations() {
    all_compile(&[
        "program p; procedure w() skip endproc w() endprog",
        "program p; procedure w() skip endproc; w() endprog",
        "program p; procedure w() skip; endproc; w() endprog",
        "program p; procedure w() skip endproc procedure v() w() endproc input A; procedure u(a,b) v() endproc u(A,1) endprog",
        "program p; input A; procedure wait(exp)\n while !(exp) do loop skip endloop\nendproc\n\nloop wait(A); skip endloop endprog",
    ]);
    all_refused(
        5,
        &[
            "program p; procedure ^() skip endproc skip endprog",
            "program p; procedure ^if() skip endproc skip endprog",
            "program p; procedure w ^skip endproc skip endprog",
            "program p; procedure w(^3) skip endproc skip endprog",
            "program p; procedure w(a,^) skip endproc skip endprog",
            "program p; procedure w(a ^b) skip endproc skip endprog",
            "program p; procedure w(a^.H) skip endproc skip endprog",
            "program p; procedure w(a^[2]) skip endproc skip endprog",
            "program p; procedure w() ^endproc skip endprog",
            "program p; procedure w()^; skip endproc skip endprog",
            "program p; procedure w() skip ^endprog",
            "program p; procedure w() ^input A; skip endproc skip endprog",
            "program p; procedure w() ^procedure v() skip endproc skip endproc skip endprog",
            "program p; procedure w() skip endproc;^; skip endprog",
            "program p; procedure w() skip endproc^, v() skip endproc skip endprog",
            "program p; procedure w() skip endproc ^endprog",
            "program p; skip; ^procedure w() skip endproc endprog",
            "program p; skip; ^endproc endprog",
        ],
    );
}

#[test]
fn calls_are_statements() {
    refused(
        5,
        "procedure w(a) skip endproc procedure v() skip endproc",
        &[
            "w^; skip",
            "w ^a",
            "w(^; skip",
            "w(^,1)",
            "w(1,^)",
            "w(1 ^2)",
            "w(x ^:= 1)",
            "w(1)^(1)",
            "v()^.H",
            "x := v^()",
            "x := w^(1)",
            "if I then v() else ^endif",
        ],
    );
    same("procedure v() skip endproc", "v()", "skip");
    same("procedure v() skip; skip endproc", "v(); v();", "skip; skip; skip; skip");
    same(
        "procedure v() invert(A); delay 2 endproc",
        "if I then v() else v(); endif; loop v(); if J then exit endif endloop; while !I do loop v() endloop; \
         switch case J: v() default: v(); endswitch; parallel v() || v(); v() endparallel",
        "if I then invert(A); delay 2 else invert(A); delay 2; endif; loop invert(A); delay 2; if J then exit endif endloop; \
         while !I do loop invert(A); delay 2 endloop; switch case J: invert(A); delay 2 default: invert(A); delay 2; \
         endswitch; parallel invert(A); delay 2 || invert(A); delay 2; invert(A); delay 2 endparallel",
    );
}

#[test]
fn formals_are_replaced_as_if_in_parentheses() {
    let double = "procedure double(to, from) to := from * 2 endproc";
    same(double, "double(x, x + 1)", "x := (x + 1) * 2");
    let test = "procedure test(a) if !a then raise(A) endif endproc";
    same(test, "test(I | J)", "if !(I | J) then raise(A) endif");
    same(test, "test(x == 1)", "if !(x == 1) then raise(A) endif");
    // An operand that begins with `!` stands in parentheses too.
    let compare = "procedure compare(a) if x == int(a) then raise(B) endif endproc";
    same(compare, "compare(!I)", "if x == int((!I)) then raise(B) endif");
    refused(7, "procedure add(a) x := x + a endproc", &["^add(!I)"]);
    // Both formals at once: an actual is not looked at for formals of its own procedure.
    let late = "procedure swap(u, v) x := u - v endproc integer u[2], v[2];";
    same(late, "u := 1; swap(v, u)", "skip; x := 0 - 1");
    // By name: each read sees the values of its own clock.
    same(
        "procedure wait(exp) while !(exp) do loop skip endloop endproc",
        "loop wait(I & A | J); invert(A) endloop",
        "loop while !(I & A | J) do loop skip endloop; invert(A) endloop",
    );
}

#[test]
fn changed_and_indexed_formals_are_replaced_bare() {
    let up = "procedure up(a) raise(a) endproc";
    same(up, "up(A)", "raise(A)");
    same(up, "up(x[2])", "raise(x[2])");
    same("procedure flip(a) invert(a[1]); lower(a[0]) endproc", "flip(x)", "invert(x[1]); lower(x[0])");
    same("procedure set(a, b) a := b; y := a endproc", "set(x, 1 + x)", "x := (1 + x); y := (x)");
    same(
        "procedure show(a) if a[0] & !a[1] then raise(A) endif endproc",
        "show(x)",
        "if x[0] & !x[1] then raise(A) endif",
    );
    same(
        "procedure in(a) lower(a) endproc procedure out(b, c) in(b); in(c[1]); in(x[0]) endproc",
        "out(A, x); out(x[2], y)",
        "lower(A); lower(x[1]); lower(x[0]); lower(x[2]); lower(y[1]); lower(x[0])",
    );
}

#[test]
fn jumps_leave_what_stands_around_the_call() {
    let jumps = "procedure leave() exit endproc procedure stop() if I then break endif endproc";
    same(jumps, "loop skip; if I then leave() endif endloop", "loop skip; if I then exit endif endloop");
    same(
        jumps,
        "parallel loop stop() endloop || loop invert(A) endloop endparallel",
        "parallel loop if I then break endif endloop || loop invert(A) endloop endparallel",
    );
    same(
        "procedure body() loop raise(B); exit endloop; exit endproc",
        "loop body() endloop; raise(A)",
        "loop loop raise(B); exit endloop; exit endloop; raise(A)",
    );
    refused(8, jumps, &["^leave()", "^stop()", "loop ^stop() endloop", "parallel skip || ^leave() endparallel"]);
    refused(
        8,
        &format!("{jumps} procedure out() loop skip endloop; stop(); leave() endproc"),
        &["loop ^out() endloop"],
    );
}

#[test]
fn an_expanded_call_is_no_statement_and_no_place() {
    assert_eq!(states("program p; procedure w() skip endproc w(); w() endprog"), "3 states");
    assert_eq!(states("program p; procedure w() skip endproc procedure v() w() endproc v(); v() endprog"), "3 states");
    assert_eq!(rows("program p; procedure w() delay 0 endproc w() endprog"), "0 - 1; 1 - 1");
    // The chain of calls is part of a place: the same body twice is two places.
    assert_eq!(states("program p; procedure w() delay 2 endproc w(); w() endprog"), "5 states");
    compiles(&format!("procedure w() {} endproc procedure v() w() endproc", skips(255)), &["v()"]);
    refused(9, &format!("procedure w() {} endproc", skips(254)), &["w(); skip; ^skip"]);
}

#[test]
fn declared_before_any_call() {
    refused(6, "", &["^w()", "^A()", "^x(1)", "^p()", "skip; loop ^w(I, 2) endloop"]);
    // In a body, a call sees the procedures before that body's own; the outermost call is the place.
    refused(6, "procedure v() skip; w() endproc procedure w() skip endproc", &["w(); ^v()"]);
    refused(6, "procedure v() v() endproc", &["skip; ^v()"]);
    refused(6, "procedure v() u() endproc procedure w() v() endproc", &["skip; ^w()"]);
    refused(
        6,
        "procedure v() skip endproc procedure w() if I then v() endif; A() endproc",
        &["v(); loop ^w() endloop"],
    );
    // Calls of formals.
    refused(6, "procedure w() skip endproc procedure v(a) a() endproc", &["^v(w)", "^v(I)"]);
}

#[test]
fn a_wrong_count_of_actuals() {
    let with = "procedure none() skip endproc procedure two(a, b) skip endproc procedure bad() two(1) endproc";
    refused(6, with, &["^none(1)", "^two()", "^two(1)", "two(1, 2); ^two(1, 2, 3)", "^bad()"]);
    compiles(with, &["none(); two(1, I)"]);
}

#[test]
fn what_is_changed_or_indexed_is_a_name() {
    let with = "procedure up(a) raise(a) endproc procedure set(a) a := 1 endproc procedure bit(a) raise(a[0]) endproc \
                procedure read(a) if a[0] then skip endif endproc";
    refused(6, with, &["^up(1)", "^up((A))", "^up((x[0]))", "^up(!A)", "^up(A & B)", "^up(true)", "^up(int(A))"]);
    refused(6, with, &["^set(1)", "^set((x))", "^set(x[0])", "^set(x + 1)"]);
    refused(6, with, &["^bit((x))", "^bit(x[0])", "^bit(1)"]);
    refused(6, with, &["^read(x[0])", "^read((x))", "^read(7)", "^read(x + 1)"]);
    compiles(with, &["up(A); up(x[0]); set(x); bit(x); read(x)"]);
    // Names all the same, so that what is wrong with them is said of the expansion.
    refused(6, with, &["^up(no)", "^set(no)", "^bit(no)", "^read(no)", "^up(no[1])"]);
    refused(
        7,
        with,
        &["^up(I)", "^up(x)", "^up(x[3])", "^up(A[0])", "^set(A)", "^set(I)", "^bit(A)", "^bit(I)", "^read(A)"],
    );
    // The hardest use counts.
    refused(6, "procedure both(a) raise(a); if a[0] then skip endif endproc", &["^both(x[0])"]);
    refused(7, "procedure both(a) raise(a); if a[0] then skip endif endproc", &["^both(x)", "^both(A)"]);
}

#[test]
fn a_formal_handed_on_stays_the_name_that_it_stands_for() {
    let with = "procedure up(a) raise(a) endproc procedure set(a) a := 1 endproc procedure on(a) up(a) endproc \
                procedure to(b) set(b) endproc procedure bit(c) up(c[1]) endproc procedure par(c) up((c)) endproc";
    compiles(with, &["on(A); on(x[1]); to(x); bit(x)"]);
    refused(6, with, &["^on(1)", "^on((A))", "^to(x[1])", "^to((x))", "^bit(x[1])", "^bit(1)", "^par(A)"]);
    refused(7, with, &["^on(I)", "^to(A)", "^bit(A)"]);
}

#[test]
fn a_bit_of_a_formal_inside_an_actual() {
    let with = "procedure use(a) if a then skip endif endproc procedure drop(a) skip endproc \
                procedure used(b) use(b[1]) endproc procedure dropped(b) drop(b[1]) endproc \
                procedure deep(b) use(!(b[1] & true)) endproc";
    refused(6, with, &["^used(1)", "^used(x[1])", "^used((x))", "^deep(1)", "^deep(x[1])"]);
    compiles(with, &["used(x); deep(x); dropped(x); dropped(x[1]); dropped(1); dropped((x)); dropped(no)"]);
}

#[test]
fn a_formal_that_repeats_a_declared_name() {
    all_refused(
        6,
        &[
            "program p; input A; procedure w(^A) skip endproc skip endprog",
            "program p; procedure w(^w) skip endproc skip endprog",
            "program p; procedure w(a, ^a, a) skip endproc skip endprog",
            "program p; procedure v() skip endproc procedure w(b, ^v) skip endproc skip endprog",
            "program p; input A; procedure w(^A) skip endproc w(1, 2) endprog",
        ],
    );
    all_compile(&[
        // What is declared after it clashes with nothing, and the formal is the formal.
        "program p; procedure w(A) if A then skip endif endproc input A; integer B[2]; w(B == 1) endprog",
        "program p; procedure w(a) skip endproc procedure v(a) skip endproc w(1); v(2) endprog",
        "program p; procedure w(v) skip endproc procedure v() skip endproc w(1); v() endprog",
        "program p; procedure w(p) if p then skip endif endproc w(true) endprog",
    ]);
}

#[test]
fn one_name_space() {
    all_refused(
        6,
        &[
            "program p; input w; procedure ^w() skip endproc skip endprog",
            "program p; procedure w() skip endproc input ^w; skip endprog",
            "program p; procedure w() skip endproc integer x[2], ^w[2]; skip endprog",
            "program p; procedure w() skip endproc procedure ^w() skip endproc w() endprog",
            "program p; procedure w() skip endproc if ^w then skip endif endprog",
            "program p; procedure w() skip endproc raise(^w) endprog",
            "program p; procedure w() skip endproc ^w := 1 endprog",
            "program p; procedure w() skip endproc procedure v(a) if a then skip endif endproc ^v(w) endprog",
            "program p; procedure w() skip endproc procedure v(a) raise(a) endproc ^v(w) endprog",
        ],
    );
    all_compile(&["program p; procedure p() skip endproc p() endprog"]);
}

#[test]
fn a_callers_formals_are_unknown_in_the_callee() {
    let with = "procedure in() if a then skip endif endproc procedure out(a) in() endproc";
    refused(6, with, &["^out(I)"]);
    same("procedure in(b) y := b endproc procedure out(a, b) in(a) endproc", "out(3, 2)", "y := 3");
    same("procedure in(a, b) y := a - b endproc procedure out(a, b) in(b, a) endproc", "out(3, 2)", "y := 2 - 3");
    // A name that is a formal there and a variable here.
    same("procedure in() y := a endproc procedure out(a) in() endproc integer a[2] = 2;", "out(3)", "y := 2");
}

#[test]
fn a_body_may_use_what_is_declared_after_it() {
    all_compile(&["program p; procedure w() raise(A); x := x + 1 endproc output A; integer x[2]; w() endprog"]);
    assert_eq!(
        rows("program p; procedure w() raise(A) endproc output B; output A; w() endprog"),
        rows("program p; output B; output A; raise(A) endprog")
    );
}

#[test]
fn a_body_is_checked_as_expanded_at_the_outermost_call() {
    let with = "procedure inner(a) if a then raise(no) endif endproc procedure kinds(a) x := 1 + a endproc \
                procedure outer(a) skip; kinds(a) endproc procedure tests(a) if a then skip endif endproc \
                procedure large(a) z := z * a endproc procedure larger(a) if true then large(a + 1) endif endproc";
    refused(6, with, &["skip; ^inner(I)", "^tests(no)", "^kinds(x + no)", "^inner(no)"]);
    refused(7, with, &["^kinds(I)", "^outer(true)", "^outer(x + I)", "^tests(x)", "^tests(!x)"]);
    refused(
        10,
        with,
        &["^large(32769)", "large(32768); ^larger(32768)", "larger(32767); ^large(z)", "^tests(z * z == 1)"],
    );
    compiles(with, &["kinds(1); outer(x); tests(x == 1); tests(I); large(32768); larger(32767)"]);
    // The lowest number wins, then the earliest place.
    refused(6, with, &["kinds(I); ^kinds(no); tests(no)"]);
    refused(7, with, &["^kinds(I); kinds(I)", "^if x then skip endif; kinds(I)", "large(z); ^kinds(I)"]);
}

#[test]
fn what_is_not_expanded_is_read_for_words_and_grammar_only() {
    let bad = "procedure bad(a) raise(no); x := I; exit; delay 999; bad(1); later(); z := z * z * z; a := a[9]; \
               parallel skip || skip || skip || skip || skip || skip || skip || skip || skip endparallel endproc";
    compiles(bad, &["skip"]);
    compiles(&format!("{bad} procedure worse() bad(1); bad() endproc procedure later() skip endproc"), &["later()"]);
    all_refused(4, &["program p; procedure w() delay ^65536 endproc skip endprog"]);
    all_refused(5, &["program p; procedure w() raise(^1) endproc skip endprog"]);
    // Levels as they are written are refused with 5 everywhere.
    let deep = |levels: usize| format!("procedure deep() {} endproc", loops(levels, "skip"));
    compiles(&deep(32), &["skip"]);
    all_refused(5, &[&program(&format!("procedure deep() {} endproc", loops(32, "^loop skip endloop")), "skip")]);
    let drop = "procedure drop(a) skip endproc procedure on(a) drop(a) endproc";
    let good = ["no", "1 + true", "x[9]", "I[0]", "!5", "no[1] & w", "z * z * z", "int(3)"];
    for actual in good {
        compiles(drop, &[&format!("drop({actual})"), &format!("on({actual})")]);
    }
    compiles(drop, &[&format!("drop({}); on({0})", ones(1_500))]);
    refused(5, drop, &["drop(1 +^)", "on(^:=)"]);
    refused(5, drop, &[&format!("drop({}^(1{}", "(".repeat(31), ")".repeat(33))]);
}

#[test]
fn levels_as_they_are_written() {
    let with = "procedure w() skip endproc procedure v(a) skip endproc";
    refused(5, with, &[&loops(32, "w^()"), &loops(31, "v(^(1))"), &loops(31, "v(^!I)")]);
    compiles(with, &[&loops(31, "w()"), &loops(31, "v(1)"), &loops(30, "v((1))"), &loops(30, "v(!I)")]);
}

#[test]
fn levels_after_expansion() {
    let with = "procedure w() raise(A) endproc procedure r(a) x := a endproc procedure h(a) r(a) endproc \
                procedure b(a) raise(a) endproc procedure n(a) if !a then skip endif endproc";
    // A changed formal is replaced bare, and the call's own parenthesis is gone.
    compiles(with, &[&loops(31, "w()"), &loops(31, "b(A)")]);
    // Each "as if in parentheses" is one level, and handing a formal on adds another.
    compiles(with, &[&loops(31, "r(1)"), &loops(30, "h(1)"), &loops(30, "r((1))"), &loops(29, "n(I)")]);
    refused(9, with, &[&loops(31, "^h(1)"), &loops(30, "^h((1))"), &loops(30, "^n(I)"), &loops(29, "^n(!I)")]);
    // Passed by the call and what stands around it: still searched for what is lower.
    refused(6, with, &[&loops(31, "^h(no)")]);
    refused(7, with, &[&loops(31, "^h(I)")]);
    // Passed by itself, by statements or by handing on.
    let deep =
        format!("procedure d() {} endproc procedure dd() loop d(); raise(no) endloop endproc", loops(32, "skip"));
    compiles(&deep, &["d()"]);
    refused(9, &deep, &["^dd()", "loop ^d() endloop"]);
    let mut chain = "procedure h0(a) x := a endproc".to_string();
    for number in 1..40 {
        chain += &format!(" procedure h{number}(a) h{}(a) endproc", number - 1);
    }
    compiles(&chain, &["h31(1)", "h30((1))"]);
    refused(9, &chain, &["^h32(1)", "^h31((1))", "^h30(((1)))", "^h39(1)", "^h32(no)"]);
    refused(6, &chain, &["^h31(no)", "loop ^h31(no) endloop"]);
    // By name or dropped, none.
    let bare = chain.replace("x := a", "raise(a)");
    compiles(&bare, &["h39(A)", "h39(x[1])"]);
    compiles(&chain.replace("x := a", "skip"), &["h39(no + 1)"]);
}

#[test]
fn sizes_after_expansion() {
    let with = format!(
        "procedure s() {} endproc procedure t() {} endproc procedure n(a) x := a endproc procedure m(a) x := a + a endproc",
        skips(254),
        skips(2)
    );
    compiles(&with, &["s(); skip", &format!("n({})", ones(512)), &format!("m({})", ones(256))]);
    refused(9, &with, &["s(); ^t()", "skip; skip; ^s(); t()", "s(); skip; ^if I then t() endif"]);
    refused(9, &with, &[&format!("n({}); ^n(1+1)", ones(512)), &format!("n({}); n(1); y := ^1", ones(512))]);
    // One call over what stands around it is still searched.
    refused(6, &with, &[&format!("n({}); ^n(1+no)", ones(512)), &format!("{}; ^n(no)", skips(255))]);
    refused(7, &with, &[&format!("n({}); ^n(1+I)", ones(512))]);
    // By itself: parts.
    refused(
        9,
        &with,
        &[&format!("^n({})", ones(513)), &format!("^m({})", ones(257)), &format!("^n({}+no)", ones(512))],
    );
    refused(9, "procedure d() delay 256 endproc", &["skip; ^d()"]);
}

#[test]
fn passed_by_itself_is_not_searched() {
    let nine = "parallel skip || skip || skip || skip || skip || skip || skip || skip || skip endparallel";
    for large in [skips(256), "delay 256".to_string(), nine.to_string(), format!("y := {}", ones(513))] {
        for bad in ["raise(no)", "x := I", "exit", "break", "z := z * z", "none()", "on(1)"] {
            let with = format!(
                "procedure up(a) raise(a) endproc procedure on(a) up(a) endproc procedure w() {bad}; {large} endproc"
            );
            refused(9, &with, &["skip; ^w()", "^w(); z := z * z"]);
            refused(8, &with, &["w(); ^exit"]);
            refused(6, &with, &["w(); raise(^no)", "w(); ^on(1)"]);
        }
        // The call itself is refused first: it is not expanded.
        refused(6, &format!("procedure w(a) raise(a); {large} endproc"), &["^w(1)", "^w()"]);
    }
    // A size passed together with what stands around it is no size passed by itself.
    refused(6, "procedure w() delay 255; raise(no) endproc", &[&format!("{}; ^w()", skips(255))]);
    // A refused inner call counts as one statement.
    let inner = |count: usize| format!("procedure w() {}; none() endproc", skips(count));
    refused(6, &inner(254), &["^w()"]);
    refused(9, &inner(255), &["^w()"]);
    let refused_inner = |count: usize| {
        format!("procedure up(a) raise(a); skip; skip endproc procedure w(a) {}; up(a) endproc", skips(count))
    };
    refused(6, &refused_inner(254), &["^w(1)"]);
    refused(9, &refused_inner(254), &["^w(A)"]);
    refused(9, &refused_inner(255), &["^w(1)"]);
    compiles(&refused_inner(252), &["w(A)"]);
}

#[test]
fn activities() {
    let with = "procedure two() parallel skip || skip endparallel endproc procedure four() parallel two() || two() endparallel endproc \
                procedure eight() parallel four() || four() endparallel endproc procedure nine() parallel eight() || skip endparallel endproc";
    compiles(with, &["eight()", "eight(); eight()", "parallel four() || two() || skip || skip endparallel"]);
    refused(9, with, &["skip; ^nine()"]);
    // A main-text parallel pushed over 8 by a call is itself the place.
    refused(9, with, &["^parallel eight() || skip endparallel", "^parallel skip || loop nine() endloop endparallel"]);
    refused(9, with, &["^parallel skip || parallel four() || four() || skip endparallel endparallel"]);
    // A call that passes a size by itself still counts its activities for the parallel around it.
    let large = format!("{with} procedure large() {}; four() endproc", skips(256));
    refused(9, &large, &["parallel skip || ^large() endparallel", "^parallel large() || four() || skip endparallel"]);
    let delay = format!("{with} procedure slow() delay 256; four() endproc");
    refused(9, &delay, &["parallel skip || ^slow() endparallel", "^parallel slow() || four() || skip endparallel"]);
    // Looked at to its end, a refused inner call is one activity; too large for that, what its procedure can have counts.
    let changed =
        |list: &str| format!("{with} procedure up(a) raise(a); four() endproc procedure w(a) up(a); {list} endproc");
    refused(
        9,
        &changed("delay 256"),
        &["parallel ^w(1) || four() || skip endparallel", "^parallel w(A) || four() || skip endparallel"],
    );
    let large = changed(&skips(256));
    refused(
        9,
        &large,
        &["^parallel w(1) || four() || skip endparallel", "^parallel w(A) || four() || skip endparallel"],
    );
    // Whatever the actuals of its calls are, but not where they call nothing.
    for (call, list) in [
        ("up(1)", "^parallel w() || four() || skip endparallel"),
        ("up()", "parallel ^w() || four() || skip endparallel"),
        ("w()", "parallel ^w() || four() || skip endparallel"),
    ] {
        let large =
            format!("{with} procedure up(a) raise(a); four() endproc procedure w() {call}; {} endproc", skips(256));
        refused(9, &large, &[list]);
    }
}

/// How long an answer may take: far above what any takes, far below what an expansion written out would.
const SECONDS: f64 = 2.0;

fn at_once(source: &str) -> String {
    let start = Instant::now();
    let answer = states(source);
    let seconds = start.elapsed().as_secs_f64();
    assert!(seconds < SECONDS, "{seconds} seconds: {}", &source[..source.len().min(200)]);
    answer
}

/// Procedures that each call the one before them twice, `body` being the first one's.
fn doubling(count: usize, formals: &str, body: &str, calls: &str) -> String {
    let mut text = format!("procedure d0({formals}) {body} endproc");
    for number in 1..count {
        text += &format!(" procedure d{number}({formals}) {} endproc", calls.replace('@', &format!("d{}", number - 1)));
    }
    text
}

#[test]
fn doubling_ends_at_once() {
    for count in [11, 30, 90] {
        let last = count - 1;
        let twice = doubling(count, "", "skip", "@(); @()");
        assert_eq!(
            at_once(&format!("program p; {twice} d{last}() endprog")),
            format!("refused 9 at {}", 11 + twice.len() + 1)
        );
        let twice = doubling(count, "", "raise(no)", "@(); @()");
        assert_eq!(
            at_once(&format!("program p; {twice} d{last}() endprog")),
            format!("refused 9 at {}", 11 + twice.len() + 1)
        );
        let parts = doubling(count, "a", "x := a", "@(a + a)");
        refused(9, &parts, &[&format!("^d{last}(1)")]);
        at_once(&program(&parts, &format!("d{last}(1)")));
        let both = doubling(count, "a,b", "x := a", "@(a + b, b); @(b, a + a)");
        at_once(&program(&both, &format!("d{last}(1, x)")));
        let wide = doubling(count, "", "skip", "parallel @() || @() endparallel");
        at_once(&program(&wide, &format!("d{last}()")));
        let names = doubling(count, "a", "raise(a)", "@(a); @((a))");
        at_once(&program(&names, &format!("d{last}(A)")));
        let dropped = doubling(count, "a", "skip", "@(a + a)");
        assert_eq!(at_once(&program(&dropped, &format!("d{last}(1)"))), "2 states");
    }
}

#[test]
fn hostile_texts_end_at_once() {
    let fill = |head: &str, unit: &str, tail: &str| {
        let count = (8_192 - head.len() - tail.len()) / unit.len();
        format!("{head}{}{tail}", unit.repeat(count))
    };
    let doubled = doubling(30, "", "skip", "@(); @()");
    at_once(&fill(&format!("program p; {doubled} "), "d29();", "skip endprog"));
    at_once(&fill(&format!("program p; {} ", doubling(8, "", "skip", "@(); @()")), "d7();", "skip endprog"));
    at_once(&fill(&format!("program p; procedure w() {} endproc ", skips(255)), "w();", "skip endprog"));
    at_once(&fill(
        &format!("program p; integer x[2]; procedure w() x := {} endproc ", ones(512)),
        "w();",
        "skip endprog",
    ));
    at_once(&fill("program p; procedure w(", "a,", "a) skip endproc skip endprog"));
    at_once(&fill("program p; procedure w(a) skip endproc w(", "1,", "1) endprog"));
    at_once(&fill("program p; ", "procedure w() w() endproc ", "w() endprog"));
    for unit in ["procedure ", "procedure w(", "w(", "procedure w() ", "endproc ", "w();", "procedure w(a,", "w(1,"] {
        for head in ["", "program p;", "program p; procedure v() ", "program p; procedure v() skip endproc "] {
            assert!(at_once(&fill(head, unit, "")).starts_with("refused"));
        }
    }
    // A chain as long as a text can hold, of every kind.
    for (first, link, call) in [
        ("procedure n0(a) skip endproc ", "procedure n@(a) n#(a) endproc ", "(1)"),
        ("procedure n0(a) raise(a) endproc ", "procedure n@(a) n#(a) endproc ", "(A)"),
        ("procedure n0(a) x:=a endproc ", "procedure n@(a) n#(!!a) endproc ", "(1)"),
        ("procedure n0(a) x:=a endproc ", "procedure n@(a) n#(int(a)) endproc ", "(1)"),
        ("procedure n0() skip endproc ", "procedure n@() loop n#() endloop endproc ", "()"),
        ("procedure n0() skip endproc ", "procedure n@() n#() endproc ", "()"),
    ] {
        let mut text = format!("program p; output A; integer x[3]; {first}");
        let mut number = 0;
        while text.len() < 8_100 {
            number += 1;
            text += &link.replace('@', &number.to_string()).replace('#', &(number - 1).to_string());
        }
        let call = format!("n{number}{call}");
        at_once(&format!("{text}{call} endprog"));
    }
}
