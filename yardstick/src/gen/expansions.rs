//! Calls whose expansions stand at a size's limit or one past it, by themselves or with what stands around them.

use super::random::Random;

/// The text of a program whose calls come to a size.
pub fn source(random: &mut Random) -> Vec<u8> {
    let edge = random.of(&[
        statements,
        statements,
        parts,
        parts,
        levels,
        handed_on,
        delay,
        activities,
        activities,
        refused_inside,
        doubling,
        chain,
        crowded,
        captured,
    ]);
    let past = usize::from(random.one_in(2));
    edge(random, past).into_bytes()
}

fn skips(count: usize) -> String {
    vec!["skip"; count].join(";")
}

fn ones(count: usize) -> String {
    vec!["1"; count].join("+")
}

/// A fault of a lower or a higher number beside the size, or none.
fn beside(random: &mut Random) -> &'static str {
    random.of(&["", "", "raise(no);", "x := A;", "exit;", "break;", "x := z * z;", "none();", "up(1);"])
}

/// A program with some variables, these procedures and this list.
fn program(procedures: &str, list: &str) -> String {
    let variables = "input I; output A; integer x[3], z[16];";
    format!("program p; {variables} procedure up(a) raise(a) endproc {procedures} {list} endprog")
}

/// 255 statements after expansion, or one more, some of them in calls inside calls.
fn statements(random: &mut Random, past: usize) -> String {
    let beside = beside(random);
    let all = 255 + past - usize::from(!beside.is_empty());
    let [before, inner] = [random.of(&[0, 1, 100, 254]), random.of(&[1, 20, 200])];
    let after = random.of(&[0, 0, 1]);
    let inner = inner.min(all - before.min(all - 1));
    let outer = all.saturating_sub(before + inner + after);
    let procedures =
        format!("procedure v() {} endproc procedure w() {beside} {};v() endproc", skips(inner), skips(outer));
    let procedures = procedures.replace(" ;v()", " v()");
    let list = [skips(before), "w()".to_string(), skips(after)].into_iter().filter(|list| !list.is_empty());
    program(&procedures, &list.collect::<Vec<_>>().join(";"))
}

/// 1,024 parts after expansion, or one more.
fn parts(random: &mut Random, past: usize) -> String {
    let beside = beside(random).replace("x := A;", "").replace("x := z * z;", "");
    let (body, uses) =
        random.of(&[("x := a", 1), ("x := a; x := a", 2), ("if a == a then skip endif", 2), ("set(a)", 1)]);
    let operators = usize::from(body.starts_with("if"));
    // Each use has an odd number of parts, and tests of one part each make up the rest.
    let before = random.of(&[0, 1, 2, 500, 1_023]);
    let left = (1_024 + past).saturating_sub(before + operators);
    let operands = (left / uses).div_ceil(2).max(1);
    let written = before + operators + uses * (2 * operands - 1);
    let rest = (1_024 + past).saturating_sub(written);
    let tests = |count: usize| match count {
        0 => String::new(),
        1..=4 => "if true then skip endif;".repeat(count),
        odd if odd % 2 == 1 => format!("x := {};", ones(odd.div_ceil(2))),
        even => format!("if true then skip endif; x := {};", ones(even / 2)),
    };
    let procedures = format!("procedure set(b) x := b endproc procedure w(a) {beside} {body} endproc");
    program(&procedures, &format!("{} w({}); {}", tests(before), ones(operands), tests(rest)))
}

/// Thirty-two levels after expansion or one more, from the text around, the body and the actual.
fn levels(random: &mut Random, past: usize) -> String {
    let beside = beside(random);
    let all = 32 + past;
    let (core, own, tail) =
        random.of(&[("raise(A)", 1, "A"), ("x := a", 1, "x"), ("if !a then skip endif", 3, "I"), ("x := (a)", 2, "1")]);
    let around = random.of(&[0, 1, 5, 20, all - own]).min(all - own).min(30);
    let body = random.between(0, all - own - around).min(32 - own.min(2));
    let actual = (all - own - around - body).min(31 - around);
    let body = if core.starts_with("raise") { all - own - around } else { body };
    let body = body.min(31);
    let wrap = |levels: usize, core: &str| format!("{}{core}{}", "loop ".repeat(levels), " endloop".repeat(levels));
    let written = format!("{}{tail}{}", "(".repeat(actual), ")".repeat(actual));
    program(&format!("procedure w(a) {beside} {} endproc", wrap(body, core)), &wrap(around, &format!("w({written})")))
}

/// Levels by handing a formal on.
fn handed_on(random: &mut Random, past: usize) -> String {
    let beside = beside(random);
    let use_it = random.of(&["x := a", "raise(a)", "skip", "if a == 1 then skip endif"]);
    let own = usize::from(use_it.starts_with("if")) + 1;
    let around = random.of(&[0, 0, 1, 7, 15]);
    let links = 32 + past - own - around;
    let mut procedures = format!("procedure h0(a) {beside} {use_it} endproc");
    for link in 1..=links {
        procedures += &format!(" procedure h{link}(a) h{}(a) endproc", link - 1);
    }
    let actual = random.of(&["x", "1", "A", "I", "no", "x[0]", "(x)"]);
    let call = format!("h{links}({actual})");
    program(&procedures, &format!("{}{call}{}", "loop ".repeat(around), " endloop".repeat(around)))
}

fn delay(random: &mut Random, past: usize) -> String {
    let beside = beside(random);
    program(&format!("procedure w() {beside} delay {} endproc", 255 + past), random.of(&["w()", "loop w() endloop"]))
}

/// Eight activities or one more, in the text around, in the call, or together; perhaps in a call that is too large.
fn activities(random: &mut Random, past: usize) -> String {
    let beside = beside(random);
    let inner = random.between(2, 8);
    let branches = |count: usize| vec!["skip"; count].join("||");
    let size = random.of(&[
        "",
        "",
        "delay 256;",
        "@",
        "loop loop loop loop loop loop raise(a) endloop endloop endloop endloop endloop endloop;",
    ]);
    let size = size.replace('@', &(skips(256) + ";"));
    let first = random.of(&["skip", "raise(a)"]);
    let inside = random.of(&["w(a)", "w(a)", "w(1)", "w()", "w(x[2])"]);
    let procedures = format!(
        "procedure w(a) parallel {first} || {} endparallel endproc procedure v(a) {beside} {size} {inside}; raise(a) endproc \
         procedure u(a) v(a) endproc",
        branches(inner - 1)
    );
    let around = 8 + past - inner.min(7);
    let call = random.of(&["v(A)", "u(A)", "u(1)", "v(x[1])", "u((A))"]);
    program(&procedures, &format!("parallel {call} || {} endparallel", branches(around)))
}

/// Calls that are refused inside a body: each counts as one statement.
fn refused_inside(random: &mut Random, past: usize) -> String {
    let call = random.of(&["none()", "up()", "up(1)", "up(a)", "A(1)", "w(a)", "set(a)", "later()"]);
    let procedures = format!(
        "procedure set(b) b := 1; skip; skip endproc procedure w(a) {};{call} endproc procedure later() skip endproc",
        skips(254 + past)
    );
    program(&procedures, random.of(&["w(1)", "w(A)", "w(x)", "w(x[0])", "w((A))", "skip; w(A)"]))
}

/// Procedures that call the one before them twice.
fn doubling(random: &mut Random, past: usize) -> String {
    let (first, twice) = random.of(&[
        ("skip", "@(a); @(a)"),
        ("raise(no)", "@(a); @(a)"),
        ("x := a", "@(a + a)"),
        ("skip", "@(a * a)"),
        ("skip", "parallel @(a) || @(a) endparallel"),
        ("raise(a)", "@(a); @((a))"),
        ("if a == 1 then exit endif", "@(a); @(a - 1)"),
    ]);
    let count = random.of(&[1, 2, 3, 7, 8, 9, 28]) + past;
    let mut procedures = format!("procedure d0(a) {first} endproc");
    for number in 1..=count {
        procedures += &format!(" procedure d{number}(a) {} endproc", twice.replace('@', &format!("d{}", number - 1)));
    }
    let actual = random.of(&["1", "x", "A", "no", "I"]);
    let call = format!("d{count}({actual})");
    program(&procedures, &random.of(&["@", "loop @ endloop", "parallel @ || skip endparallel"]).replace('@', &call))
}

/// A long chain of calls.
fn chain(random: &mut Random, past: usize) -> String {
    let (first, link) = random.of(&[
        ("raise(a)", "@(a)"),
        ("skip", "@(a + a)"),
        ("x := a", "@((a))"),
        ("if a then skip endif", "@(!a)"),
        ("skip", "if A then @(a) endif"),
        ("skip; raise(a)", "skip; @(a)"),
    ]);
    let count = random.of(&[10, 29, 30, 31, 32, 120]) + past;
    let mut procedures = format!("procedure c0(a) {first} endproc");
    for number in 1..=count {
        procedures += &format!(" procedure c{number}(a) {} endproc", link.replace('@', &format!("c{}", number - 1)));
    }
    program(&procedures, &format!("c{count}({})", random.of(&["1", "x", "A", "I", "no"])))
}

/// Far more calls than fit, with another fault at their end.
fn crowded(random: &mut Random, past: usize) -> String {
    let (body, call) =
        random.of(&[("skip", "w(1);"), ("x := a + a + a", "w(x + 1);"), ("raise(a)", "w(A);"), ("v(); v()", "w(2);")]);
    let last = random.of(&["skip", "w(no)", "up(1)", "raise(no)", "up(x)", "exit", "w()", "x := z * z", "x := w"]);
    let procedures = format!("procedure v() skip; {} endproc procedure w(a) {body} endproc", skips(100));
    program(&procedures, &format!("{}{last}", call.repeat(300 * (1 + past))))
}

/// Names that are one thing in a body and another outside.
fn captured(random: &mut Random, past: usize) -> String {
    let late = random.of(&["integer a[2] = 2, b[3] = 1;", "integer b[2]; internal a;", "input a; integer b[1];"]);
    let inner = random.of(&["x := a - b", "x := b", "if a == b then raise(A) endif", "set(b, a)", "set(x, a)"]);
    let outer = random.of(&["in(b, a)", "in(a, a)", "in(a + b, b)", "in(1, x)", "in(z, b)"]);
    let procedures = format!(
        "procedure set(b, a) b := a endproc procedure in(a, b) {inner} endproc procedure out(b, a) {outer} endproc \
         procedure free() x := {} endproc {late}",
        random.of(&["a", "b", "z + b"])
    );
    let calls = ["out(x, b)", "out(b, a)", "in(b, x)", "free()", "in(x, b); out(b, x)"];
    program(&procedures, &format!("{}{}", random.of(&calls), ["", "; free()"][past]))
}
