//! Each size at its limit and one past it.

use super::random::Random;
use crate::LONGEST_SOURCE;

/// The text of a program at an edge.
pub fn source(random: &mut Random) -> Vec<u8> {
    let edge = random.of(&[
        long_source,
        inputs,
        outputs,
        bits,
        width,
        no_width,
        statements,
        parts,
        delay,
        activities,
        levels,
        name,
        number,
        worst_size,
        bit_number,
        states,
        crowded_list,
        crowded_declarations,
    ]);
    let past = usize::from(random.one_in(2));
    edge(random, past).into_bytes()
}

/// `count` numbered names with an ending each.
fn names(count: usize, ending: &str) -> String {
    let names: Vec<String> = (0..count).map(|number| format!("n{number}{ending}")).collect();
    names.join(", ")
}

fn long_source(random: &mut Random, past: usize) -> String {
    let program = "program p; output A; loop invert(A) endloop endprog";
    let blank = random.of(&[" ", "\n", "\t", "\r"]);
    let filling = blank.repeat(LONGEST_SOURCE + past - program.len());
    if random.one_in(2) {
        filling + program
    } else {
        program.to_string() + &filling
    }
}

fn inputs(_: &mut Random, past: usize) -> String {
    format!("program p; input {}; output A; if n5 & n0 then raise(A) endif endprog", names(6 + past, ""))
}

fn outputs(_: &mut Random, past: usize) -> String {
    format!("program p; output {}; raise(n15); raise(n0) endprog", names(16 + past, " = false"))
}

fn bits(random: &mut Random, past: usize) -> String {
    let first = random.between(1, 15);
    let rest = 16 - first + past;
    format!(
        "program p; internal B; integer x[{first}] = 65535; output A; integer y[{rest}], z[14]; y := x; raise(z[13]) endprog"
    )
}

fn width(random: &mut Random, past: usize) -> String {
    let bit = random.of(&[0, 15, 16]);
    format!("program p; integer x[{}] = 1; raise(x[{bit}]) endprog", 16 + past)
}

fn no_width(random: &mut Random, past: usize) -> String {
    let use_it = random.of(&["x := 1", "raise(x[0])", "skip"]);
    format!("program p; integer x[{}]; {use_it} endprog", 1 - past)
}

fn statements(random: &mut Random, past: usize) -> String {
    let (inside, word) = random.of(&[(0, "skip"), (1, "delay 0"), (2, "delay 0")]);
    let list = vec![word; 255 + past - inside].join(";");
    let wrap = ["", "loop ", "if true then loop "][inside];
    let close = ["", " endloop", " endloop endif"][inside];
    format!("program p; {wrap}{list}{close} endprog")
}

fn parts(random: &mut Random, past: usize) -> String {
    // Each operator adds a part and each operand another: n operands are 2n - 1 parts, and the test of the if is one.
    let operand = random.of(&["1", "x", "int(true)"]);
    let each = if operand == "int(true)" { 3 } else { 2 };
    let count = (1_024 + 1) / each;
    let sum = vec![operand; count].join("+");
    let written = count * each - 1;
    let rest = 1_024 + past - written;
    let tests = vec!["if true then skip endif;"; rest].concat();
    format!("program p; integer x[2]; x := {sum}; {tests} endprog")
}

fn delay(_: &mut Random, past: usize) -> String {
    format!("program p; delay {} endprog", 255 + past)
}

fn activities(random: &mut Random, past: usize) -> String {
    let first = random.between(1, 6);
    let branches = |count: usize| vec!["raise(A)"; count].join("||");
    let inner = if first > 1 { format!("skip; parallel {} endparallel", branches(first)) } else { branches(1) };
    format!("program p; output A; parallel {inner} || {} endparallel endprog", branches(8 - first + past))
}

/// Thirty-two levels or one more, of every kind that can open.
fn levels(random: &mut Random, past: usize) -> String {
    let (core, own, parenthesis) = random.of(&[
        ("raise(A)", 1, false),
        ("parallel skip || skip endparallel", 1, false),
        ("if @ then skip endif", 1, false),
        ("while @ do loop skip endloop", 1, false),
        ("x := int@", 0, true),
    ]);
    let left = 32 + past - own;
    let inside = if core.contains('@') { random.of(&[1, 2, 5, left]) } else { 0 };
    let core = core.replace('@', &nest_expression(random, inside, parenthesis));
    wrap_statements(random, core, left - inside)
}

/// An expression with this many levels, beginning with a parenthesis where `int` needs it.
fn nest_expression(random: &mut Random, levels: usize, parenthesis: bool) -> String {
    let (mut open, mut close) = (String::new(), String::new());
    for level in 0..levels {
        if level > 0 && random.one_in(2) || level == 0 && !parenthesis && random.one_in(2) {
            open.push('!');
        } else {
            open.push('(');
            close.push(')');
        }
    }
    open + "A" + &close
}

fn wrap_statements(random: &mut Random, core: String, levels: usize) -> String {
    let mut text = core;
    for _ in 0..levels {
        let (open, close) = random.of(&[
            ("loop ", " endloop"),
            ("if A then ", " endif"),
            ("if A then skip else ", "; endif"),
            ("while A do loop ", " endloop"),
            ("switch case A: ", " default: skip endswitch"),
            ("switch case A: skip default: ", "; endswitch"),
        ]);
        text = format!("{open}{text}{close}");
    }
    format!("program p; output A; integer x[1]; {text} endprog")
}

fn name(random: &mut Random, past: usize) -> String {
    let long = random.of(&["a", "Z", "a-", "q_"]).repeat(17).chars().take(15 + past).collect::<String>() + "9";
    format!("program {long}; output {long}; raise({long}) endprog")
}

fn number(random: &mut Random, past: usize) -> String {
    let zeros = random.of(&["", "0", "00000000000000000000"]);
    format!("program p; integer x[16] = {zeros}{}; x := x / {zeros}{} endprog", 65_535, 65_535 + past)
}

fn worst_size(random: &mut Random, past: usize) -> String {
    let product = format!("x * {}", 32_768 + past);
    let use_it =
        random.of(&["x := @", "if @ > 0 then skip endif", "x := 0 * (@)", "x := 1 + int(@ == 3)", "x := @ / 2"]);
    format!("program p; integer x[16]; {} endprog", use_it.replace('@', &product))
}

fn bit_number(random: &mut Random, past: usize) -> String {
    let width = random.between(1, 16);
    let use_it = random.of(&["raise(x[@])", "if x[@] then skip endif", "x := int(x[@])"]);
    format!("program p; integer x[{width}]; {} endprog", use_it.replace('@', &(width - 1 + past).to_string()))
}

/// As many states as the largest room holds, or one more.
fn states(random: &mut Random, past: usize) -> String {
    let first = random.between(1, 254);
    format!("program p; delay {first}; delay {} endprog", 255 - first + past)
}

/// A list far past every size, with another fault at its end: a lower number must still be found.
fn crowded_list(random: &mut Random, past: usize) -> String {
    let statement = random.of(&["skip;", "x:=x+1+1+1;", "if A then skip endif;", "parallel skip||skip endparallel;"]);
    let last = random.of(&["skip", "raise(u)", "x:=A", "raise(x[9])", "exit", "break", "x:=x*65535*65535", "x:=(1"]);
    let count = (LONGEST_SOURCE - 100) / statement.len() / (2 - past);
    format!("program p; output A; integer x[3]; {}{last} endprog", statement.repeat(count))
}

/// More names than fit, the last of them perhaps declared before.
fn crowded_declarations(random: &mut Random, past: usize) -> String {
    let (class, ending) = random.of(&[("input", ""), ("output", ".L"), ("internal", "=true"), ("integer", "[1]=1")]);
    let last = if past == 1 { 0 } else { 900 };
    format!("program p; {class} {}, n{last}{ending}; skip endprog", names(random.of(&[40, 500]), ending))
}
