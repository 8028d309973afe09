//! Refusals 3 to 10, each by tiny programs; `^` marks the place.

mod common;

use common::{all_compile, all_refused, rows, states};

#[test]
fn no_word_starts_here() {
    all_refused(
        4,
        &[
            "^$",
            "program p; skip endprog ^$",
            "program p skip skip endprog ^?",
            "program p;^\x0c skip endprog",
            "program p;^\x0b skip endprog",
            "program p;^\0 skip endprog",
            "program p; skip ^\u{e9} endprog",
            "program p; input A^.h; skip endprog",
            "program p; input A^. H; skip endprog",
            "program p; integer a[2]; a := a-^_b endprog",
            "program p; output ^_a; skip endprog",
            "program ^abcdefghijklmnopq; skip endprog",
            "program ^a-b-c-d-e-f-g-h-i; skip endprog",
            "program p; delay ^65536 endprog",
            "program p; delay ^99999999999999999999 endprog",
            "program p; raise(^$) ; delay 65536 endprog",
        ],
    );
}

#[test]
fn words_are_cut_as_the_house_says() {
    all_compile(&[
        "program p; integer x[16] = 65535; x := 0000000000000000065535 endprog",
        "program p; output abcdefghijklmnop; raise(abcdefghijklmnop) endprog",
        "program p; output skip-1, endif-x, int-3, endwhile; raise(skip-1); raise(endif-x); raise(int-3) endprog",
        "program p; output Loop, LOOP, lOOP; raise(LOOP) endprog",
        "program p; integer sum-5[2]; sum-5 := 1 endprog",
        "program p; integer sum[3]; sum := sum - 5 endprog",
        "program p; integer a[3],b[2]; a := a -b endprog",
        "program p; input A.H,B.L; output C.L=true; if A&B then raise(C)endif endprog",
        "program p;\tskip;\r\nskip endprog \t\r\n",
        "program A; output A; raise(A) endprog",
    ]);
    // `sum-5` is one name, so this one is unknown.
    all_refused(6, &["program p; integer sum[3]; sum := ^sum-5 endprog"]);
}

#[test]
fn words_that_are_two() {
    all_refused(
        5,
        &[
            "program p; delay 5^x endprog",
            "program p; input A.H^i; skip endprog",
            "program p; integer a[2], b[2]; a := a-^-b endprog",
            "program p; integer a[2]; a := a -^- 1 endprog",
            "program p; integer a[2]; if a >^= 1 then skip endif endprog",
            "program p; integer a[2]; if a <^= 1 then skip endif endprog",
            "program p; integer a[2]; if a ==^= 1 then skip endif endprog",
            "program p; input A; if A &^& A then skip endif endprog",
            "program p; input A; if A ^|| A then skip endif endprog",
            "program p; input A; if A | ^| A then skip endif endprog",
            "program p; integer a[2]; a ^: = 1 endprog",
            "program p; input A; switch case A^:=1 default: skip endswitch endprog",
        ],
    );
}

#[test]
fn no_program_continues_so() {
    all_refused(
        5,
        &[
            "^",
            "  \n^",
            "^skip",
            "program ^skip; skip endprog",
            "program ^true; skip endprog",
            "program p ^skip endprog",
            "program p; ^endprog",
            "program p; skip^",
            "program p; skip  \n^",
            "program p; skip endprog ^;",
            "program p; skip endprog ^endprog",
            "program p; skip; ^; skip endprog",
            "program p; ^; skip endprog",
            "program p; skip ^skip endprog",
            "program p; skip; ^input A; skip endprog",
            "program p; ^compress skip endcompress endprog",
            "program p; ^process q; skip endprog",
            "program p; output ^processtype; skip endprog",
            "program p; output ^endtype; skip endprog",
            "program p; ^-- skip endprog",
            "program p; raise(A); ^else",
        ],
    );
}

#[test]
fn declarations() {
    all_refused(
        5,
        &[
            "program p; input A ^= true; skip endprog",
            "program p; input A.H^.L; skip endprog",
            "program p; input ^; skip endprog",
            "program p; input A,^; skip endprog",
            "program p; input A ^B; skip endprog",
            "program p; input ^int; skip endprog",
            "program p; input A^[3]; skip endprog",
            "program p; output A = ^1; skip endprog",
            "program p; output A = true ^.H; skip endprog",
            "program p; internal A^[1]; skip endprog",
            "program p; integer x ^= 3; skip endprog",
            "program p; integer x[3]^.H; skip endprog",
            "program p; integer x[3] = ^true; skip endprog",
            "program p; integer x[3] = ^- 1; skip endprog",
            "program p; integer x[^y]; skip endprog",
            "program p; integer x[3] = 3 ^skip endprog",
        ],
    );
}

#[test]
fn statements() {
    all_refused(
        5,
        &[
            "program p; integer x[3]; x^[1] := 1 endprog",
            "program p; raise ^A endprog",
            "program p; raise(^5) endprog",
            "program p; raise(^(A)) endprog",
            "program p; raise(A[^B]) endprog",
            "program p; raise(A[1^+1]) endprog",
            "program p; raise(A^, B) endprog",
            "program p; delay ^x endprog",
            "program p; delay ^(3) endprog",
            "program p; loop ^endloop endprog",
            "program p; while true ^loop skip endloop endprog",
            "program p; while true do ^skip endloop endprog",
            "program p; if true ^skip endif endprog",
            "program p; if true then skip ^endloop endprog",
            "program p; if true then skip else ^endif endprog",
            "program p; parallel skip ^endparallel endprog",
            "program p; parallel skip || skip || ^endparallel endprog",
            "program p; parallel skip ^| skip endparallel endprog",
            "program p; switch ^default: skip endswitch endprog",
            "program p; switch case true: skip; ^endswitch endprog",
            "program p; switch case true ^skip default: skip endswitch endprog",
            "program p; switch case true: ^default: skip endswitch endprog",
            "program p; switch case true: skip default: skip ^case true: skip endswitch endprog",
            "program p; x ^= 1 endprog",
        ],
    );
}

#[test]
fn every_list_takes_a_spare_semicolon() {
    all_compile(&[
        "program p; input A; loop if A then skip; else skip; endif; while A do loop skip; endloop; parallel skip; || skip; \
         endparallel; switch case A: skip; case A: skip; default: skip; endswitch; endloop; endprog",
        "program p; input A; switch case A: skip case A: skip default: skip endswitch endprog",
    ]);
}

#[test]
fn expressions() {
    let with = "program p; input a; integer x[3]; ";
    let refused = |number: u8, list: &str| all_refused(number, &[&format!("{with}{list} endprog")]);
    refused(5, "x := x + ^!a");
    refused(5, "x := x * ^!a");
    refused(5, "x := ^; skip");
    refused(5, "x := 1 ^2");
    refused(5, "x := (1^;");
    refused(5, "x := int ^a");
    refused(5, "x := ^-1");
    refused(5, "x := x[^a]");
    refused(5, "x := 1^[0]");
    refused(5, "x := (x)^[0]");
    refused(7, "if ^!a + 1 then skip endif");
    refused(7, "x := x ^+ (!a)");
    refused(7, "if 1 < x ^< 3 then skip endif");
    refused(7, "if (x ^> (1 & x)) < 3 then skip endif");
    all_compile(&[
        &format!("{with} if x > 1 & x < 3 | !!a == !a | a & a != a then skip endif endprog"),
        &format!("{with} if x + 1 * 2 > 3 - 2 - 1 == true then skip endif endprog"),
    ]);
}

/// A text with `levels` levels open around `core`.
fn nested(open: &str, close: &str, levels: usize, core: &str) -> String {
    format!("program p; output A; integer x[3]; {}{core}{} endprog", open.repeat(levels), close.repeat(levels))
}

#[test]
fn thirty_two_levels() {
    let cases = [
        ("loop ", " endloop", "^loop skip endloop"),
        ("loop ", " endloop", "raise^(A)"),
        ("loop ", " endloop", "^while A do loop skip endloop"),
        ("if A then ", " endif", "^parallel skip || skip endparallel"),
        ("while A do loop ", " endloop", "^switch case A: skip default: skip endswitch"),
        ("switch case A: ", " default: skip endswitch", "^if A then skip endif"),
        ("switch case A: skip default: ", " endswitch", "x := int^(A)"),
    ];
    for (open, close, core) in cases {
        all_refused(5, &[&nested(open, close, 32, core)]);
        all_compile(&[&nested(open, close, 31, &core.replace('^', ""))]);
    }
    // A test stands inside its statement's level, and a `!` is open until its operand ends.
    let tests = [
        ("if ", " then skip endif"),
        ("while ", " do loop skip endloop"),
        ("switch case A: skip case ", ": skip default: skip endswitch"),
    ];
    for (before, after) in tests {
        let test = |marks: &str| format!("{before}{marks}A{after}");
        all_refused(
            5,
            &[&nested("loop ", " endloop", 31, &test("^!")), &nested("", "", 0, &test(&("!".repeat(31) + "^!")))],
        );
        all_compile(&[&nested("loop ", " endloop", 30, &test("!")), &nested("", "", 0, &test(&"!".repeat(31)))]);
    }
    all_compile(&[&nested("", "", 0, &format!("if {} then skip endif", ["!A"; 40].join("|")))]);
    all_refused(5, &[&nested("", "", 0, &format!("x := {}^(x{}", "(".repeat(32), ")".repeat(33)))]);
    all_compile(&[&nested("", "", 0, &format!("x := {}x{}", "(".repeat(32), ")".repeat(32)))]);
}

#[test]
fn names() {
    all_refused(
        6,
        &[
            "program p; raise(^A) endprog",
            "program p; ^x := 1 endprog",
            "program p; integer x[2]; x := 1 + ^y endprog",
            "program p; integer x[2]; x := int(^y[0]) endprog",
            "program p; if ^p then skip endif endprog",
            "program p; input A, ^A; skip endprog",
            "program p; input A; integer ^A[99]; raise(B) endprog",
            "program p; output A, ^A, A; skip endprog",
            "program p; output A; raise(^a) endprog",
            // 6 beats an earlier 7, 8, 9 and 10.
            "program p; integer x[99]; exit; if 5 then x := x * 65535 * 65535; raise(^u) endif endprog",
        ],
    );
}

/// Statement lists with an input I, an output b and integers x[3] and y[16].
const WRONG_KINDS: &[&str] = &[
    "^x := true",
    "^x := b",
    "^b := 1",
    "^I := 1",
    "^if 5 then skip endif",
    "^while x do loop skip endloop",
    "switch case b: skip ^case x: skip default: skip endswitch",
    "x := ^int(5)",
    "x := ^int(x + 1)",
    "x := 1 ^+ b",
    "x := 1 ^+ b[0]",
    "x := true ^+ 1",
    "^if x + true then skip endif",
    "if x ^== b then skip endif",
    "if x > 1 ^> 2 then skip endif",
    "if b ^& x then skip endif",
    "if x ^| b then skip endif",
    "if ^!x then skip endif",
    "if b ^> b then skip endif",
    "^raise(I)",
    "^lower(x)",
    "^invert(I)",
    "raise(^I[0])",
    "raise(^b[0])",
    "raise(^x[3])",
    "invert(^x[65535])",
    "if ^x[3] then skip endif",
    "if ^b[0] then skip endif",
    "if ^I[0] then skip endif",
    // No fault hides another: the earliest of all counts.
    "^if x then x := true + 1 endif",
    "x := (1 ^+ true) * (b * 1)",
];

#[test]
fn kinds() {
    let with = "program p; input I; output b; integer x[3], y[16]; ";
    for list in WRONG_KINDS {
        all_refused(7, &[&format!("{with}{list} endprog")]);
    }
    all_refused(
        7,
        &["program p; integer x[0]; raise(^x[0]) endprog", "program p; integer x[17]; raise(^x[17]) endprog"],
    );
    all_compile(&[&format!(
        "{with} if x > 1 == b != I then raise(x[2]) endif; if b == I then lower(y[15]) endif endprog"
    )]);
}

#[test]
fn jumps() {
    all_refused(
        8,
        &[
            "program p; ^exit endprog",
            "program p; ^break endprog",
            "program p; loop ^break endloop endprog",
            "program p; loop skip endloop; ^exit endprog",
            "program p; switch case true: ^exit default: break endswitch endprog",
            "program p; parallel skip || skip; ^exit endparallel endprog",
            "program p; delay 256; if true then ^exit endif endprog",
        ],
    );
    all_compile(&[
        "program p; loop parallel skip || switch case true: exit default: skip endswitch endparallel endloop endprog",
        "program p; parallel skip || loop break endloop endparallel endprog",
    ]);
}

/// `count` names from n0 on.
fn names_from(count: usize) -> Vec<String> {
    (0..count).map(|number| format!("n{number}")).collect()
}

#[test]
fn sizes_of_declarations() {
    let inputs = |count: usize| format!("program p; input {}; skip endprog", names_from(count).join(","));
    all_compile(&[&inputs(6)]);
    all_refused(9, &[&inputs(8).replace("n6", "^n6")]);
    let outputs = |count: usize| format!("program p; output {}; skip endprog", names_from(count).join(","));
    all_compile(&[&outputs(16)]);
    all_refused(9, &[&outputs(18).replace("n16", "^n16")]);
    let internals = |count: usize| format!("program p; internal {}; skip endprog", names_from(count).join(","));
    all_compile(&[&internals(32)]);
    all_refused(9, &[&internals(34).replace("n32", "^n32")]);
    all_compile(&["program p; input I; integer x[16], y[15]; output A; skip endprog"]);
    all_refused(
        9,
        &[
            "program p; integer x[16], y[15]; output A, ^B; skip endprog",
            "program p; integer ^x[40]; skip endprog",
            "program p; integer x[^17]; skip endprog",
            "program p; integer x[^0]; x := 1 endprog",
            "program p; integer x[16], ^y[17]; skip endprog",
        ],
    );
}

#[test]
fn sizes_of_statements() {
    let list = |count: usize| vec!["delay 0"; count].join(";");
    all_compile(&[
        &format!("program p; {} endprog", list(255)),
        &format!("program p; loop {} endloop endprog", list(254)),
        &format!(
            "program p; parallel {} || switch case true: {} default: delay 0 endswitch endparallel endprog",
            list(126),
            list(126)
        ),
    ]);
    all_refused(
        9,
        &[
            &format!("program p; {};^delay 0;delay 0 endprog", list(255)),
            &format!("program p; while true do loop {};^delay 0 endloop endprog", list(254)),
            &format!("program p; {}; if true then ^skip endif; delay 999 endprog", list(254)),
            "program p; delay ^256 endprog",
            "program p; skip; delay ^65535; delay 256 endprog",
        ],
    );
}

#[test]
fn sizes_of_activities() {
    let branches = |count: usize| vec!["skip"; count].join("||");
    all_compile(&[
        &format!("program p; parallel {} endparallel endprog", branches(8)),
        &format!(
            "program p; parallel {} || loop skip; parallel skip || skip endparallel endloop endparallel endprog",
            branches(6)
        ),
        &format!("program p; parallel {0} endparallel; parallel {0} endparallel endprog", branches(8)),
    ]);
    all_refused(
        9,
        &[
            &format!("program p; ^parallel {} endparallel endprog", branches(9)),
            &format!("program p; ^parallel skip || parallel {} endparallel endparallel endprog", branches(8)),
            &format!("program p; ^parallel skip || parallel {} endparallel endparallel endprog", branches(9)),
            &format!("program p; parallel skip || skip endparallel; ^parallel {} endparallel endprog", branches(9)),
        ],
    );
}

#[test]
fn sizes_of_expressions() {
    // A literal or name and an operator each: 512 operands are 1,023 parts.
    let sum = |part: &str| vec![part; 512].join("+");
    let before = "program p; input I; integer x[3]; x := ";
    all_compile(&[
        &format!("{before}{}; if I then raise(x[0]) endif endprog", sum("1")),
        &format!("{before}{}; if x[2] then skip endif endprog", sum("x")),
    ]);
    all_refused(
        9,
        &[
            &format!("{before}{}; if true ^& I then skip endif endprog", sum("1")),
            &format!("{before}{}; if I then x := ^1 endif endprog", sum("x")),
            &format!("{before}{}; if !^x[0] then skip endif endprog", sum("x")),
            &format!("{before}{}+^int(true) endprog", sum("1")),
            &format!("{before}{}+(^1) endprog", sum("1")),
        ],
    );
}

#[test]
fn worst_sizes() {
    let with = "program p; integer x[16], y[15], z[1]; ";
    for list in [
        "x := x * 32768",
        "x := x * 32768 + y",
        "x := x * y + x - 1",
        "x := x * 0 * 65535 * 65535",
        "x := x * 32768 / 2 % 3 + y",
        "x := z * 32769 * 65534",
    ] {
        all_compile(&[&format!("{with}{list} endprog")]);
    }
    for list in [
        "x := x ^* 32769",
        "x := 1 ^+ x * 32769",
        "x := x * 32768 + y ^+ 1",
        "x := x * 32768 ^- x",
        "if x ^* 32769 > 0 then skip endif",
        "x := int(x ^* 32769 == 3)",
        "x := 0 * (x ^* x)",
        "x := (x ^* x) * 0",
        "x := x ^* x / 65535",
        "z := z * 65535 ^* 65535",
        "z := (1 ^+ x * x * x * x * x * x * x * x) * 0",
    ] {
        all_refused(10, &[&format!("{with}{list} endprog")]);
    }
}

#[test]
fn source_length() {
    let program = "program p; skip endprog";
    let padded = |length: usize| program.to_string() + &" ".repeat(length - program.len());
    assert_eq!(states(&padded(8_192)), "2 states");
    assert_eq!(states(&padded(8_193)), "refused 3 at 0");
    assert_eq!(states(&"$".repeat(8_193)), "refused 3 at 0");
}

#[test]
fn the_binding_order_is_the_one_the_figures_mean() {
    let holds = |test: &str| {
        let source = format!("program p; output A; integer x[4] = 5; if {test} then raise(A) endif endprog");
        match rows(&source).as_str() {
            "0 0 1; 1 1 1" => true,
            "0 0 1; 1 0 1" => false,
            other => panic!("{test}: {other}"),
        }
    };
    // Each with the parentheses that it is read with, and with those of another order, which says something else.
    for (bare, read, other) in [
        ("false & false | true", "false & (false | true)", "(false & false) | true"),
        ("true | true & false", "(true | true) & false", "true | (true & false)"),
        ("true | true == false", "true | (true == false)", "(true | true) == false"),
        ("false == false | true", "(false == false) | true", "false == (false | true)"),
        ("false & false == false", "false & (false == false)", "(false & false) == false"),
        ("x + 2 * 3 == 11", "(x + (2 * 3)) == 11", "((x + 2) * 3) == 11"),
        ("2 * x + 3 == 13", "((2 * x) + 3) == 13", "(2 * (x + 3)) == 13"),
        ("x - 2 - 1 == 2", "((x - 2) - 1) == 2", "(x - (2 - 1)) == 2"),
        ("!true & false", "(!true) & false", "!(true & false)"),
        ("!true | true", "(!true) | true", "!(true | true)"),
    ] {
        assert_eq!((holds(bare), holds(other)), (holds(read), !holds(read)), "{bare}");
    }
}
