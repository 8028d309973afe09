//! Programs with procedures: good ones, damaged ones, and calls that are refused in every way, anywhere in them.

use super::random::Random;
use super::{damage, join, program};

/// What the calls below use beside the program's own names.
const DECLARATIONS: &str = "
    input in-f ; internal bool-f ; integer int-f [ 3 ] , big-f [ 1 ] ;
    procedure up-f ( a ) raise ( a ) endproc
    procedure set-f ( a , b ) a := b endproc
    procedure bit-f ( a ) lower ( a [ 1 ] ) endproc
    procedure test-f ( a ) if a then skip endif endproc ;
    procedure read-f ( a ) if a [ 0 ] & ! a [ 1 ] then skip endif endproc
    procedure drop-f ( a , b ) delay 0 endproc
    procedure on-f ( a ) up-f ( a ) endproc
    procedure bits-f ( a ) up-f ( a [ 2 ] ) ; test-f ( a [ 0 ] ) endproc
    procedure gone-f ( a ) drop-f ( a [ 2 ] , no-name ) endproc
    procedure sum-f ( a , b ) set-f ( int-f , a - b * b ) endproc
    procedure late-f ( ) up-f ( bool-f ) ; last-f ( ) endproc
    procedure self-f ( ) skip ; self-f ( ) endproc
    procedure leave-f ( ) exit endproc
    procedure stop-f ( a ) if a then break endif endproc
    procedure slow-f ( ) delay 256 ; raise ( no-name ) endproc
    procedure four-f ( ) parallel skip || skip || skip || skip endparallel endproc
    procedure wide-f ( ) parallel four-f ( ) || four-f ( ) || skip endparallel endproc
    procedure never-f ( a ) no-name := in-f ; exit ; never-f ( ) ; delay 999 endproc
    procedure last-f ( ) skip endproc";

const GOOD: [&str; 12] = [
    "up-f ( bool-f )",
    "up-f ( int-f [ 2 ] )",
    "set-f ( int-f , int-f + 1 )",
    "bit-f ( int-f )",
    "test-f ( in-f | ! bool-f )",
    "read-f ( int-f )",
    "drop-f ( no-name , 1 + true )",
    "on-f ( bool-f )",
    "bits-f ( int-f )",
    "gone-f ( 1 )",
    "sum-f ( int-f , int ( in-f ) )",
    "four-f ( )",
];

const NAMES: [&str; 26] = [
    "no-proc ( )",
    "in-f ( 1 )",
    "up-f ( )",
    "up-f ( bool-f , 1 )",
    "last-f ( 1 )",
    "up-f ( 1 )",
    "up-f ( ( bool-f ) )",
    "up-f ( ! bool-f )",
    "up-f ( no-name )",
    "up-f ( last-f )",
    "set-f ( int-f [ 0 ] , 1 )",
    "set-f ( ( int-f ) , 1 )",
    "set-f ( int-f , no-name )",
    "set-f ( int-f + 1 , 1 )",
    "bit-f ( int-f [ 1 ] )",
    "read-f ( 3 )",
    "read-f ( ( int-f ) )",
    "test-f ( last-f )",
    "on-f ( true )",
    "on-f ( ( bool-f ) )",
    "bits-f ( int-f [ 0 ] )",
    "bits-f ( 7 )",
    "late-f ( )",
    "self-f ( )",
    "if last-f then skip endif",
    "raise ( up-f )",
];

const KINDS: [&str; 14] = [
    "up-f ( in-f )",
    "up-f ( int-f )",
    "up-f ( int-f [ 3 ] )",
    "up-f ( bool-f [ 0 ] )",
    "set-f ( bool-f , 1 )",
    "set-f ( int-f , in-f )",
    "bit-f ( big-f )",
    "bit-f ( in-f )",
    "test-f ( int-f + 1 )",
    "read-f ( bool-f )",
    "on-f ( in-f )",
    "bits-f ( big-f )",
    "sum-f ( int-f , in-f )",
    "sum-f ( int-f == 1 , 1 )",
];

const JUMPS: [&str; 6] = [
    "leave-f ( )",
    "stop-f ( in-f )",
    "loop stop-f ( true ) endloop",
    "parallel skip || leave-f ( ) endparallel",
    "switch case in-f : leave-f ( ) default : stop-f ( false ) endswitch",
    "if in-f then skip else leave-f ( ) endif",
];

const SIZES: [&str; 6] = [
    "slow-f ( )",
    "wide-f ( )",
    "parallel four-f ( ) || skip || four-f ( ) endparallel",
    "parallel four-f ( ) || slow-f ( ) || four-f ( ) endparallel",
    "parallel wide-f ( ) || skip endparallel",
    "loop four-f ( ) ; wide-f ( ) endloop",
];

const WORST: [&str; 5] = [
    "sum-f ( int-f , 65535 )",
    "set-f ( int-f , 65535 * 65535 )",
    "test-f ( 65535 * 65535 > 1 )",
    "sum-f ( 0 , 40000 + 10000 )",
    "set-f ( int-f , int ( int-f * 65535 * 65535 == 7 ) )",
];

/// Declarations with a name that was declared before.
const AGAIN: [&str; 8] = [
    "procedure w-f ( in-f ) skip endproc",
    "procedure w-f ( a , b , a ) skip endproc ;",
    "procedure w-f ( w-f ) skip endproc",
    "procedure w-f ( a , up-f ) skip endproc",
    "procedure up-f ( ) skip endproc",
    "procedure bool-f ( a ) skip endproc ;",
    "output up-f ;",
    "integer w-f [ 1 ] , last-f [ 1 ] ;",
];

/// The text of a good program, most of the time.
pub fn good(random: &mut Random) -> Vec<u8> {
    let words = program::words_with_procedures(random);
    join(random, &words)
}

/// The text of a damaged program.
pub fn damaged(random: &mut Random) -> Vec<u8> {
    let words = program::words_with_procedures(random);
    damage::damaged(random, words)
}

/// The text of a program with one to three of the calls above, or declarations.
pub fn faulty(random: &mut Random) -> Vec<u8> {
    let mut words = program::words_with_procedures(random);
    put(&mut words, 3, DECLARATIONS);
    for _ in 0..random.of(&[1, 1, 1, 2, 3]) {
        // The higher numbers more often, since a lower one beside them wins.
        match random.below(16) {
            0 => {
                let first = main_text(&words);
                put(&mut words, first, random.of(&AGAIN));
            }
            1 | 2 => statement(random, &mut words, &NAMES),
            3..=5 => statement(random, &mut words, &KINDS),
            6 | 7 => {
                let first = main_text(&words);
                put(&mut words, first, &format!("{} ;", random.of(&JUMPS)));
            }
            8..=10 => statement(random, &mut words, &SIZES),
            11..=13 => statement(random, &mut words, &WORST),
            _ => statement(random, &mut words, &GOOD),
        }
    }
    join(random, &words)
}

fn put(words: &mut Vec<String>, at: usize, new: &str) {
    words.splice(at..at, new.split_ascii_whitespace().map(str::to_string));
}

/// Where the declarations end.
fn main_text(words: &[String]) -> usize {
    let mut at = 3;
    loop {
        let end = match words[at].as_str() {
            "input" | "output" | "internal" | "integer" => ";",
            "procedure" => "endproc",
            _ => return at,
        };
        at += words[at..].iter().position(|word| word == end).expect("a declaration ends") + 1;
        if end == "endproc" && words[at] == ";" {
            at += 1;
        }
    }
}

/// One of the statements before any other, in a body that sees the procedures above or in the main text.
fn statement(random: &mut Random, words: &mut Vec<String>, choices: &[&str]) {
    let last = words.windows(2).position(|pair| pair == ["procedure", "last-f"]).expect("it is declared");
    let main = main_text(words);
    let opens = |at: &usize| match words[at - 1].as_str() {
        "then" | "else" | "loop" | ":" | "||" | "parallel" => true,
        word => word == ";" && *at > main,
    };
    let mut places: Vec<usize> = (last..words.len()).filter(opens).collect();
    places.push(main);
    put(words, random.of(&places), &format!("{} ;", random.of(choices)));
}
