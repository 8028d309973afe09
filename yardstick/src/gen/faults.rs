//! Grammatical programs with faults that only their trees show: refusals 6 to 10, anywhere in a good program.

use super::random::Random;
use super::{join, program};

/// What the faulty statements use beside the program's own names.
const DECLARATIONS: &str = "input in-f ; internal bool-f ; integer int-f [ 3 ] ;";

/// Statements with a name that is not declared.
const UNKNOWN: [&str; 8] = [
    "raise ( no-name )",
    "lower ( no-name [ 3 ] )",
    "no-name := 1",
    "int-f := int-f + no-name",
    "if no-name then skip endif",
    "while ! ( no-name [ 0 ] ) do loop skip endloop",
    "switch case bool-f : skip case no-name : skip default : skip endswitch",
    "parallel no-name := no-name || skip endparallel",
];

/// Statements with a wrong kind, an input changed or a bit outside the width.
const KINDS: [&str; 20] = [
    "raise ( in-f )",
    "lower ( int-f )",
    "invert ( in-f [ 0 ] )",
    "raise ( bool-f [ 0 ] )",
    "lower ( int-f [ 3 ] )",
    "int-f := bool-f",
    "bool-f := 1",
    "in-f := true",
    "int-f := true + 1",
    "int-f := int ( 5 )",
    "int-f := int-f * ( int-f > 1 )",
    "if int-f then skip endif",
    "while 1 do loop skip endloop",
    "switch case bool-f : skip case int-f - 1 : skip default : skip endswitch",
    "if bool-f == int-f then skip endif",
    "if bool-f > bool-f then skip endif",
    "if ! int-f then skip endif",
    "if bool-f & 1 then skip endif",
    "if 0 | in-f then skip endif",
    "if int-f [ 65535 ] then skip endif",
];

/// Statements that jump with nothing to leave, before the first of a program.
const JUMPS: [&str; 8] = [
    "exit",
    "break",
    "if true then exit else skip endif",
    "loop break endloop",
    "while in-f do loop skip ; break endloop",
    "switch case true : exit default : skip endswitch",
    "parallel skip || exit endparallel",
    "if in-f then loop if in-f then break endif endloop endif",
];

/// Statements that pass a size.
const SIZES: [&str; 4] = [
    "delay 256",
    "if true then delay 65535 endif",
    "parallel skip || skip || skip || skip || skip || skip || skip || skip || skip endparallel",
    "parallel parallel skip || skip || skip || skip endparallel || skip || skip || skip || skip || skip endparallel",
];

/// Declarations that pass one.
const LARGE: [&str; 6] = [
    "integer w [ 17 ] ;",
    "integer w [ 0 ] = 3 ;",
    "integer w [ 65535 ] , v [ 1 ] ;",
    "integer w [ 16 ] , v [ 16 ] ; output u ;",
    "input i1 , i2 , i3 , i4 , i5 , i6 , i7 ;",
    "internal b1 , b2 , b3 , b4 , b5 , b6 , b7 , b8 , b9 , b10 , b11 , b12 , b13 , b14 , b15 , b16 ; integer w [ 16 ] , v [ 1 ] ;",
];

/// Statements whose worst size is too large.
const WORST: [&str; 8] = [
    "int-f := 65535 * 65535",
    "int-f := int-f * 65535 * 65535",
    "int-f := 1 + 65535 * 32769",
    "int-f := 0 * ( 32768 * 65535 + 32768 ) * 2",
    "if 65535 * 65535 > 1 then skip endif",
    "while 1 == int-f * 65535 * 65535 do loop skip endloop",
    "switch case 65535 * 65535 - 1 < 2 : skip default : skip endswitch",
    "int-f := int ( 40000 * 60000 == 7 ) / 3",
];

/// The text of a program with one to three faults.
pub fn source(random: &mut Random) -> Vec<u8> {
    let mut words = program::words(random);
    put(&mut words, 3, DECLARATIONS);
    for _ in 0..random.of(&[1, 1, 1, 2, 3]) {
        // The higher numbers more often, since a lower one beside them wins.
        match random.below(9) {
            0 => name(random, &mut words),
            1 => statement(random, &mut words, &KINDS),
            2 | 3 => jump(random, &mut words),
            4 | 5 => size(random, &mut words),
            _ => statement(random, &mut words, &WORST),
        }
    }
    join(random, &words)
}

fn put(words: &mut Vec<String>, at: usize, new: &str) {
    words.splice(at..at, new.split_ascii_whitespace().map(str::to_string));
}

/// Where the statements begin, behind the declarations.
fn body(words: &[String]) -> usize {
    let mut at = 3;
    while matches!(words[at].as_str(), "input" | "output" | "internal" | "integer") {
        at += words[at..].iter().position(|word| word == ";").expect("a declaration is closed") + 1;
    }
    at
}

/// One of the statements, before any other of the program.
fn statement(random: &mut Random, words: &mut Vec<String>, choices: &[&str]) {
    let first = body(words);
    let opens = |at: &usize| matches!(words[at - 1].as_str(), ";" | "then" | "else" | "loop" | ":" | "||" | "parallel");
    let places: Vec<usize> = (first..words.len()).filter(opens).collect();
    put(words, random.of(&places), &format!("{} ;", random.of(choices)));
}

/// An unknown name, or one that is declared again.
fn name(random: &mut Random, words: &mut Vec<String>) {
    if random.one_in(2) {
        return statement(random, words, &UNKNOWN);
    }
    let again = random.of(&[
        "input bool-f ;",
        "output in-f .H ;",
        "internal int-f = true ;",
        "integer in-f [ 2 ] ;",
        "output n , n ;",
    ]);
    put(words, body(words), again);
}

fn jump(random: &mut Random, words: &mut Vec<String>) {
    put(words, body(words), &format!("{} ;", random.of(&JUMPS)));
}

fn size(random: &mut Random, words: &mut Vec<String>) {
    match random.below(6) {
        0 => put(words, body(words), &"skip ; ".repeat(256)),
        1 => put(words, body(words), &format!("int-f := {} 1 ;", "1 + ".repeat(512))),
        2 | 3 => put(words, body(words), random.of(&LARGE)),
        _ => statement(random, words, &SIZES),
    }
}
