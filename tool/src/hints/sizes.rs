//! Refusal 9: a size is passed.

use super::{quoted, Around, Hint};
use crate::names::{Class, Names};

const STATEMENTS: usize = 255;
const WRITTEN: &str = "a program has at most 255 statements";
const EXPANDED: &str = "a program has at most 255 statements, those that its calls stand for among them";

pub fn hint(source: &[u8], around: &Around) -> Hint {
    let names = Names::of(source);
    if around.at < names.statements {
        return declared(&names, around);
    }
    if around.before == b"delay" {
        return Hint::found("too long")
            .rule("a delay is at most 255 clocks")
            .right("several delays, one after another");
    }
    if !begins_statement(around) {
        return Hint::found("part 1,025")
            .rule("all expressions together have at most 1,024 parts: numbers, names, operators, `int`");
    }
    let calls = has_calls(source, &names, around.at);
    if around.word != b"parallel" || statements(source, &names, around.at) > STATEMENTS {
        return Hint::found("statement 256").rule(if calls { EXPANDED } else { WRITTEN });
    }
    let found = if calls { "more than 8 activities, or statement 256" } else { "more than 8 activities" };
    Hint::found(found)
        .rule("at most 8 activities run at once; the branches of a `parallel` are added up")
        .right("several changes in one branch, one after another")
}

fn declared(names: &Names, around: &Around) -> Hint {
    let word = quoted(around.word);
    if around.word[0].is_ascii_digit() {
        return Hint::found(format!("{word} is no width"))
            .rule("an integer has 1 to 16 bits")
            .right("a width of 1 to 16");
    }
    let rule = match names.class(around.word) {
        Some(Class::Input) => "a program has at most 6 inputs",
        _ => "a program has at most 16 outputs, and 32 bits in outputs, internals and integers together",
    };
    Hint::found(format!("{word} is too many")).rule(rule)
}

fn begins_statement(around: &Around) -> bool {
    match around.word {
        b"skip" | b"delay" | b"raise" | b"lower" | b"invert" | b"if" | b"while" | b"exit" | b"switch" | b"break"
        | b"parallel" => true,
        b"loop" => around.before != b"do",
        _ => around.after == b":=",
    }
}

/// The words of the program's own list up to this place.
fn own<'a>(source: &'a [u8], names: &Names, place: usize) -> impl Iterator<Item = Around<'a>> {
    let first = names.statements;
    Around::all(source).filter(move |around| (first..=place).contains(&around.at))
}

/// How many statements begin up to this place, calls aside.
fn statements(source: &[u8], names: &Names, place: usize) -> usize {
    own(source, names, place).filter(begins_statement).count()
}

fn has_calls(source: &[u8], names: &Names, place: usize) -> bool {
    own(source, names, place).any(|around| around.is_call())
}
