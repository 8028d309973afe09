//! Refusal 7: a wrong kind, a changed input, or a bit outside its integer.

use super::{quoted, Around, Hint};
use crate::names::{Class, Names};

const IN_TWOS: &str = "two at a time, as in `a > 1 & a < 4`; `int(..)` makes an integer of a boolean";

pub fn hint(source: &[u8], around: &Around) -> Hint {
    match around.word {
        b"&" | b"|" => no_booleans().rule("`&` and `|` take two booleans"),
        b"!" => Hint::found("its operand is no boolean").rule("`!` takes a boolean").right("a comparison, as `x == 0`"),
        b"+" | b"-" | b"*" | b"/" | b"%" => no_integers().rule("`+`, `-`, `*`, `/` and `%` take two integers"),
        b">" | b"<" => no_integers().rule("`>` and `<` take two integers and make a boolean").right(IN_TWOS),
        b"==" | b"!=" => Hint::found("its operands are a boolean and an integer")
            .rule("`==` and `!=` take two booleans or two integers and make a boolean")
            .right(IN_TWOS),
        b"int" => Hint::found("its operand is no boolean")
            .rule("`int` makes an integer of a boolean")
            .right("an integer is written as it is"),
        b"if" | b"while" | b"case" => Hint::found("its test is no boolean")
            .rule(format!("{} tests a boolean", quoted(around.word)))
            .right("a comparison, as `x > 0`"),
        b"raise" | b"lower" | b"invert" => changed(&Names::of(source), around),
        _ => named(&Names::of(source), around),
    }
}

fn no_booleans() -> Hint {
    Hint::found("its operands are not two booleans").right("a comparison, as `x > 0`, makes a boolean of integers")
}

fn no_integers() -> Hint {
    Hint::found("its operands are not two integers").right("`int(..)` makes an integer of a boolean")
}

/// `raise(NAME)` and the like: the place is the word, the name stands after the bracket.
fn changed(names: &Names, around: &Around) -> Hint {
    let target = quoted(around.second_after);
    if names.class(around.second_after) == Some(Class::Input) {
        return Hint::found(format!("{target} is an input"))
            .rule("inputs are changed by the world alone")
            .right("an output, an internal, or a bit of an integer");
    }
    Hint::found(format!("{target} is an integer"))
        .rule(format!("{} changes a boolean or one bit", quoted(around.word)))
        .right(format!("a bit, as `{}[0]`, or `:=` for the whole", target.trim_matches('`')))
}

/// A name that is assigned to, or that has one of its bits asked for.
fn named(names: &Names, around: &Around) -> Hint {
    let name = quoted(around.word);
    let integer = names.class(around.word) == Some(Class::Integer);
    match (around.after, integer) {
        (b"[", true) => Hint::found(format!("{name} has no bit {}", quoted(around.second_after)))
            .rule("bits are counted from 0 and stay below the declared width")
            .right("a lower bit, or a wider integer"),
        (b"[", false) => {
            Hint::found(format!("{name} is a boolean")).rule("only integers have bits").right(format!("{name} alone"))
        }
        (_, true) => Hint::found("what it is given is a boolean")
            .rule("`:=` gives an integer to an integer")
            .right("`int(..)` makes an integer of a boolean"),
        (_, false) => Hint::found(format!("{name} is a boolean"))
            .rule("`:=` changes integers")
            .right("`raise`, `lower` or `invert` change booleans"),
    }
}
