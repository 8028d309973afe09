//! What is particular to a case: what was found at the place, and what would be right there. It explains, and decides
//! nothing; where it knows nothing better, the rule's own words stand.

mod calls;
mod expected;
mod kinds;
pub mod kiss;
mod names;
mod sizes;
mod words;

use crate::calls::LARGEST_ROOM;
use crate::count::count;
use crate::refusal::Refusal;
use crate::safe;
use crate::words::{may_name, word_at};

#[derive(Default)]
pub struct Hint {
    pub found: String,
    /// The part of the rule that was broken.
    pub rule: Option<String>,
    pub right: Option<String>,
}

impl Hint {
    pub fn found(found: impl Into<String>) -> Hint {
        Hint { found: found.into(), ..Hint::default() }
    }

    pub fn rule(self, rule: impl Into<String>) -> Hint {
        Hint { rule: Some(rule.into()), ..self }
    }

    pub fn right(self, right: impl Into<String>) -> Hint {
        Hint { right: Some(right.into()), ..self }
    }
}

pub fn of_source(source: &[u8], room: u32, Refusal { number, place }: Refusal) -> Hint {
    if let Some(hint) = calls::hint(source, number, place) {
        return hint;
    }
    match number {
        1 => Hint::found(format!("a room of {room}{}", if room == u32::MAX { " or more" } else { "" })),
        3 => Hint::found("more than 8,192 bytes"),
        4 => words::hint(source, place),
        5 => expected::hint(source, place),
        6 => names::hint(source, place),
        7 => Around::of(source, place).map_or(Hint::default(), |around| kinds::hint(source, &around)),
        8 => nothing_to_leave(source, place),
        9 => Around::of(source, place).map_or(Hint::default(), |around| sizes::hint(source, &around)),
        10 => Hint::found(format!("{} could pass 2,147,483,647", quoted(word_at(source, place)))),
        11 if room < LARGEST_ROOM => states(room).right("a larger --room, up to 256, or a machine with fewer states"),
        11 => states(room),
        _ => Hint::default(),
    }
}

fn states(room: u32) -> Hint {
    Hint::found(format!("more than {} can be reached", count(room as usize, "state")))
}

fn nothing_to_leave(source: &[u8], place: usize) -> Hint {
    match word_at(source, place) {
        b"exit" => Hint::found("no loop stands around this")
            .rule("`exit` leaves the smallest loop around it, and there must be one")
            .right("`exit` inside `loop .. endloop`; `break` leaves a switch or a parallel"),
        _ => Hint::found("no switch or parallel stands around this")
            .rule("`break` leaves the smallest switch or parallel around it, and there must be one")
            .right("`break` inside a switch or a parallel; `exit` leaves a loop"),
    }
}

/// A word of the text, as shown.
fn quoted(word: &[u8]) -> String {
    format!("`{}`", safe::bytes(word))
}

/// A word with its neighbours; empty where there is none.
struct Around<'a> {
    at: usize,
    before: &'a [u8],
    word: &'a [u8],
    after: &'a [u8],
    second_after: &'a [u8],
}

impl Around<'_> {
    /// Every word of a text.
    fn all(source: &[u8]) -> impl Iterator<Item = Around<'_>> {
        let words: Vec<_> = crate::words::words(source).collect();
        (0..words.len()).map(move |number| {
            let text = |number: usize| words.get(number).map_or(&b""[..], |word| word.text);
            Around {
                at: words[number].at,
                before: number.checked_sub(1).map_or(&b""[..], text),
                word: text(number),
                after: text(number + 1),
                second_after: text(number + 2),
            }
        })
    }

    /// A name with a `(` behind it, which in a text that is a program begins a call, or a procedure's head.
    fn is_call(&self) -> bool {
        self.after == b"(" && may_name(self.word)
    }

    /// The word that a refusal points at.
    fn of(source: &[u8], place: usize) -> Option<Around<'_>> {
        Around::all(source).find(|around| around.at == place)
    }
}
