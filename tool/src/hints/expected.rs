//! Refusal 5: what could stand at the place instead. The proved call is asked, one word after another.

use super::{quoted, Hint};
use crate::calls::{self, LARGEST_ROOM, LONGEST_SOURCE};
use crate::refusal::Refusal;
use crate::words::{is_blank, word_at};

/// Words of which the first stands for all: where it may stand, so may the others.
const GROUPS: [(&str, &str); 4] = [
    ("a declaration", "input output internal integer procedure"),
    ("a statement", "skip delay raise lower invert if while loop exit switch break parallel x"),
    ("an expression", "int true false ( ! x 1"),
    ("an operator", "+ - * / % & | == != < >"),
];

/// All other words; `x` stands for a name and `1` for a number.
const SINGLES: &str =
    "program x 1 true false .H .L = [ ] ( ) , := : ; || then do loop else case default endif endloop \
                       endswitch endparallel endproc endprog";

const RESERVED: [&[u8]; 5] = [b"process", b"processtype", b"endtype", b"compress", b"endcompress"];

/// Pairs of words that are one word elsewhere, and what to write here.
const ELSEWHERE: [(&[u8], &[u8], &str); 7] = [
    (b">", b"=", "`a >= b` is written `!(a < b)`"),
    (b"<", b"=", "`a <= b` is written `!(a > b)`"),
    (b"&", b"&", "and is a single `&`"),
    (b"|", b"|", "or is a single `|`"),
    (b"-", b"-", "there are no comments in the language yet"),
    (b"/", b"/", "there are no comments in the language yet"),
    (b"/", b"*", "there are no comments in the language yet"),
];

pub fn hint(source: &[u8], place: usize) -> Hint {
    let word = word_at(source, place);
    let expected = Expected::after(&source[..place]);
    if expected.would_be_too_deep(word) {
        return Hint::found("this would open level 33")
            .rule("at most 32 statements, `(` and `!` stand open at once")
            .right("fewer levels: a boolean or an integer can keep what a test found");
    }
    let found = if word.is_empty() {
        Hint::found("the text ends here")
    } else if RESERVED.contains(&word) {
        Hint::found(format!("{} is reserved, and not in the language yet", quoted(word)))
    } else {
        Hint::found(format!("no program goes on with {} here", quoted(word)))
    };
    let found = found.rule("every word goes on as the grammar says");
    match elsewhere(&source[..place], word).or_else(|| expected.in_words()) {
        Some(words) => found.right(words),
        None => found,
    }
}

/// A habit from another language.
fn elsewhere(before: &[u8], word: &[u8]) -> Option<String> {
    let pair = |(first, second, _): &&(&[u8], &[u8], &str)| before.ends_with(first) && word.starts_with(second);
    ELSEWHERE.iter().find(pair).map(|(_, _, right)| right.to_string())
}

struct Expected<'a> {
    before: &'a [u8],
    /// The words that may follow.
    words: Vec<&'static str>,
}

impl Expected<'_> {
    fn after(before: &[u8]) -> Expected<'_> {
        let candidates = GROUPS.iter().map(|(_, words)| first(words)).chain(SINGLES.split(' '));
        Expected { before, words: candidates.filter(|word| may_follow(before, word)).collect() }
    }

    /// Near the end of the longest source there is no room to try words.
    fn is_known(&self) -> bool {
        self.before.len() + 16 <= LONGEST_SOURCE
    }

    fn has(&self, word: &str) -> bool {
        self.words.contains(&word)
    }

    /// A word that opens a level, where the grammar alone would let it stand.
    fn would_be_too_deep(&self, word: &[u8]) -> bool {
        match word {
            _ if !self.is_known() => false,
            b"if" | b"while" | b"loop" | b"switch" | b"parallel" => self.has("skip"),
            // After `int`, `raise` and the like nothing else may stand; after the name of a call `:=` might.
            b"(" => self.has("int") || self.has(":=") || self.words.is_empty(),
            b"!" => self.has("int") && !self.ends_with_arithmetic(),
            _ => false,
        }
    }

    /// "An arithmetic operator's operand can't begin with `!`."
    fn ends_with_arithmetic(&self) -> bool {
        let last = self.before.iter().rfind(|&&byte| !is_blank(byte));
        last.is_some_and(|byte| b"+-*/%".contains(byte))
    }

    fn in_words(&self) -> Option<String> {
        if self.words.is_empty() && self.is_known() {
            return Some("the program has ended: only blanks may follow".to_string());
        }
        let mut listed = Vec::new();
        let mut covered: Vec<&str> = Vec::new();
        for (name, words) in GROUPS.iter().filter(|(_, words)| self.has(first(words))) {
            listed.push(name.to_string());
            covered.extend(words.split(' '));
        }
        let singles = self.words.iter().filter(|word| !covered.contains(word));
        listed.extend(singles.map(|word| match *word {
            "x" => "a name".to_string(),
            "1" => "a number".to_string(),
            other => format!("`{other}`"),
        }));
        let last = listed.pop()?;
        let before = if listed.is_empty() { String::new() } else { format!("{} or ", listed.join(", ")) };
        Some(format!("{before}{last} could stand here"))
    }
}

/// The word that stands for its group.
fn first(words: &'static str) -> &'static str {
    words.split(' ').next().unwrap_or(words)
}

/// May this word follow? Exactly if the text with it is not refused at it.
fn may_follow(before: &[u8], word: &str) -> bool {
    let text = [before, b" ", word.as_bytes()].concat();
    let place = before.len() + 1;
    text.len() <= LONGEST_SOURCE
        && !matches!(calls::compile(&text, LARGEST_ROOM), Err(refusal) if refusal == Refusal { number: 5, place })
}
