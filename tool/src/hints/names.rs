//! Refusal 6 at a name: it is unknown, or declared again.

use super::{quoted, Hint};
use crate::names::Names;
use crate::words::word_at;

const ONCE: &str = "a name is declared once, before the statements; upper and lower case are different";
const DECLARE: &str = "declare it once, before the first statement";

pub fn hint(source: &[u8], place: usize) -> Hint {
    let word = word_at(source, place);
    let names = Names::of(source);
    if place < names.statements {
        let found = Hint::found(format!("{} is declared already", quoted(word)));
        return found.rule(ONCE).right("another name, or one declaration");
    }
    if names.procedures.iter().any(|one| one.name.as_bytes() == word) {
        return Hint::found(format!("{} is a procedure", quoted(word)))
            .rule("a procedure has no value: it is called, in a statement of its own")
            .right("a variable, or another name for one of the two");
    }
    let found = Hint::found(format!("{} is not declared", quoted(word))).rule(ONCE);
    if let Some(spaced) = spaced(&names, word) {
        return found.right(format!("`{spaced}`: a hyphen before a letter or a digit belongs to the name"));
    }
    match nearest(names.declared.iter().map(|one| one.name.as_str()), word) {
        Some(name) => found.right(format!("`{name}`, perhaps, which is declared")),
        None => found.right(DECLARE),
    }
}

/// `sum-5` where `sum` is declared: most likely a difference was meant.
fn spaced(names: &Names, word: &[u8]) -> Option<String> {
    let word = std::str::from_utf8(word).ok()?;
    let (left, right) = word.split_once('-')?;
    names.class(left.as_bytes()).map(|_| format!("{left} - {right}"))
}

/// The first of the names with the fewest changed letters, if those are few.
pub fn nearest<'a>(names: impl Iterator<Item = &'a str>, word: &[u8]) -> Option<&'a str> {
    let changes = |name: &str| changes(&name.to_ascii_lowercase().into_bytes(), &word.to_ascii_lowercase());
    let near = names.map(|name| (changes(name), name));
    near.filter(|(changes, _)| changes * 3 <= word.len()).min_by_key(|(changes, _)| *changes).map(|(_, name)| name)
}

/// How many letters must be put in, taken out or changed to make one word of the other.
fn changes(one: &[u8], other: &[u8]) -> usize {
    let mut row: Vec<usize> = (0..=other.len()).collect();
    for (i, a) in one.iter().enumerate() {
        let mut corner = row[0];
        row[0] = i + 1;
        for (j, b) in other.iter().enumerate() {
            let changed = corner + usize::from(a != b);
            corner = row[j + 1];
            row[j + 1] = changed.min(corner + 1).min(row[j] + 1);
        }
    }
    row[other.len()]
}

#[cfg(test)]
mod tests {
    use super::changes;

    #[test]
    fn changes_are_counted() {
        assert_eq!(changes(b"lamp", b"lamp"), 0);
        assert_eq!(changes(b"lamp", b"lampe"), 1);
        assert_eq!(changes(b"frost", b"forst"), 2);
        assert_eq!(changes(b"", b"abc"), 3);
    }
}
