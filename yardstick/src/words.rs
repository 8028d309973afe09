//! Words: the whole text is cut before any of it is read, so a 4 anywhere beats every 5.

use crate::refusal::Refusal;

/// "Names are case-sensitive, 1 to 16 bytes."
const LONGEST_NAME: usize = 16;

/// "A number's value is at most 65,535."
const LARGEST_NUMBER: u32 = 65_535;

/// The kinds of words; a number carries its value.
#[derive(Clone, Copy, PartialEq, Eq, Debug)]
#[allow(missing_docs)]
pub enum Kind {
    Name,
    Number(u16),
    And,
    Assign,
    Bar,
    Bars,
    Break,
    Case,
    Close,
    CloseIndex,
    Colon,
    Comma,
    Default,
    Delay,
    Divide,
    Do,
    Else,
    EndIf,
    EndLoop,
    EndParallel,
    EndProc,
    EndProg,
    EndSwitch,
    Equal,
    Equals,
    Exit,
    False,
    Greater,
    High,
    If,
    Input,
    Int,
    Integer,
    Internal,
    Invert,
    Less,
    Loop,
    Low,
    Lower,
    Minus,
    Not,
    Open,
    OpenIndex,
    Output,
    Parallel,
    Plus,
    Procedure,
    Program,
    Raise,
    Remainder,
    Reserved,
    Semicolon,
    Skip,
    Switch,
    Then,
    Times,
    True,
    Unequal,
    While,
}

/// Sorted, to be searched. Reserved are still "process processtype endtype compress endcompress".
const KEYWORDS: &[(&[u8], Kind)] = &[
    (b"break", Kind::Break),
    (b"case", Kind::Case),
    (b"compress", Kind::Reserved),
    (b"default", Kind::Default),
    (b"delay", Kind::Delay),
    (b"do", Kind::Do),
    (b"else", Kind::Else),
    (b"endcompress", Kind::Reserved),
    (b"endif", Kind::EndIf),
    (b"endloop", Kind::EndLoop),
    (b"endparallel", Kind::EndParallel),
    (b"endproc", Kind::EndProc),
    (b"endprog", Kind::EndProg),
    (b"endswitch", Kind::EndSwitch),
    (b"endtype", Kind::Reserved),
    (b"exit", Kind::Exit),
    (b"false", Kind::False),
    (b"if", Kind::If),
    (b"input", Kind::Input),
    (b"int", Kind::Int),
    (b"integer", Kind::Integer),
    (b"internal", Kind::Internal),
    (b"invert", Kind::Invert),
    (b"loop", Kind::Loop),
    (b"lower", Kind::Lower),
    (b"output", Kind::Output),
    (b"parallel", Kind::Parallel),
    (b"procedure", Kind::Procedure),
    (b"process", Kind::Reserved),
    (b"processtype", Kind::Reserved),
    (b"program", Kind::Program),
    (b"raise", Kind::Raise),
    (b"skip", Kind::Skip),
    (b"switch", Kind::Switch),
    (b"then", Kind::Then),
    (b"true", Kind::True),
    (b"while", Kind::While),
];

/// A word and where it stands: bytes `start..end` of the text.
#[derive(Clone, Copy, PartialEq, Eq, Debug)]
pub struct Word {
    /// What it is.
    pub kind: Kind,
    /// Its place, the offset of its first byte.
    pub start: usize,
    /// The offset of the byte after it.
    pub end: usize,
}

/// All words of the text, or refusal 4 at the first place with "no word starts here, name or number too large".
pub fn words(source: &[u8]) -> Result<Vec<Word>, Refusal> {
    let mut found = Vec::new();
    let mut at = 0;
    while let Some(&byte) = source.get(at) {
        if is_blank(byte) {
            at += 1;
            continue;
        }
        let (kind, length) = word(&source[at..]).ok_or(Refusal::at(4, at))?;
        found.push(Word { kind, start: at, end: at + length });
        at += length;
    }
    Ok(found)
}

/// "Blanks (space, tab, LF, CR)."
fn is_blank(byte: u8) -> bool {
    matches!(byte, b' ' | b'\t' | b'\n' | b'\r')
}

/// The kind and length of the word that `text` begins with, if there is one and it is not too large.
fn word(text: &[u8]) -> Option<(Kind, usize)> {
    match text.first()? {
        b'a'..=b'z' | b'A'..=b'Z' => name_or_keyword(text),
        b'0'..=b'9' => number(text),
        _ => symbol(text),
    }
}

/// "Keywords, `true`, `false` and `int` are never names."
fn name_or_keyword(text: &[u8]) -> Option<(Kind, usize)> {
    let length = name_length(text);
    let name = &text[..length];
    match KEYWORDS.binary_search_by(|(keyword, _)| (*keyword).cmp(name)) {
        Ok(found) => Some((KEYWORDS[found].1, length)),
        Err(_) if length <= LONGEST_NAME => Some((Kind::Name, length)),
        Err(_) => None,
    }
}

/// "A name is a letter, then letters, digits, underscores; a hyphen belongs to it when a letter or digit follows."
fn name_length(text: &[u8]) -> usize {
    let belongs = |at: usize| match text[at] {
        b'-' => text.get(at + 1).is_some_and(u8::is_ascii_alphanumeric),
        byte => byte.is_ascii_alphanumeric() || byte == b'_',
    };
    (0..text.len()).find(|&at| !belongs(at)).unwrap_or(text.len())
}

/// "A number's value is at most 65,535": it counts by its value, so leading zeros are free.
fn number(text: &[u8]) -> Option<(Kind, usize)> {
    let mut value = 0u32;
    let mut length = 0;
    while let Some(digit) = text.get(length).filter(|byte| byte.is_ascii_digit()) {
        value = value * 10 + u32::from(digit - b'0');
        if value > LARGEST_NUMBER {
            return None;
        }
        length += 1;
    }
    Some((Kind::Number(value as u16), length))
}

/// "The longest word is taken: `||` before `|`, `!=` before `!`, `==` before `=`." "`.H` and `.L` are one word each."
fn symbol(text: &[u8]) -> Option<(Kind, usize)> {
    Some(match text {
        [b':', b'=', ..] => (Kind::Assign, 2),
        [b'|', b'|', ..] => (Kind::Bars, 2),
        [b'!', b'=', ..] => (Kind::Unequal, 2),
        [b'=', b'=', ..] => (Kind::Equal, 2),
        [b'.', b'H', ..] => (Kind::High, 2),
        [b'.', b'L', ..] => (Kind::Low, 2),
        [b':', ..] => (Kind::Colon, 1),
        [b'|', ..] => (Kind::Bar, 1),
        [b'!', ..] => (Kind::Not, 1),
        [b'=', ..] => (Kind::Equals, 1),
        [b';', ..] => (Kind::Semicolon, 1),
        [b',', ..] => (Kind::Comma, 1),
        [b'(', ..] => (Kind::Open, 1),
        [b')', ..] => (Kind::Close, 1),
        [b'[', ..] => (Kind::OpenIndex, 1),
        [b']', ..] => (Kind::CloseIndex, 1),
        [b'>', ..] => (Kind::Greater, 1),
        [b'<', ..] => (Kind::Less, 1),
        [b'&', ..] => (Kind::And, 1),
        [b'+', ..] => (Kind::Plus, 1),
        [b'-', ..] => (Kind::Minus, 1),
        [b'*', ..] => (Kind::Times, 1),
        [b'/', ..] => (Kind::Divide, 1),
        [b'%', ..] => (Kind::Remainder, 1),
        _ => return None,
    })
}

#[cfg(test)]
mod tests {
    use super::*;

    #[test]
    fn keywords_are_sorted() {
        assert!(KEYWORDS.windows(2).all(|pair| pair[0].0 < pair[1].0));
    }
}
