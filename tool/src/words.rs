//! The words of a text, for showing and naming. It judges nothing: what is no word counts as one of a single byte.

pub struct Word<'a> {
    /// The offset of its first byte.
    pub at: usize,
    pub text: &'a [u8],
}

/// All words of `source`, in order.
pub fn words(source: &[u8]) -> impl Iterator<Item = Word<'_>> {
    let mut at = 0;
    std::iter::from_fn(move || {
        at += source[at..].iter().take_while(|&&byte| is_blank(byte)).count();
        let text = word_at(source, at);
        let word = Word { at, text };
        at += text.len();
        (!text.is_empty()).then_some(word)
    })
}

/// The word that begins at `at`; empty at the end of the text.
pub fn word_at(source: &[u8], at: usize) -> &[u8] {
    let rest = &source[at..];
    let length = match rest {
        [] => 0,
        [b'a'..=b'z' | b'A'..=b'Z', ..] => name_length(rest),
        [b'0'..=b'9', ..] => rest.iter().take_while(|byte| byte.is_ascii_digit()).count(),
        [b':' | b'!' | b'=', b'=', ..] | [b'|', b'|', ..] | [b'.', b'H' | b'L', ..] => 2,
        _ => 1,
    };
    &rest[..length]
}

/// A name goes on with letters, digits and underscores, and with a hyphen when a letter or digit follows.
fn name_length(text: &[u8]) -> usize {
    let belongs = |at: &usize| match text[*at] {
        b'-' => text.get(at + 1).is_some_and(u8::is_ascii_alphanumeric),
        byte => byte.is_ascii_alphanumeric() || byte == b'_',
    };
    (0..text.len()).take_while(belongs).count()
}

/// Reserved words that begin with a letter and can stand in a statement list.
const RESERVED: &str =
    "skip delay raise lower invert if then else endif while do loop endloop exit switch case default \
                        endswitch break parallel endparallel true false int";

/// Is this word of a statement list a name?
pub fn may_name(word: &[u8]) -> bool {
    word.first().is_some_and(u8::is_ascii_alphabetic)
        && !RESERVED.split(' ').any(|reserved| reserved.as_bytes() == word)
}

pub fn is_blank(byte: u8) -> bool {
    matches!(byte, b' ' | b'\t' | b'\n' | b'\r')
}

#[cfg(test)]
mod tests {
    use super::words;

    #[test]
    fn words_are_cut_as_the_document_says() {
        let text = b"program p-1; x:=a-1 - b--c|d||e!=!f.H";
        let found: Vec<&str> = words(text).map(|word| std::str::from_utf8(word.text).unwrap()).collect();
        let expected = "program p-1 ; x := a-1 - b - - c | d || e != ! f .H";
        assert_eq!(found, expected.split(' ').collect::<Vec<_>>());
    }

    #[test]
    fn no_word_is_lost_in_any_bytes() {
        let text: Vec<u8> = (0..=255).collect();
        assert_eq!(words(&text).map(|word| word.text.len()).sum::<usize>(), 256 - 4);
    }
}
