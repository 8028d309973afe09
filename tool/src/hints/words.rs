//! Refusal 4: no word starts here, or it is too large.

use super::{quoted, Hint};
use crate::safe;
use crate::words::word_at;

pub fn hint(source: &[u8], place: usize) -> Hint {
    let word = word_at(source, place);
    match word[0] {
        b'a'..=b'z' | b'A'..=b'Z' => Hint::found(format!("a name of {} bytes", word.len()))
            .rule("a name has at most 16 bytes")
            .right("a shorter name"),
        b'0'..=b'9' => {
            Hint::found("this number is too large").rule("a number is at most 65,535").right("a smaller number")
        }
        b'_' => Hint::found("no word begins with `_`").rule("a name begins with a letter").right("a letter in front"),
        b'.' => Hint::found("no word begins so")
            .rule("the only words with a dot are `.H` and `.L`")
            .right("a capital letter, and no blank before it"),
        byte @ b'!'..=b'~' => Hint::found(format!("{} starts no word", quoted(&[byte]))),
        byte => Hint::found(format!("the byte {} starts no word", safe::byte(byte)))
            .right("take it out; names and blanks are plain ASCII"),
    }
}
