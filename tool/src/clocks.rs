//! The inputs of each clock: arguments, or the lines of standard input, as a number or as names.

use std::ffi::OsString;
use std::io::{self, BufRead, Read};
use std::os::unix::ffi::OsStringExt;

use crate::safe;
use crate::trouble::Trouble;

/// A longer line names no inputs: six names of sixteen bytes are shorter.
const LONGEST_LINE: u64 = 4_096;

/// Where inputs come from, one clock after another.
pub enum Clocks {
    Arguments(std::vec::IntoIter<OsString>),
    Lines(io::StdinLock<'static>),
}

impl Clocks {
    /// The arguments if there are any, else standard input.
    pub fn of(arguments: Vec<OsString>) -> Clocks {
        if arguments.is_empty() {
            Clocks::Lines(io::stdin().lock())
        } else {
            Clocks::Arguments(arguments.into_iter())
        }
    }

    /// What is written for the next clock; none at the end. Lines of blanks are no clocks.
    pub fn next(&mut self) -> Result<Option<Vec<u8>>, Trouble> {
        match self {
            Clocks::Arguments(arguments) => Ok(arguments.next().map(OsString::into_vec)),
            Clocks::Lines(lines) => loop {
                let line = line(lines).map_err(|error| Trouble::System("standard input".to_string(), error))?;
                if line.is_empty() || !line.trim_ascii().is_empty() {
                    return Ok((!line.is_empty()).then_some(line));
                }
            },
        }
    }
}

/// One line, cut where it is too long; empty at the end.
fn line(from: &mut impl BufRead) -> io::Result<Vec<u8>> {
    let mut line = Vec::new();
    let read = from.by_ref().take(LONGEST_LINE).read_until(b'\n', &mut line)?;
    if read as u64 == LONGEST_LINE && line.last() != Some(&b'\n') {
        from.skip_until(b'\n')?;
    }
    Ok(line)
}

/// The input that was written: a number, names parted by blanks or `+`, or `-` for none; else what is wrong with it.
pub fn input(written: &[u8], names: &[String]) -> Result<u32, String> {
    let words: Vec<&[u8]> = written.split(|&byte| byte == b'+' || byte.is_ascii_whitespace()).collect();
    let words: Vec<&[u8]> = words.into_iter().filter(|word| !word.is_empty()).collect();
    match words[..] {
        [] => Err("no input is written here".to_string()),
        [b"-"] => Ok(0),
        [word] if word[0].is_ascii_digit() => number(word),
        _ => words.into_iter().try_fold(0, |input, word| Ok(input | bit(word, names)?)),
    }
}

fn number(word: &[u8]) -> Result<u32, String> {
    let text = std::str::from_utf8(word).ok();
    let number = text.filter(|text| text.bytes().all(|byte| byte.is_ascii_digit())).and_then(|text| text.parse().ok());
    number.ok_or_else(|| format!("{} is no number below 2^32", safe::bytes(word)))
}

fn bit(word: &[u8], names: &[String]) -> Result<u32, String> {
    match names.iter().position(|name| name.as_bytes() == word) {
        Some(bit) => Ok(1 << bit),
        None if names.is_empty() => Err(format!("{} is no input: there are none", safe::bytes(word))),
        None => Err(format!("{} is no input: they are {}", safe::bytes(word), names.join(" "))),
    }
}

#[cfg(test)]
mod tests {
    use super::input;

    fn names() -> Vec<String> {
        ["FROST", "WATER", "TAKE-METER"].map(String::from).to_vec()
    }

    #[test]
    fn inputs_are_numbers_or_names() {
        for (written, expected) in [
            ("-", 0),
            ("0", 0),
            ("5", 5),
            ("4294967295", u32::MAX),
            ("FROST", 1),
            ("FROST TAKE-METER", 5),
            (" WATER+FROST\r\n", 3),
            ("FROST FROST", 1),
        ] {
            assert_eq!(input(written.as_bytes(), &names()), Ok(expected), "{written}");
        }
    }

    #[test]
    fn all_else_is_told() {
        for written in ["4294967296", "1x", "frost", "FROST,WATER", "1 2", "FROST 1", "+", "\x1b[31m", "--"] {
            assert!(input(written.as_bytes(), &names()).is_err(), "{written}");
        }
    }
}
