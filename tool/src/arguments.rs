//! The arguments of a command.

use std::ffi::OsString;
use std::os::unix::ffi::OsStrExt;

use crate::safe;

/// The options that a command takes, beside `--help`.
#[derive(Clone, Copy)]
pub struct Takes {
    pub output: bool,
    pub room: bool,
}

#[derive(Default)]
pub struct Arguments {
    /// All that is no option, in order.
    pub words: Vec<OsString>,
    pub help: bool,
    /// `-o FILE`.
    pub output: Option<OsString>,
    /// `--room N`.
    pub room: Option<u32>,
}

impl Arguments {
    /// Reads them; `-o` and `--room` where the command takes them.
    pub fn read(given: impl Iterator<Item = OsString>, takes: Takes) -> Result<Arguments, String> {
        let mut given = given;
        let mut arguments = Arguments::default();
        while let Some(word) = given.next() {
            match word.as_bytes() {
                b"--" => {
                    arguments.words.extend(given.by_ref());
                }
                b"--help" | b"-h" => arguments.help = true,
                b"-o" if takes.output => {
                    arguments.output = Some(given.next().ok_or("-o wants a file's name")?);
                }
                b"--room" if takes.room => {
                    arguments.room = Some(room(&given.next().ok_or("--room wants a number")?)?);
                }
                [b'-', _, ..] => return Err(format!("there is no option {}", safe::path(&word))),
                _ => arguments.words.push(word),
            }
        }
        Ok(arguments)
    }
}

/// A room of any size, since the proved call judges it: one past 32 bits counts as the largest.
fn room(word: &OsString) -> Result<u32, String> {
    let digits = word.as_bytes();
    if digits.is_empty() || !digits.iter().all(u8::is_ascii_digit) {
        return Err(format!("{} is no room: --room wants a number", safe::path(word)));
    }
    let next = |room: u32, digit: &u8| room.saturating_mul(10).saturating_add(u32::from(digit - b'0'));
    Ok(digits.iter().fold(0, next))
}
