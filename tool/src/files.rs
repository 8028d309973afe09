//! Files and standard input, read no further than an answer needs.

use std::ffi::OsStr;
use std::fs::File;
use std::io::{self, Read, Write};

use crate::calls::{LARGEST_FILE, LONGEST_SOURCE, LONGEST_TEXT};
use crate::safe;
use crate::trouble::Trouble;

/// What was read, and what to call it.
pub struct Text {
    pub name: String,
    pub bytes: Vec<u8>,
}

/// A source. One byte past the longest is enough to have it refused as the whole would be.
pub fn source(path: &OsStr) -> Result<Text, Trouble> {
    read(path, LONGEST_SOURCE + 1)
}

/// A table file or a source, whichever it turns out to be.
pub fn table_or_source(path: &OsStr) -> Result<Text, Trouble> {
    read(path, LARGEST_FILE + 1)
}

/// A KISS text. One byte past the longest is enough to have it refused as the whole would be.
pub fn kiss_text(path: &OsStr) -> Result<Text, Trouble> {
    read(path, LONGEST_TEXT + 1)
}

fn read(path: &OsStr, most: usize) -> Result<Text, Trouble> {
    let standard = path == "-";
    let name = name(path);
    let bytes = if standard {
        first_bytes(io::stdin().lock(), most)
    } else {
        File::open(path).and_then(|file| first_bytes(file, most))
    };
    match bytes {
        Ok(bytes) => Ok(Text { name, bytes }),
        Err(error) => Err(Trouble::System(name, error)),
    }
}

/// What to call a file.
pub fn name(path: &OsStr) -> String {
    if path == "-" {
        "standard input".to_string()
    } else {
        safe::path(path)
    }
}

fn first_bytes(from: impl Read, most: usize) -> io::Result<Vec<u8>> {
    let mut bytes = Vec::new();
    from.take(most as u64).read_to_end(&mut bytes)?;
    Ok(bytes)
}

/// Writes to standard output, at once.
pub fn print(words: &str) -> Result<(), Trouble> {
    let mut out = io::stdout().lock();
    out.write_all(words.as_bytes()).and_then(|()| out.flush()).map_err(|error| {
        if error.kind() == io::ErrorKind::BrokenPipe {
            Trouble::Closed
        } else {
            Trouble::System("standard output".to_string(), error)
        }
    })
}
