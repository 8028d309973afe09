//! Records of many programs, compiled one after another.
//!
//! A record is a line `LEN ROOM WORK BUF`, LEN bytes of source, and one LF.

use std::io::{self, BufRead, Read, Write};

use crate::{compile, Compiled, Lent};

/// A source and what is lent to compile it.
#[derive(Clone, PartialEq, Eq, Debug)]
pub struct Record {
    /// The program's text, any bytes.
    pub source: Vec<u8>,
    /// What is lent.
    pub lent: Lent,
}

impl Record {
    /// The next record, or none at the end.
    pub fn read(from: &mut impl BufRead) -> io::Result<Option<Record>> {
        let mut line = String::new();
        if from.read_line(&mut line)? == 0 {
            return Ok(None);
        }
        let numbers: Option<Vec<u64>> = line.split_ascii_whitespace().map(number).collect();
        let Some(&[length, room, work, buffer]) = numbers.as_deref() else {
            return Err(io::Error::new(io::ErrorKind::InvalidData, format!("no record begins with {line:?}")));
        };
        let mut source = Vec::new();
        from.by_ref().take(length).read_to_end(&mut source)?;
        let mut end = [0];
        from.read_exact(&mut end)?;
        if source.len() as u64 != length || end != [b'\n'] {
            return Err(io::Error::new(io::ErrorKind::InvalidData, "a record does not end with its source and LF"));
        }
        Ok(Some(Record { source, lent: Lent { room, work, buffer } }))
    }

    /// Writes the record as it is read.
    pub fn write(&self, to: &mut impl Write) -> io::Result<()> {
        let Lent { room, work, buffer } = self.lent;
        writeln!(to, "{} {room} {work} {buffer}", self.source.len())?;
        to.write_all(&self.source)?;
        to.write_all(b"\n")
    }

    /// `ok STATES BLOCKS HASH`, or `refused N at P`.
    pub fn answer(&self) -> String {
        match compile(&self.source, self.lent) {
            Ok(compiled) => success(&compiled),
            Err(refusal) => refusal.to_string(),
        }
    }
}

fn success(compiled: &Compiled) -> String {
    format!("ok {} {} {:016x}", compiled.states(), compiled.blocks(), hash(&compiled.file))
}

/// A decimal number of any length: what passes 64 bits counts as the largest of them.
fn number(digits: &str) -> Option<u64> {
    digits.bytes().try_fold(0u64, |value, byte| {
        byte.is_ascii_digit().then(|| value.saturating_mul(10).saturating_add(u64::from(byte - b'0')))
    })
}

/// FNV-1a, 64 bits.
pub fn hash(bytes: &[u8]) -> u64 {
    bytes.iter().fold(0xcbf2_9ce4_8422_2325, |hash, &byte| (hash ^ u64::from(byte)).wrapping_mul(0x0100_0000_01b3))
}
