//! Many table files and texts, turned into one another.
//!
//! A job is a line `write LEN BUF` or `read LEN BUF`, LEN bytes of table file or text, and one LF.

use std::io::{self, BufRead, Write};

use crate::batch::hash;
use crate::file::BLOCK;
use crate::kiss;
use crate::refusal::Refusal;

/// Which way.
#[derive(Clone, Copy, PartialEq, Eq, Debug)]
pub enum Task {
    /// A table file into its text.
    Write,
    /// A text into its table file.
    Read,
}

/// What is lent to a call.
#[derive(Clone, PartialEq, Eq, Debug)]
pub struct Job {
    /// Which way.
    pub task: Task,
    /// A table file, or a text.
    pub bytes: Vec<u8>,
    /// The length of the buffer for the other.
    pub buffer: u64,
}

impl Job {
    /// The next job, or none at the end.
    pub fn read(from: &mut impl BufRead) -> io::Result<Option<Job>> {
        let mut line = String::new();
        if from.read_line(&mut line)? == 0 {
            return Ok(None);
        }
        let none = || io::Error::new(io::ErrorKind::InvalidData, format!("no job begins with {line:?}"));
        let words: Vec<&str> = line.split_ascii_whitespace().collect();
        let [task, length, buffer] = words[..] else {
            return Err(none());
        };
        let task = match task {
            "write" => Task::Write,
            "read" => Task::Read,
            _ => return Err(none()),
        };
        let (Ok(length), Ok(buffer)) = (length.parse::<usize>(), buffer.parse()) else {
            return Err(none());
        };
        let mut bytes = vec![0; length + 1];
        from.read_exact(&mut bytes)?;
        if bytes.pop() != Some(b'\n') {
            return Err(io::Error::new(io::ErrorKind::InvalidData, "a job does not end with its bytes and LF"));
        }
        Ok(Some(Job { task, bytes, buffer }))
    }

    /// Writes the job as it is read.
    pub fn write(&self, to: &mut impl Write) -> io::Result<()> {
        let task = match self.task {
            Task::Write => "write",
            Task::Read => "read",
        };
        writeln!(to, "{task} {} {}", self.bytes.len(), self.buffer)?;
        to.write_all(&self.bytes)?;
        to.write_all(b"\n")
    }

    /// The number that is answered, and the bytes that are then at the buffer's start: a text has its length, a file
    /// its blocks.
    pub fn done(&self) -> Result<(usize, Vec<u8>), Refusal> {
        match self.task {
            Task::Write => kiss::write(&self.bytes, self.buffer).map(|text| (text.len(), text.into_bytes())),
            Task::Read => kiss::read(&self.bytes, self.buffer).map(|file| (file.len() / BLOCK, file)),
        }
    }

    /// `ok NUMBER HASH`, or `refused N at P`.
    pub fn answer(&self) -> String {
        match self.done() {
            Ok((number, bytes)) => format!("ok {number} {:016x}", hash(&bytes)),
            Err(refusal) => refusal.to_string(),
        }
    }
}
