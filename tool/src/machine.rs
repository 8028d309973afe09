//! A machine to run or draw: a table, with its source's names where a source was given.

use std::ffi::OsStr;
use std::os::unix::ffi::OsStrExt;

use crate::calls::{self, LARGEST_ROOM};
use crate::files::{self, Text};
use crate::message::Message;
use crate::names::{Class, Names};
use crate::table::Table;
use crate::trouble::Trouble;

pub struct Machine {
    pub name: String,
    /// Names by bits, the first declared first.
    pub inputs: Vec<String>,
    pub outputs: Vec<String>,
    pub table: Table,
}

impl Machine {
    /// Reads a table file or a source.
    pub fn read(path: &OsStr) -> Result<Machine, Trouble> {
        let text = files::table_or_source(path)?;
        if is_table(path, &text.bytes) {
            Machine::of_table(text)
        } else {
            Machine::of_source(&text)
        }
    }

    pub fn of_source(source: &Text) -> Result<Machine, Trouble> {
        let compiled = calls::compile(&source.bytes, LARGEST_ROOM)
            .map_err(|refusal| Trouble::Refused(Box::new(Message::of_source(source, LARGEST_ROOM, refusal))))?;
        let names = Names::of(&source.bytes);
        Ok(Machine {
            inputs: names.of_class(Class::Input),
            outputs: names.of_class(Class::Output),
            name: names.program,
            table: Table::opened(compiled.file)?,
        })
    }

    /// A table has no names: its inputs are called i0, i1, .. and its outputs o0, o1, ..
    fn of_table(file: Text) -> Result<Machine, Trouble> {
        let table = opened(file)?;
        let numbered = |letter: char, count: usize| (0..count).map(|bit| format!("{letter}{bit}")).collect();
        Ok(Machine {
            name: "table".to_string(),
            inputs: numbered('i', table.inputs),
            outputs: numbered('o', table.outputs),
            table,
        })
    }

    /// The names of the outputs that are high.
    pub fn high(&self, outputs: u32) -> Vec<&str> {
        let names = self.outputs.iter().enumerate();
        names.filter(|(bit, _)| outputs >> bit & 1 == 1).map(|(_, name)| name.as_str()).collect()
    }
}

/// Opens a table file, or says what is broken.
pub fn opened(file: Text) -> Result<Table, Trouble> {
    let Text { name, bytes } = file;
    Table::opened(bytes.clone())
        .map_err(|refusal| Trouble::Refused(Box::new(Message::of_table(&name, &bytes, refusal))))
}

/// A table file begins with its first block's number, two zeros, and no program begins with a zero byte.
fn is_table(path: &OsStr, bytes: &[u8]) -> bool {
    path.as_bytes().ends_with(b".table") || bytes.first() == Some(&0)
}
