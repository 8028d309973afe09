//! `kiss TABLE|SOURCE [-o FILE]`

use std::path::PathBuf;

use crate::arguments::Arguments;
use crate::files;
use crate::machine::Machine;
use crate::message::Message;
use crate::trouble::{Outcome, Status, Trouble};

pub fn obey(arguments: Arguments) -> Outcome {
    let path = super::only(arguments.words, "a table file or a source")?;
    let target = arguments.output.map(|output| super::target(&path, PathBuf::from(output), "the text")).transpose()?;
    let table = Machine::read(&path)?.table;
    let text = table.kiss().map_err(|refusal| {
        Trouble::Refused(Box::new(Message::of_unwired(&files::name(&path), table.inputs, table.outputs, refusal)))
    })?;
    match target {
        Some(target) => super::written(&target, &text)?,
        None => files::print(&String::from_utf8_lossy(&text))?,
    }
    Ok(Status::Done)
}
