//! `open TABLE`

use crate::arguments::Arguments;
use crate::count::count;
use crate::files;
use crate::machine;
use crate::trouble::{Outcome, Status};

pub fn obey(arguments: Arguments) -> Outcome {
    let file = files::table_or_source(&super::only(arguments.words, "a table file")?)?;
    let name = file.name.clone();
    let table = machine::opened(file)?;
    let sizes = [
        count(table.inputs, "input"),
        count(table.outputs, "output"),
        count(table.states as usize, "state"),
        count(table.blocks(), "block"),
        count(table.bytes(), "byte"),
    ];
    files::print(&format!("{name}: sound, {}\n", sizes.join(", ")))?;
    Ok(Status::Done)
}
