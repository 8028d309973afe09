//! `unkiss TEXT -o TABLE`

use std::path::PathBuf;

use crate::arguments::Arguments;
use crate::calls;
use crate::files;
use crate::message::Message;
use crate::table::Table;
use crate::trouble::{Outcome, Trouble};

pub fn obey(arguments: Arguments) -> Outcome {
    let path = super::only(arguments.words, "a KISS text")?;
    let output = arguments.output.ok_or_else(|| Trouble::Usage("a table file is wanted: name it by -o".to_string()))?;
    let target = super::target(&path, PathBuf::from(output), "the table file")?;
    let text = files::kiss_text(&path)?;
    let file = calls::kiss_read(&text.bytes)
        .map_err(|refusal| Trouble::Refused(Box::new(Message::of_kiss(&text, refusal))))?;
    let states = Table::opened(file.clone())?.states;
    super::table_written(&target, &file, states)
}
