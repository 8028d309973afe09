//! `compile SOURCE [-o FILE] [--room N]`

use std::ffi::OsStr;
use std::path::{Path, PathBuf};

use crate::arguments::Arguments;
use crate::calls::{self, LARGEST_ROOM};
use crate::files;
use crate::message::Message;
use crate::trouble::{Outcome, Trouble};

pub fn obey(arguments: Arguments) -> Outcome {
    let path = super::only(arguments.words, "a source")?;
    let target = target(&path, arguments.output.as_deref())?;
    let room = arguments.room.unwrap_or(LARGEST_ROOM);
    let source = files::source(&path)?;
    let compiled = calls::compile(&source.bytes, room)
        .map_err(|refusal| Trouble::Refused(Box::new(Message::of_source(&source, room, refusal))))?;
    super::table_written(&target, &compiled.file, compiled.states)
}

/// Where the table file goes: beside the source, unless told otherwise.
fn target(source: &OsStr, output: Option<&OsStr>) -> Result<PathBuf, Trouble> {
    let target = match output {
        Some(output) => PathBuf::from(output),
        None if source == "-" => {
            return Err(Trouble::Usage("a source from standard input has no name: give one by -o".to_string()));
        }
        None => Path::new(source).with_extension("table"),
    };
    super::target(source, target, "the table file")
}
