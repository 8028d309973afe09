//! `check SOURCE`

use crate::arguments::Arguments;
use crate::calls::{self, LARGEST_ROOM};
use crate::files;
use crate::message::Message;
use crate::trouble::{Outcome, Status, Trouble};

/// Says nothing of a program that compiles.
pub fn obey(arguments: Arguments) -> Outcome {
    let source = files::source(&super::only(arguments.words, "a source")?)?;
    match calls::compile(&source.bytes, LARGEST_ROOM) {
        Ok(_) => Ok(Status::Done),
        Err(refusal) => Err(Trouble::Refused(Box::new(Message::of_source(&source, LARGEST_ROOM, refusal)))),
    }
}
