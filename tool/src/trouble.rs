//! Why a command ends early, and the exit status that says so.

use std::io::{self, Write};
use std::process::ExitCode;

use crate::message::Message;
use crate::paint::Paint;
use crate::refusal::Refusal;

/// How a command that went through ended.
#[derive(Clone, Copy, PartialEq, Eq, PartialOrd, Ord)]
pub enum Status {
    Done,
    Refused,
    Bad,
}

pub enum Trouble {
    /// A proved call said no.
    Refused(Box<Message>),
    /// The arguments make no command.
    Usage(String),
    /// A file can't be read or written: its name, and the system's words.
    System(String, io::Error),
    /// Nobody reads standard output any more; there is nothing to say and nobody to say it to.
    Closed,
}

pub type Outcome = Result<Status, Trouble>;

impl From<Status> for ExitCode {
    fn from(status: Status) -> ExitCode {
        match status {
            Status::Done => ExitCode::SUCCESS,
            Status::Refused => ExitCode::from(1),
            Status::Bad => ExitCode::from(2),
        }
    }
}

impl Trouble {
    /// Says it on standard error. A failure to do so can be told nowhere.
    pub fn tell(&self) -> Status {
        match self {
            Trouble::Refused(message) => {
                complain(&format!("{}{}\n", message.text(Paint::for_errors()), message.refusal));
                return Status::Refused;
            }
            Trouble::Usage(words) => complain(&format!("windnadel: {words}\n")),
            Trouble::System(name, error) => complain(&format!("windnadel: {name}: {error}\n")),
            Trouble::Closed => {}
        }
        Status::Bad
    }
}

pub fn complain(words: &str) {
    let _ = io::stderr().write_all(words.as_bytes());
}

/// A table that was opened is refused nowhere, so this is told bare.
impl From<Refusal> for Trouble {
    fn from(refusal: Refusal) -> Trouble {
        Trouble::Refused(Box::new(Message::bare(refusal)))
    }
}
