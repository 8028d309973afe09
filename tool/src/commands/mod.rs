//! The commands, by name.

mod check;
mod compile;
mod draw;
mod explain;
mod help;
mod kiss;
mod list;
mod open;
mod run;
mod unkiss;
mod vcd;

use std::ffi::{OsStr, OsString};
use std::fs;
use std::path::{Path, PathBuf};

use crate::arguments::{Arguments, Takes};
use crate::calls::BLOCK;
use crate::count::count;
use crate::files;
use crate::safe;
use crate::trouble::{Outcome, Status, Trouble};
use crate::whole;

struct Command {
    name: &'static str,
    help: &'static str,
    takes: Takes,
    obey: fn(Arguments) -> Outcome,
}

const NONE: Takes = Takes { output: false, room: false };
const BOTH: Takes = Takes { output: true, room: true };
const OUTPUT: Takes = Takes { output: true, room: false };

const COMMANDS: [Command; 10] = [
    Command { name: "compile", help: help::COMPILE, takes: BOTH, obey: compile::obey },
    Command { name: "check", help: help::CHECK, takes: NONE, obey: check::obey },
    Command { name: "list", help: help::LIST, takes: NONE, obey: list::obey },
    Command { name: "run", help: help::RUN, takes: NONE, obey: run::obey },
    Command { name: "vcd", help: help::VCD, takes: NONE, obey: vcd::obey },
    Command { name: "draw", help: help::DRAW, takes: NONE, obey: draw::obey },
    Command { name: "open", help: help::OPEN, takes: NONE, obey: open::obey },
    Command { name: "kiss", help: help::KISS, takes: OUTPUT, obey: kiss::obey },
    Command { name: "unkiss", help: help::UNKISS, takes: OUTPUT, obey: unkiss::obey },
    Command { name: "explain", help: help::EXPLAIN, takes: NONE, obey: explain::obey },
];

/// Does what the arguments say.
pub fn obey(mut given: impl Iterator<Item = OsString>) -> Outcome {
    let Some(name) = given.next() else {
        return Err(Trouble::Usage(format!("a command is wanted\n{}", help::ALL.trim_end())));
    };
    if name == "--help" || name == "-h" || name == "help" {
        return shown(help::ALL);
    }
    if name == "--version" {
        return shown(concat!("windnadel ", env!("CARGO_PKG_VERSION"), "\n"));
    }
    let Some(command) = COMMANDS.iter().find(|command| name == command.name) else {
        return Err(Trouble::Usage(format!("there is no command {}; try --help", safe::path(&name))));
    };
    let in_command = |words: String| Trouble::Usage(format!("{}: {words}; try {0} --help", command.name));
    let arguments = Arguments::read(given, command.takes).map_err(in_command)?;
    if arguments.help {
        return shown(command.help);
    }
    (command.obey)(arguments).map_err(|trouble| match trouble {
        Trouble::Usage(words) => in_command(words),
        other => other,
    })
}

fn shown(text: &str) -> Outcome {
    files::print(text)?;
    Ok(Status::Done)
}

/// The one word that a command takes.
fn only(words: Vec<OsString>, wanted: &str) -> Result<OsString, Trouble> {
    match <[OsString; 1]>::try_from(words) {
        Ok([word]) => Ok(word),
        Err(words) if words.is_empty() => Err(Trouble::Usage(format!("{wanted} is wanted"))),
        Err(words) => Err(Trouble::Usage(format!("one is enough, {} is one too many", safe::path(&words[1])))),
    }
}

/// Where a command writes what it made of `source`: into a file, and never over the source.
fn target(source: &OsStr, target: PathBuf, made: &str) -> Result<PathBuf, Trouble> {
    if target.as_os_str() == "-" {
        return Err(Trouble::Usage("-o wants a file: what is written to a pipe may arrive in part".to_string()));
    }
    let same =
        fs::canonicalize(source).is_ok_and(|source| fs::canonicalize(&target).is_ok_and(|target| source == target));
    if same && target.is_file() {
        return Err(Trouble::Usage(format!("{made} would replace its own source: give another name by -o")));
    }
    Ok(target)
}

/// Writes a file whole.
fn written(target: &Path, bytes: &[u8]) -> Result<(), Trouble> {
    whole::write(target, bytes).map_err(|error| Trouble::System(safe::path(target.as_os_str()), error))
}

/// Writes a table file, and prints how large it is.
fn table_written(target: &Path, file: &[u8], states: u32) -> Outcome {
    written(target, file)?;
    let sizes = [count(states as usize, "state"), count(file.len() / BLOCK, "block"), count(file.len(), "byte")];
    files::print(&format!("{}: {}\n", safe::path(target.as_os_str()), sizes.join(", ")))?;
    Ok(Status::Done)
}
