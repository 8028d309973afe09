//! The tool `windnadel`. Whatever decides an answer is a proved call; the tool reads files, prints and explains.
#![deny(unsafe_code)]

mod arguments;
mod broken;
mod calls;
mod clocks;
mod commands;
mod count;
mod cubes;
mod excerpt;
mod files;
mod hints;
mod machine;
mod message;
mod names;
mod paint;
mod refusal;
mod rules;
mod safe;
mod table;
mod trouble;
mod walk;
mod whole;
mod words;

use std::process::ExitCode;

fn main() -> ExitCode {
    commands::obey(std::env::args_os().skip(1)).unwrap_or_else(|trouble| trouble.tell()).into()
}
