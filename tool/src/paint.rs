//! Colours, on a terminal alone.

use std::env;
use std::io::{self, IsTerminal};

#[derive(Clone, Copy)]
pub struct Paint {
    on: bool,
}

const LOUD: &str = "\x1b[1;31m";
const QUIET: &str = "\x1b[1;34m";
const PLAIN: &str = "\x1b[0m";

impl Paint {
    /// "Colours only on a terminal, never with `NO_COLOR`."
    pub fn for_errors() -> Paint {
        let dumb = env::var_os("TERM").is_some_and(|term| term == "dumb");
        Paint { on: io::stderr().is_terminal() && env::var_os("NO_COLOR").is_none() && !dumb }
    }

    pub fn loud(self, words: &str) -> String {
        self.with(LOUD, words)
    }

    pub fn quiet(self, words: &str) -> String {
        self.with(QUIET, words)
    }

    fn with(self, colour: &str, words: &str) -> String {
        if self.on {
            format!("{colour}{words}{PLAIN}")
        } else {
            words.to_string()
        }
    }
}
