//! A machine stepped clock by clock: the same walk for `run` and `vcd`.

use std::ffi::OsString;

use crate::clocks::{self, Clocks};
use crate::machine::Machine;
use crate::trouble::{Outcome, Status, Trouble};

/// Where a machine stands.
#[derive(Clone, Copy)]
pub struct Stand {
    pub state: u32,
    pub outputs: u32,
}

pub enum Clock {
    /// The inputs that were taken, and where the machine stands after them.
    Taken(u32, Stand),
    /// The inputs were not taken: why, in words. The machine stands where it stood.
    Stays(String),
}

/// The file, and the inputs that follow it.
pub fn split(words: Vec<OsString>) -> Result<(OsString, Vec<OsString>), Trouble> {
    let mut words = words.into_iter();
    let path = words.next().ok_or_else(|| Trouble::Usage("a table file or a source is wanted".to_string()))?;
    let inputs: Vec<OsString> = words.collect();
    if path == "-" && inputs.is_empty() {
        return Err(Trouble::Usage("with the source from standard input, inputs are arguments".to_string()));
    }
    Ok((path, inputs))
}

/// Where the machine stands before the first clock.
pub fn start(machine: &Machine) -> Result<Stand, Trouble> {
    Ok(Stand { state: 0, outputs: machine.table.outputs_of(0)? })
}

/// Steps through all inputs and hands each clock on. "For a refusal the record stays", and the walk goes on.
pub fn walk(machine: &Machine, inputs: Vec<OsString>, mut each: impl FnMut(Clock) -> Result<(), Trouble>) -> Outcome {
    let mut clocks = Clocks::of(inputs);
    let mut state = 0;
    let mut status = Status::Done;
    while let Some(written) = clocks.next()? {
        let clock = match clocks::input(&written, &machine.inputs) {
            Err(words) => {
                status = Status::Bad;
                Clock::Stays(words)
            }
            Ok(input) => match machine.table.step(state, input) {
                Err(refusal) => {
                    status = status.max(Status::Refused);
                    let last = machine.table.choices() - 1;
                    Clock::Stays(format!("input {input} is not in the table, 0 to {last} are: {refusal}"))
                }
                Ok(next) => {
                    state = next;
                    Clock::Taken(input, Stand { state, outputs: machine.table.outputs_of(state)? })
                }
            },
        };
        each(clock)?;
    }
    Ok(status)
}
