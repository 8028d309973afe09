//! `run TABLE|SOURCE [INPUT..]`

use std::io::{self, IsTerminal};

use crate::arguments::Arguments;
use crate::files;
use crate::machine::Machine;
use crate::trouble::{complain, Outcome};
use crate::walk::{self, Clock, Stand};

pub fn obey(arguments: Arguments) -> Outcome {
    let (path, inputs) = walk::split(arguments.words)?;
    let machine = Machine::read(&path)?;
    if inputs.is_empty() && io::stdin().is_terminal() {
        complain("one clock to a line: a number, the names of the high inputs, or - for none; Ctrl-D ends\n");
    }
    let mut number = 0;
    let mut stand = walk::start(&machine)?;
    files::print(&(header(&machine) + &row(&machine, number, None, stand)))?;
    walk::walk(&machine, inputs, |clock| match clock {
        Clock::Taken(input, now) => {
            number += 1;
            stand = now;
            files::print(&row(&machine, number, Some(input), stand))
        }
        Clock::Stays(words) => files::print(&format!("    -  {words}; state {} stays\n", stand.state)),
    })
}

/// A column for each name, inputs and outputs apart.
fn header(machine: &Machine) -> String {
    columns("clock", &machine.inputs.join(" "), &machine.outputs.join(" "), "state")
}

/// The inputs of a clock, and the outputs and state after it; before the first clock there are no inputs.
fn row(machine: &Machine, number: u32, input: Option<u32>, stand: Stand) -> String {
    let bits = |names: &[String], value: Option<u32>| {
        let bit = |bit: usize| value.map_or("-".to_string(), |value| (value >> bit & 1).to_string());
        let cells = names.iter().enumerate().map(|(at, name)| format!("{:>1$}", bit(at), name.len()));
        cells.collect::<Vec<_>>().join(" ")
    };
    let (inputs, outputs) = (bits(&machine.inputs, input), bits(&machine.outputs, Some(stand.outputs)));
    columns(&format!("{number:>5}"), &inputs, &outputs, &format!("{:>5}", stand.state))
}

/// Two blanks between parts; a machine without inputs or outputs has a part less.
fn columns(clock: &str, inputs: &str, outputs: &str, state: &str) -> String {
    let parts: Vec<&str> = [clock, inputs, outputs, state].into_iter().filter(|part| !part.is_empty()).collect();
    parts.join("  ") + "\n"
}
