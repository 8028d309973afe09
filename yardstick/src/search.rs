//! The reachable states, numbered, and the table they make.

use std::collections::hash_map::{Entry, HashMap};

use crate::clock::next;
use crate::refusal::Refusal;
use crate::state::State;
use crate::tree::{Class, Program, Variable};

/// The machine as a table.
#[derive(Debug, PartialEq, Eq)]
pub struct Table {
    /// How many inputs there are.
    pub inputs: usize,
    /// How many outputs there are.
    pub outputs: usize,
    /// One row for each state, in number order.
    pub rows: Vec<Row>,
}

/// What a table says of one state.
#[derive(Debug, PartialEq, Eq)]
pub struct Row {
    /// The outputs, "first declared lowest".
    pub outputs: u16,
    /// The next state for each input in rising order.
    pub next: Vec<u16>,
}

/// "State 0 is the start; states are numbered as first met, going through states in number order and inputs in rising
/// order." Refusal 11 when there are "reachable states above the room". The program has passed the check.
pub fn search(program: &Program, room: usize) -> Result<Table, Refusal> {
    let inputs = program.declarations.iter().filter(|declaration| declaration.class == Class::Input).count();
    let output_bits = output_bits(program);
    let mut states = vec![State::start(program)];
    let mut numbers = HashMap::from([(states[0], 0u16)]);
    let mut rows = Vec::new();
    while let Some(&state) = states.get(rows.len()) {
        let mut row = Row { outputs: outputs(state.word, &output_bits), next: Vec::with_capacity(1 << inputs) };
        for input in 0..1 << inputs {
            let number = match numbers.entry(next(program, &state, input)) {
                Entry::Occupied(known) => *known.get(),
                Entry::Vacant(_) if states.len() == room => return Err(Refusal::at(11, 0)),
                Entry::Vacant(new) => {
                    states.push(*new.key());
                    *new.insert(states.len() as u16 - 1)
                }
            };
            row.next.push(number);
        }
        rows.push(row);
    }
    Ok(Table { inputs, outputs: output_bits.len(), rows })
}

/// Where the outputs stand in the value word, in declared order.
fn output_bits(program: &Program) -> Vec<u32> {
    let outputs = program.declarations.iter().filter(|declaration| declaration.class == Class::Output);
    outputs
        .filter_map(|declaration| match declaration.variable {
            Variable::Boolean(bit) => Some(bit),
            _ => None,
        })
        .collect()
}

fn outputs(word: u32, bits: &[u32]) -> u16 {
    bits.iter().enumerate().fold(0, |outputs, (at, bit)| outputs | ((word >> bit & 1) as u16) << at)
}
