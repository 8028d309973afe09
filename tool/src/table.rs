//! A table file that the proved call has opened, and what it is asked for.

use crate::calls;
use crate::refusal::Refusal;

pub struct Table {
    file: Vec<u8>,
    pub inputs: usize,
    pub outputs: usize,
    pub states: u32,
}

impl Table {
    /// Opens a file. The sizes are the first numbers of a sound file: inputs, outputs and, in two bytes, states.
    pub fn opened(file: Vec<u8>) -> Result<Table, Refusal> {
        calls::open(&file)?;
        let states = u32::from(u16::from_le_bytes([file[6], file[7]]));
        Ok(Table { inputs: file[4].into(), outputs: file[5].into(), states, file })
    }

    pub fn blocks(&self) -> usize {
        self.file.len() / calls::BLOCK
    }

    pub fn bytes(&self) -> usize {
        self.file.len()
    }

    /// How many inputs there are to choose from in a clock.
    pub fn choices(&self) -> u32 {
        1 << self.inputs
    }

    /// Its KISS text.
    pub fn kiss(&self) -> Result<Vec<u8>, Refusal> {
        calls::kiss_write(&self.file)
    }

    pub fn outputs_of(&self, state: u32) -> Result<u32, Refusal> {
        calls::outputs(&self.file, state)
    }

    pub fn step(&self, state: u32, input: u32) -> Result<u32, Refusal> {
        calls::step(&self.file, state, input)
    }
}
