//! KISS2 text: written from a table file, and read back.

use crate::file;
use crate::refusal::Refusal;
use crate::search::{Row, Table};

/// "A machine with no inputs or no outputs is refusal 15 at 0 when writing"; a text that nobody writes, when reading.
const NO_TEXT: u8 = 15;
/// "A short buffer, either way, is 12 and comes last."
const SHORT: u8 = 12;

/// The text of a table file, for a buffer of so many bytes. "An unsound file is 13", which is now what opening says, "then a
/// machine with no inputs or no outputs is refusal 15 at 0 when writing; a short buffer, either way, is 12 and comes last."
pub fn write(file: &[u8], buffer: u64) -> Result<String, Refusal> {
    let table = file::read(file)?;
    if table.inputs == 0 || table.outputs == 0 {
        return Err(Refusal::at(NO_TEXT, 0));
    }
    let text = text(&table);
    if buffer < text.len() as u64 {
        return Err(Refusal::at(SHORT, 0));
    }
    Ok(text)
}

/// "Lines: `.i`, `.o`, `.p` (rows), `.s`, `.r s0`, the rows by state and then by input, `.e`. A row is inputs, state,
/// next state, the present state's outputs, bits first declared leftmost."
pub fn text(table: &Table) -> String {
    let Table { inputs, outputs, rows } = table;
    let mut text = format!(".i {inputs}\n.o {outputs}\n.p {}\n.s {}\n.r s0\n", rows.len() << inputs, rows.len());
    for (state, row) in rows.iter().enumerate() {
        for (input, next) in row.next.iter().enumerate() {
            let (ins, outs) = (bits(*inputs, input), bits(*outputs, row.outputs.into()));
            text += &format!("{ins} s{state} s{next} {outs}\n");
        }
    }
    text + ".e\n"
}

/// "Bits first declared leftmost."
fn bits(count: usize, value: usize) -> String {
    (0..count).map(|bit| if value >> bit & 1 == 1 { '1' } else { '0' }).collect()
}

/// The table file of a text, for a buffer of so many bytes. "The reader accepts exactly what the writer can write, gives
/// the same file bytes back, and refuses all else with 15."
pub fn read(text: &[u8], buffer: u64) -> Result<Vec<u8>, Refusal> {
    let file = file::write(&table(&mut Pieces { text, at: 0 })?);
    if buffer < file.len() as u64 {
        return Err(Refusal::at(SHORT, 0));
    }
    Ok(file)
}

fn table(pieces: &mut Pieces) -> Result<Table, Refusal> {
    let inputs = 1 + pieces.one_of((1..=6).map(|inputs| format!(".i {inputs}\n")))?;
    let outputs = 1 + pieces.one_of((1..=16).map(|outputs| format!(".o {outputs}\n")))?;
    let states = 1 + pieces.one_of((1..=256).map(|states| format!(".p {}\n", states << inputs)))?;
    pieces.this(format!(".s {states}\n.r s0\n"))?;
    let mut rows = Vec::new();
    for state in 0..states {
        rows.push(row(pieces, inputs, outputs, states, state)?);
    }
    pieces.this(".e\n".to_string())?;
    pieces.end()?;
    Ok(Table { inputs, outputs, rows })
}

/// The lines of a state: the first tells its outputs, and the others have the same.
fn row(pieces: &mut Pieces, inputs: usize, outputs: usize, states: usize, state: usize) -> Result<Row, Refusal> {
    let mut row = Row { outputs: 0, next: Vec::new() };
    for input in 0..1 << inputs {
        pieces.this(format!("{} s{state} s", bits(inputs, input)))?;
        row.next.push(pieces.one_of((0..states).map(|next| format!("{next} ")))? as u16);
        for bit in 0..outputs {
            let both = [0, 1u16];
            let free: Vec<u16> =
                both.into_iter().filter(|&value| input == 0 || value == row.outputs >> bit & 1).collect();
            row.outputs |= free[pieces.one_of(free.iter().map(u16::to_string))?] << bit;
        }
        pieces.this("\n".to_string())?;
    }
    Ok(row)
}

/// A text that is read piece by piece: each is one of some words, none of which begins another, and whichever it is,
/// some written text goes on behind it.
struct Pieces<'a> {
    text: &'a [u8],
    at: usize,
}

impl Pieces<'_> {
    /// Which of the words comes next; else 15 at "the first byte that no written text continues with (the length, if the
    /// text stops early)": behind the longest part that the rest has in common with one of them.
    fn one_of(&mut self, words: impl Iterator<Item = String>) -> Result<usize, Refusal> {
        let rest = &self.text[self.at..];
        let mut most = 0;
        for (number, word) in words.enumerate() {
            let common = rest.iter().zip(word.bytes()).take_while(|&(&byte, other)| byte == other).count();
            if common == word.len() {
                self.at += common;
                return Ok(number);
            }
            most = most.max(common);
        }
        Err(Refusal::at(NO_TEXT, self.at + most))
    }

    fn this(&mut self, word: String) -> Result<(), Refusal> {
        self.one_of(std::iter::once(word)).map(|_| ())
    }

    /// Nothing may follow.
    fn end(&self) -> Result<(), Refusal> {
        if self.at < self.text.len() {
            return Err(Refusal::at(NO_TEXT, self.at));
        }
        Ok(())
    }
}
