//! The table file: written from a table, opened, and stepped through.

use crate::crc::crc32;
use crate::refusal::Refusal;
use crate::search::{Row, Table};

/// "A block has 512 bytes."
pub const BLOCK: usize = 512;
/// "The stream is cut in 504-byte pieces."
const PIECE: usize = 504;
/// "The largest file is 67 blocks."
const LARGEST_FILE: usize = 67;
/// The stream's first numbers: inputs, outputs, states.
const HEADER: usize = 4;
/// "A bad length (21: zero, not whole blocks or too many)."
const BAD_LENGTH: Refusal = Refusal { number: 21, place: 0 };
/// "Bad content (24: all else)."
const BAD_CONTENT: Refusal = Refusal { number: 24, place: 0 };

/// The file of a table: "number from 0 (2), blocks in the file (2), piece, CRC-32 of the first 508".
pub fn write(table: &Table) -> Vec<u8> {
    let stream = stream(table);
    let blocks = stream.len().div_ceil(PIECE);
    let mut file = Vec::with_capacity(blocks * BLOCK);
    for (number, piece) in stream.chunks(PIECE).enumerate() {
        let start = file.len();
        push(&mut file, number as u16);
        push(&mut file, blocks as u16);
        file.extend_from_slice(piece);
        // "The last filled with zeros."
        file.resize(start + BLOCK - 4, 0);
        let check = crc32(&file[start..]);
        file.extend_from_slice(&check.to_le_bytes());
    }
    file
}

/// "Stream: inputs k (1 byte), outputs (1), states N (2), then per state outputs (2; first declared lowest) and 2^k next
/// states (2 each)."
pub fn stream(table: &Table) -> Vec<u8> {
    let mut stream = vec![table.inputs as u8, table.outputs as u8];
    push(&mut stream, table.rows.len() as u16);
    for row in &table.rows {
        push(&mut stream, row.outputs);
        for &next in &row.next {
            push(&mut stream, next);
        }
    }
    stream
}

/// "All numbers go low byte first."
fn push(bytes: &mut Vec<u8>, number: u16) {
    bytes.extend_from_slice(&number.to_le_bytes());
}

/// "One small record changed in place: state number and present outputs."
#[derive(Clone, Copy, PartialEq, Eq, Debug)]
pub struct Controller {
    /// The state's number.
    pub state: u32,
    /// Its outputs.
    pub outputs: u16,
}

/// Opens a file: "opening a sound file sets it to state 0 and that state's outputs", and refusals 21 to 24 say why it is
/// not sound.
pub fn open(file: &[u8]) -> Result<Controller, Refusal> {
    if !length_is_good(file.len()) {
        return Err(BAD_LENGTH);
    }
    for (number, block) in file.chunks(BLOCK).enumerate() {
        if let Some(fault) = block_fault(block, number, file.len() / BLOCK) {
            return Err(Refusal::at(fault, number));
        }
    }
    let shape = Shape::of(file)?;
    if !shape.content_is_sound(file) {
        return Err(BAD_CONTENT);
    }
    Ok(Controller { state: 0, outputs: number_at(file, shape.outputs_at(0)) })
}

/// The table that a sound file holds.
pub fn read(file: &[u8]) -> Result<Table, Refusal> {
    open(file)?;
    let shape = Shape::of(file).expect("a sound file has its sizes");
    let row = |state: usize| Row {
        outputs: number_at(file, shape.outputs_at(state)),
        next: (0..1 << shape.inputs).map(|input| number_at(file, shape.next_at(state, input))).collect(),
    };
    Ok(Table { inputs: shape.inputs, outputs: shape.outputs, rows: (0..shape.states).map(row).collect() })
}

fn length_is_good(length: usize) -> bool {
    length != 0 && length.is_multiple_of(BLOCK) && length / BLOCK <= LARGEST_FILE
}

/// "A bad number or total (22), a bad check (23) .., in that order within a block."
fn block_fault(block: &[u8], number: usize, blocks: usize) -> Option<u8> {
    let here = |at: usize| usize::from(u16::from_le_bytes([block[at], block[at + 1]]));
    if here(0) != number || here(2) != blocks {
        return Some(22);
    }
    (crc32(&block[..BLOCK - 4]).to_le_bytes() != block[BLOCK - 4..]).then_some(23)
}

impl Controller {
    /// One clock. "For a refusal the record stays."
    pub fn step(&mut self, file: &[u8], input: u32) -> Result<(), Refusal> {
        let next = step(file, self.state, input)?;
        *self = next;
        Ok(())
    }
}

/// The next state and its outputs, refused "in this order and at place 0": "21 first", the file's shape (24), "state or
/// input not in the table (14)", "the next state read not below N, or its spare output bits not zero" (24).
pub fn step(file: &[u8], state: u32, input: u32) -> Result<Controller, Refusal> {
    if !length_is_good(file.len()) {
        return Err(BAD_LENGTH);
    }
    let shape = Shape::of(file)?;
    if state as usize >= shape.states || input as usize >= 1 << shape.inputs {
        return Err(Refusal::at(14, 0));
    }
    let next = number_at(file, shape.next_at(state as usize, input as usize));
    if usize::from(next) >= shape.states {
        return Err(BAD_CONTENT);
    }
    let outputs = number_at(file, shape.outputs_at(usize::from(next)));
    if shape.has_spare_bits(outputs) {
        return Err(BAD_CONTENT);
    }
    Ok(Controller { state: u32::from(next), outputs })
}

/// The numbers at the head of the stream.
struct Shape {
    inputs: usize,
    outputs: usize,
    states: usize,
}

impl Shape {
    /// "K, outputs or N outside the sizes (N as the room), or a length other than the one they call for" is bad content.
    fn of(file: &[u8]) -> Result<Shape, Refusal> {
        let shape = Shape {
            inputs: usize::from(byte_at(file, 0)),
            outputs: usize::from(byte_at(file, 1)),
            states: usize::from(number_at(file, 2)),
        };
        let inside = shape.inputs <= 6 && shape.outputs <= 16 && (1..=256).contains(&shape.states);
        if inside && shape.file_length() == file.len() {
            Ok(shape)
        } else {
            Err(BAD_CONTENT)
        }
    }

    fn row_length(&self) -> usize {
        2 + 2 * (1 << self.inputs)
    }

    fn stream_length(&self) -> usize {
        HEADER + self.states * self.row_length()
    }

    fn file_length(&self) -> usize {
        self.stream_length().div_ceil(PIECE) * BLOCK
    }

    fn outputs_at(&self, state: usize) -> usize {
        HEADER + state * self.row_length()
    }

    fn next_at(&self, state: usize, input: usize) -> usize {
        self.outputs_at(state) + 2 + 2 * input
    }

    fn has_spare_bits(&self, outputs: u16) -> bool {
        u32::from(outputs) >> self.outputs != 0
    }

    /// No "spare output bits or filling not zero, a next state not below N".
    fn content_is_sound(&self, file: &[u8]) -> bool {
        let row_is_sound = |state: usize| {
            let nexts = (0..1 << self.inputs).map(|input| number_at(file, self.next_at(state, input)));
            let below = nexts.into_iter().all(|next| usize::from(next) < self.states);
            below && !self.has_spare_bits(number_at(file, self.outputs_at(state)))
        };
        let filling = self.stream_length()..file.len() / BLOCK * PIECE;
        (0..self.states).all(row_is_sound) && filling.into_iter().all(|at| byte_at(file, at) == 0)
    }
}

/// Byte `at` of the stream, found in the pieces of the file's blocks.
fn byte_at(file: &[u8], at: usize) -> u8 {
    file[at / PIECE * BLOCK + HEADER + at % PIECE]
}

fn number_at(file: &[u8], at: usize) -> u16 {
    u16::from_le_bytes([byte_at(file, at), byte_at(file, at + 1)])
}
