//! An ordinary compiler for the base language with procedures: text to table file, as the required build's document has it.
//!
//! Nothing here is proved. It is a second opinion, written for readers and for comparison: each rule stands beside the
//! sentence it follows, in quotation marks.

pub mod batch;
pub mod check;
pub mod clock;
pub mod crc;
pub mod expand;
pub mod file;
pub mod gen;
pub mod kiss;
pub mod kiss_batch;
pub mod listing;
pub mod parse;
pub mod refusal;
pub mod search;
pub mod state;
pub mod tree;
pub mod value;
pub mod words;
pub mod written;

use refusal::Refusal;
use search::Table;
use tree::Program;

/// "Source 8,192 bytes."
pub const LONGEST_SOURCE: usize = 8_192;
/// "Room 1 to 256."
pub const LARGEST_ROOM: u64 = 256;

/// What a caller lends to a compile.
#[derive(Clone, Copy, PartialEq, Eq, Debug)]
pub struct Lent {
    /// How many states the table may have.
    pub room: u64,
    /// The length of the work area. This compiler does not use it, but says no as one that does.
    pub work: u64,
    /// The length of the file buffer.
    pub buffer: u64,
}

impl Lent {
    /// Enough for every program that fits anywhere.
    pub const AMPLE: Lent = Lent { room: LARGEST_ROOM, work: work_needed(LARGEST_ROOM), buffer: u64::MAX };
}

/// "Work area 32,768 + 64 × room bytes."
pub const fn work_needed(room: u64) -> u64 {
    32_768 + 64 * room
}

/// A program that was compiled.
#[derive(Debug)]
pub struct Compiled {
    /// Its tree, all calls expanded.
    pub program: Program,
    /// Its table.
    pub table: Table,
    /// Its table file.
    pub file: Vec<u8>,
}

impl Compiled {
    /// "Success gives the state count and block count."
    pub fn states(&self) -> usize {
        self.table.rows.len()
    }

    /// The blocks of the file.
    pub fn blocks(&self) -> usize {
        self.file.len() / file::BLOCK
    }
}

/// Compiles `source`, or refuses it: "the lowest number wins, then the earliest place".
pub fn compile(source: &[u8], lent: Lent) -> Result<Compiled, Refusal> {
    if !(1..=LARGEST_ROOM).contains(&lent.room) {
        return Err(Refusal::at(1, 0));
    }
    if lent.work < work_needed(lent.room) {
        return Err(Refusal::at(2, 0));
    }
    if source.len() > LONGEST_SOURCE {
        return Err(Refusal::at(3, 0));
    }
    let words = words::words(source)?;
    let written = parse::parse(source, &words)?;
    check::check(&written)?;
    let program = expand::expand(written);
    let table = search::search(&program, lent.room as usize)?;
    let file = file::write(&table);
    if lent.buffer < file.len() as u64 {
        return Err(Refusal::at(12, 0));
    }
    Ok(Compiled { program, table, file })
}
