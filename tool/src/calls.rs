//! The proved calls, as include/windnadel.h declares them, behind slices. No other module has `unsafe`.
#![allow(unsafe_code)]

use crate::refusal::Refusal;

extern "C" {
    fn windnadel_compile(
        source: *const u8,
        source_len: usize,
        room: u32,
        work: *mut u8,
        work_len: usize,
        file: *mut u8,
        file_len: usize,
    ) -> u64;
    fn windnadel_open(file: *const u8, len: usize) -> u64;
    fn windnadel_step(file: *const u8, len: usize, state: u32, input: u32) -> u32;
    fn windnadel_outputs(file: *const u8, len: usize, state: u32) -> u32;
    fn windnadel_kiss_write(file: *const u8, len: usize, text: *mut u8, text_len: usize) -> u64;
    fn windnadel_kiss_read(text: *const u8, text_len: usize, file: *mut u8, file_len: usize) -> u64;
}

/// Bytes in a block, in the largest file, in the longest source, and enough for every KISS text.
pub const BLOCK: usize = 512;
pub const LARGEST_FILE: usize = 67 * BLOCK;
pub const LONGEST_SOURCE: usize = 8_192;
pub const LONGEST_TEXT: usize = 557_092;

pub const LARGEST_ROOM: u32 = 256;
const LARGEST_WORK: usize = 32_768 + 64 * LARGEST_ROOM as usize;

/// Answers of step and outputs from here on are refusals.
const REFUSED: u32 = 65_536;

/// A source that was compiled.
pub struct Compiled {
    pub file: Vec<u8>,
    pub states: u32,
}

/// The table file of a source, with all lent that any room can ask for.
pub fn compile(source: &[u8], room: u32) -> Result<Compiled, Refusal> {
    let mut work = vec![0; LARGEST_WORK];
    let mut file = vec![0; LARGEST_FILE];
    // SAFETY: three slices that do not overlap, each with its own length; the call stays inside them.
    let answer = unsafe {
        windnadel_compile(
            source.as_ptr(),
            source.len(),
            room,
            work.as_mut_ptr(),
            work.len(),
            file.as_mut_ptr(),
            file.len(),
        )
    };
    let sizes = value_or_refusal(answer)?;
    file.truncate((sizes / 65_536) as usize * BLOCK);
    Ok(Compiled { file, states: sizes % 65_536 })
}

/// The outputs of state 0 of a sound table file.
pub fn open(file: &[u8]) -> Result<u32, Refusal> {
    // SAFETY: a slice with its own length, which the call only reads.
    value_or_refusal(unsafe { windnadel_open(file.as_ptr(), file.len()) })
}

/// The next state.
pub fn step(file: &[u8], state: u32, input: u32) -> Result<u32, Refusal> {
    // SAFETY: as for open.
    plain_or_refusal(unsafe { windnadel_step(file.as_ptr(), file.len(), state, input) })
}

/// The outputs of a state.
pub fn outputs(file: &[u8], state: u32) -> Result<u32, Refusal> {
    // SAFETY: as for open.
    plain_or_refusal(unsafe { windnadel_outputs(file.as_ptr(), file.len(), state) })
}

/// The KISS text of a table file, with all lent that any text can ask for.
pub fn kiss_write(file: &[u8]) -> Result<Vec<u8>, Refusal> {
    let mut text = vec![0; LONGEST_TEXT];
    // SAFETY: two slices that do not overlap, each with its own length; the call stays inside them.
    let answer = unsafe { windnadel_kiss_write(file.as_ptr(), file.len(), text.as_mut_ptr(), text.len()) };
    text.truncate(value_or_refusal(answer)? as usize);
    Ok(text)
}

/// The table file of a KISS text.
pub fn kiss_read(text: &[u8]) -> Result<Vec<u8>, Refusal> {
    let mut file = vec![0; LARGEST_FILE];
    // SAFETY: as for kiss_write.
    let answer = unsafe { windnadel_kiss_read(text.as_ptr(), text.len(), file.as_mut_ptr(), file.len()) };
    file.truncate(value_or_refusal(answer)? as usize * BLOCK);
    Ok(file)
}

/// A value below 2^32, or refusal * 2^32 + place.
fn value_or_refusal(answer: u64) -> Result<u32, Refusal> {
    let (number, low) = ((answer >> 32) as u32, answer as u32);
    if number == 0 {
        Ok(low)
    } else {
        Err(Refusal { number, place: low as usize })
    }
}

/// A value below 65,536, or 65,536 + refusal; the place is then 0.
fn plain_or_refusal(answer: u32) -> Result<u32, Refusal> {
    if answer < REFUSED {
        Ok(answer)
    } else {
        Err(Refusal { number: answer - REFUSED, place: 0 })
    }
}
