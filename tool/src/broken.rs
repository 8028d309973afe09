//! What is broken in a table file that the proved call refused. It explains the refusal, and decides nothing.

use crate::calls::{BLOCK, LARGEST_FILE};
use crate::refusal::Refusal;

const PIECE: usize = 504;
const HEAD: usize = 4;

/// In words: what is wrong with the file that was refused so, and in which block.
pub fn found(file: &[u8], refusal: Refusal) -> String {
    let place = refusal.place;
    let block = || format!("block {place} (bytes {} to {})", place * BLOCK, (place + 1) * BLOCK - 1);
    match refusal.number {
        21 => of_length(file.len()),
        22 => format!("{} {}", block(), of_number(&file[place * BLOCK..], place, file.len() / BLOCK)),
        23 => format!("{} {}", block(), of_check(&file[place * BLOCK..(place + 1) * BLOCK])),
        _ => in_table(file),
    }
}

fn of_length(length: usize) -> String {
    if length == 0 {
        "the file is empty".to_string()
    } else if length > LARGEST_FILE {
        format!("the file has more than {LARGEST_FILE} bytes")
    } else {
        format!("{length} bytes are no whole number of blocks of {BLOCK}")
    }
}

fn of_number(block: &[u8], place: usize, blocks: usize) -> String {
    let (number, total) = (number(block, 0), number(block, 2));
    if number != place {
        format!("says that it is number {number}")
    } else {
        format!("says that there are {total} blocks, and there are {blocks}")
    }
}

fn of_check(block: &[u8]) -> String {
    let (bytes, end) = block.split_at(BLOCK - 4);
    let said = u32::from_le_bytes([end[0], end[1], end[2], end[3]]);
    format!("has changed: its check is {said:08X}, and its bytes give {:08X}", check(bytes))
}

/// All blocks are good, so the table in them is at fault.
fn in_table(file: &[u8]) -> String {
    let stream: Vec<u8> = file.chunks(BLOCK).flat_map(|block| &block[HEAD..HEAD + PIECE]).copied().collect();
    let (inputs, outputs, states) = (usize::from(stream[0]), usize::from(stream[1]), number(&stream, 2));
    if inputs > 6 || outputs > 16 || !(1..=256).contains(&states) {
        return format!(
            "{inputs} inputs, {outputs} outputs and {states} states: at most 6, 16 and 256, one state at least"
        );
    }
    let row = 2 + 2 * (1 << inputs);
    let end = HEAD + states * row;
    let (called_for, blocks) = (end.div_ceil(PIECE), file.len() / BLOCK);
    if called_for != blocks {
        return format!("{states} states with {inputs} inputs take {called_for} blocks, and there are {blocks}");
    }
    for state in 0..states {
        let at = HEAD + state * row;
        if number(&stream, at) >> outputs != 0 {
            return format!("state {state} has an output past the {outputs} that there are");
        }
        if let Some(input) = (0..1 << inputs).find(|input| number(&stream, at + 2 + 2 * input) >= states) {
            let next = number(&stream, at + 2 + 2 * input);
            return format!("state {state} goes to {next} for input {input}, and there are {states} states");
        }
    }
    "a byte after the table's end is not zero".to_string()
}

/// "All numbers go low byte first."
fn number(bytes: &[u8], at: usize) -> usize {
    usize::from(u16::from_le_bytes([bytes[at], bytes[at + 1]]))
}

/// CRC-32, the usual reflected one.
fn check(bytes: &[u8]) -> u32 {
    !bytes.iter().fold(!0u32, |check, &byte| {
        (0..8).fold(check ^ u32::from(byte), |check, _| check >> 1 ^ (0xEDB8_8320 * (check & 1)))
    })
}

#[cfg(test)]
mod tests {
    #[test]
    fn the_check_is_the_usual_one() {
        assert_eq!(super::check(b"123456789"), 0xCBF4_3926);
    }
}
