//! The table file and what is lent: refusals 1, 2 and 11 to 14.

mod common;

use common::compiled;
use yardstick::crc::crc32;
use yardstick::file::{open, step, Controller, BLOCK};
use yardstick::refusal::Refusal;
use yardstick::{compile, work_needed, Lent};

/// Two inputs, one output, 256 states: 256 rows of 10 bytes, so six blocks.
const LONG: &str = "program p; input A, B; output L; delay 254; raise(L) endprog";

fn long_file() -> Vec<u8> {
    compiled(LONG).unwrap().file
}

fn refusal<T>(number: u8, place: usize) -> Result<T, Refusal> {
    Err(Refusal::at(number, place))
}

/// Makes the checks of all blocks right again.
fn sealed(mut file: Vec<u8>) -> Vec<u8> {
    for block in file.chunks_mut(BLOCK) {
        let check = crc32(&block[..BLOCK - 4]);
        block[BLOCK - 4..].copy_from_slice(&check.to_le_bytes());
    }
    file
}

/// The file with byte `at` of the stream changed to `byte` and all checks right.
fn changed(file: &[u8], at: usize, byte: u8) -> Vec<u8> {
    let mut file = file.to_vec();
    file[at / 504 * BLOCK + 4 + at % 504] = byte;
    sealed(file)
}

#[test]
fn blocks() {
    let file = long_file();
    assert_eq!(file.len(), 6 * BLOCK);
    for (number, block) in file.chunks(BLOCK).enumerate() {
        assert_eq!(block[..4], [number as u8, 0, 6, 0]);
        assert_eq!(block[508..], crc32(&block[..508]).to_le_bytes());
    }
    assert_eq!(file[4..8], [2, 1, 0, 1]);
    // The stream has 2,564 bytes: 44 in the last piece, then filling.
    assert!(file[5 * BLOCK + 4 + 44..6 * BLOCK - 4].iter().all(|&byte| byte == 0));
}

#[test]
fn the_largest_file() {
    let source = "program p; input A, B, C, D, E, F; delay 255 endprog";
    let largest = compiled(source).unwrap();
    assert_eq!((largest.states(), largest.blocks()), (256, 67));
    assert!(open(&largest.file).is_ok());
}

#[test]
fn what_is_lent() {
    let answer = |room: u64, work: u64, buffer: u64| {
        compile(LONG.as_bytes(), Lent { room, work, buffer }).map(|compiled| (compiled.states(), compiled.blocks()))
    };
    let (work, buffer) = (work_needed(256), 6 * BLOCK as u64);
    assert_eq!(work, 49_152);
    assert_eq!(answer(256, work, buffer), Ok((256, 6)));
    assert_eq!(answer(256, work, buffer - 1), refusal(12, 0));
    assert_eq!(answer(256, work - 1, 0), refusal(2, 0));
    assert_eq!(answer(255, work_needed(255), 0), refusal(11, 0));
    assert_eq!(answer(255, work_needed(255) - 1, buffer), refusal(2, 0));
    assert_eq!(answer(0, 0, 0), refusal(1, 0));
    assert_eq!(answer(257, 0, 0), refusal(1, 0));
    assert_eq!(answer(u64::MAX, 0, 0), refusal(1, 0));
    // Faults of the text come before 11 and 12, those of what is lent before 3.
    assert_eq!(compile(b"$", Lent { room: 1, work: work_needed(1), buffer: 0 }).err(), Some(Refusal::at(4, 0)));
    assert_eq!(compile(&[b'$'; 9_000], Lent { room: 1, work: 0, buffer: 0 }).err(), Some(Refusal::at(2, 0)));
}

#[test]
fn opening_refuses() {
    let file = long_file();
    assert_eq!(open(&file), Ok(Controller { state: 0, outputs: 0 }));
    assert_eq!(open(&[]), refusal(21, 0));
    assert_eq!(open(&file[..file.len() - 1]), refusal(21, 0));
    assert_eq!(open(&vec![0; 68 * BLOCK]), refusal(21, 0));
    for (block, at) in [(0, 0), (2, 0), (3, 2), (4, 100), (5, 511)] {
        let mut damaged = file.clone();
        damaged[block * BLOCK + at] ^= 1;
        assert_eq!(open(&damaged), refusal(if at < 4 { 22 } else { 23 }, block));
        if at < 4 {
            assert_eq!(open(&sealed(damaged)), refusal(22, block));
        }
    }
    // Within a block the number comes first; a later block's number never comes before an earlier block's check.
    let mut both = file.clone();
    both[2 * BLOCK + 511] ^= 1;
    both[4 * BLOCK] ^= 1;
    assert_eq!(open(&both), refusal(23, 2));
    both[2 * BLOCK + 2] ^= 1;
    assert_eq!(open(&both), refusal(22, 2));
    // A block's place is its position: cut short, every block has a wrong total, so the first is named.
    assert_eq!(open(&file[..BLOCK]), refusal(22, 0));
    // Blocks two and three exchanged.
    let swapped =
        [&file[..2 * BLOCK], &file[3 * BLOCK..4 * BLOCK], &file[2 * BLOCK..3 * BLOCK], &file[4 * BLOCK..]].concat();
    assert_eq!(open(&swapped), refusal(22, 2));
    for (at, byte) in
        [(0, 7), (0, 3), (1, 17), (2, 1), (3, 0), (3, 2), (4, 2), (5, 1), (7, 1), (2_563, 2), (2_564, 1), (3_023, 1)]
    {
        assert_eq!(open(&changed(&file, at, byte)), refusal(24, 0), "{at} {byte}");
    }
    assert_eq!(open(&changed(&file, 4, 1)), Ok(Controller { state: 0, outputs: 1 }));
}

#[test]
fn stepping_refuses() {
    let file = long_file();
    assert_eq!(step(&file, 0, 3), Ok(Controller { state: 1, outputs: 0 }));
    assert_eq!(step(&file, 254, 0), Ok(Controller { state: 255, outputs: 1 }));
    assert_eq!(step(&file, 255, 0), Ok(Controller { state: 255, outputs: 1 }));
    assert_eq!(step(&file, 256, 0), refusal(14, 0));
    assert_eq!(step(&file, 0, 4), refusal(14, 0));
    assert_eq!(step(&file, u32::MAX, u32::MAX), refusal(14, 0));
    assert_eq!(step(&[], 999, 999), refusal(21, 0));
    assert_eq!(step(&file[..511], 0, 0), refusal(21, 0));
    assert_eq!(step(&file[..file.len() - 1], 999, 999), refusal(21, 0));
    assert_eq!(step(&vec![0; 68 * BLOCK], 0, 0), refusal(21, 0));
    assert_eq!(step(&file[..5 * BLOCK], 0, 0), refusal(24, 0));
    for (at, byte) in [(0, 7), (0, 3), (1, 17), (3, 0), (3, 2)] {
        assert_eq!(step(&changed(&file, at, byte), 999, 999), refusal(24, 0), "{at}");
    }
    // The next state read, then its spare output bits; and no check is made again.
    assert_eq!(step(&changed(&file, 7, 1), 0, 0), refusal(24, 0));
    assert_eq!(step(&changed(&file, 15, 1), 0, 0), refusal(24, 0));
    let mut unsealed = file.clone();
    unsealed[511] ^= 1;
    assert!(step(&unsealed, 0, 0).is_ok());
}
