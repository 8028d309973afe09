//! Table files to be written as KISS text, and texts to be read, good and damaged.

use super::random::Random;
use crate::file::{self, BLOCK};
use crate::kiss;
use crate::kiss_batch::{Job, Task};
use crate::search::{Row, Table};

/// Enough for every text, and for every file.
const FULL_TEXT: u64 = 557_092;
const FULL_FILE: u64 = 67 * BLOCK as u64;

/// Table files, then blink's text cut and changed everywhere, then other texts; the same seed gives the same ones.
pub fn jobs(seed: u64, tables: usize, texts: usize) -> impl Iterator<Item = Job> {
    let mut random = Random::new(seed);
    let mut others = Random::new(seed ^ 1);
    let files = (0..tables).map(move |number| written(&mut random, number));
    files.chain(blink()).chain((0..texts).map(move |number| read(&mut others, number)))
}

/// A file to write: sound, at or near what its text needs, or damaged.
fn written(random: &mut Random, number: usize) -> Job {
    let table = any_table(random, number);
    let mut bytes = file::write(&table);
    let text = kiss::text(&table).len() as u64;
    let buffer = random.of(&[FULL_TEXT, text, text + 1, text - 1, 0]);
    if random.one_in(5) {
        let at = random.below(bytes.len());
        bytes[at] ^= 1 << random.below(8);
    }
    if random.one_in(40) {
        bytes.truncate(random.below(bytes.len()));
    }
    Job { task: Task::Write, bytes, buffer }
}

/// Every size now and then, no inputs and no outputs too; the first are the largest.
fn any_table(random: &mut Random, number: usize) -> Table {
    match number % 500 {
        0 => table(random, 6, 16, 256),
        1 => table(random, 6, 1, 256),
        2 => table(random, 1, 16, 256),
        _ => {
            let inputs = random.of(&[0, 1, 1, 2, 2, 3, 4, 5, 6]);
            let outputs = random.below(17);
            let states = random.of(&[1, 2, 9, 10, 11, 99, 100, 101]).min(400 >> inputs);
            table(random, inputs, outputs, states)
        }
    }
}

fn table(random: &mut Random, inputs: usize, outputs: usize, states: usize) -> Table {
    let mut row = |_| Row {
        outputs: (random.next() & ((1 << outputs) - 1)) as u16,
        next: (0..1 << inputs).map(|_| random.below(states) as u16).collect(),
    };
    Table { inputs, outputs, rows: (0..states).map(&mut row).collect() }
}

/// Every beginning of blink's text, and every other byte at each of its places.
fn blink() -> impl Iterator<Item = Job> {
    let row = |outputs, next: [u16; 2]| Row { outputs, next: next.to_vec() };
    let text = kiss::text(&Table { inputs: 1, outputs: 1, rows: vec![row(0, [0, 1]), row(1, [1, 0])] }).into_bytes();
    let whole = text.clone();
    let beginnings = (0..=text.len()).map(move |length| whole[..length].to_vec());
    let changed = (0..text.len()).flat_map(move |at| {
        let text = text.clone();
        (0..=255).map(move |byte| {
            let mut text = text.clone();
            text[at] = byte;
            text
        })
    });
    beginnings.chain(changed).map(|bytes| Job { task: Task::Read, bytes, buffer: FULL_FILE })
}

/// A text to read: one in five good, with the buffer at or near what its file needs, the others damaged.
fn read(random: &mut Random, number: usize) -> Job {
    let (inputs, outputs) = (random.between(1, 3), random.between(1, 16));
    let table = match number % 2_000 {
        0 => table(random, 6, 16, 256),
        1 => table(random, 1, 1, 256),
        _ => {
            let states = random.of(&[1, 2, 3, 5, 10, 12]);
            table(random, inputs, outputs, states)
        }
    };
    let text = kiss::text(&table);
    let file = file::write(&table).len() as u64;
    let buffer = random.of(&[FULL_FILE, FULL_FILE, file, file + 1, file - 1, 0]);
    let bytes = if random.one_in(5) { text.into_bytes() } else { damaged(random, &text) };
    Job { task: Task::Read, bytes, buffer }
}

fn damaged(random: &mut Random, text: &str) -> Vec<u8> {
    let mut bytes = text.as_bytes().to_vec();
    let at = random.below(bytes.len());
    match random.below(10) {
        0 => bytes.truncate(at),
        1 => bytes[at] = random.next() as u8,
        2 => {
            bytes.remove(at);
        }
        3 => bytes.insert(at, random.of(b"01239 s.\n\r")),
        4 => bytes = text.replace('\n', "\r\n").into_bytes(),
        5 => bytes.truncate(text.len() - 1),
        6 => bytes.extend_from_slice(random.of(&[&b"\n"[..], b" ", b".e\n", b"\0"])),
        7 => bytes = exchanged(random, text).into_bytes(),
        8 => bytes = counted(random, text).into_bytes(),
        _ => flip_digit(random, &mut bytes),
    }
    bytes
}

/// Two lines have changed their places.
fn exchanged(random: &mut Random, text: &str) -> String {
    let mut lines: Vec<&str> = text.lines().collect();
    let (one, other) = (random.below(lines.len()), random.below(lines.len()));
    lines.swap(one, other);
    lines.join("\n") + "\n"
}

/// One of the sizes is another.
fn counted(random: &mut Random, text: &str) -> String {
    let mut lines: Vec<String> = text.lines().map(String::from).collect();
    let line = random.below(4);
    let size = random.of(&[0, 1, 2, 3, 6, 7, 16, 17, 20, 32, 64, 256, 257, 512, 16_384, 16_385, 99_999]);
    lines[line] = format!("{}{size}", &lines[line][..3]);
    lines.join("\n") + "\n"
}

/// One digit anywhere is another: sizes, bits, states and next states.
fn flip_digit(random: &mut Random, bytes: &mut [u8]) {
    let digits: Vec<usize> = (0..bytes.len()).filter(|&at| bytes[at].is_ascii_digit()).collect();
    bytes[digits[random.below(digits.len())]] = random.of(b"0123456789");
}
