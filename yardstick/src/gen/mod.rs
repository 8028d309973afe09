//! Generated records: good programs of every shape, damaged ones, faulty ones, and each size at its limit and one past it;
//! without procedures or, as a stream of their own, with them.

mod damage;
mod edges;
mod expansions;
mod faults;
pub mod kiss;
mod procedures;
mod program;
mod random;

use crate::batch::Record;
use crate::file::BLOCK;
use crate::{compile, work_needed, Lent, LARGEST_ROOM};
use random::Random;

/// Enough for the largest file.
const FULL_BUFFER: u64 = 67 * BLOCK as u64;

/// Endless records; the same seed gives the same ones.
pub fn records(seed: u64) -> impl Iterator<Item = Record> {
    let mut random = Random::new(seed);
    std::iter::repeat_with(move || record(&mut random))
}

/// Endless records of programs with procedures; the same seed gives the same ones.
pub fn records_with_procedures(seed: u64) -> impl Iterator<Item = Record> {
    let mut random = Random::new(seed);
    std::iter::repeat_with(move || match random.below(20) {
        0..=6 => plain(procedures::good(&mut random)),
        7..=9 => plain(procedures::damaged(&mut random)),
        10..=15 => plain(procedures::faulty(&mut random)),
        _ => plain(expansions::source(&mut random)),
    })
}

fn record(random: &mut Random) -> Record {
    match random.below(20) {
        0..=6 => plain(good(random)),
        7..=9 => tight(random),
        10..=12 => plain(damage::source(random)),
        13..=18 => plain(faults::source(random)),
        _ => plain(edges::source(random)),
    }
}

/// A source with all that it could need.
fn plain(source: Vec<u8>) -> Record {
    Record { source, lent: Lent { room: LARGEST_ROOM, work: work_needed(LARGEST_ROOM), buffer: FULL_BUFFER } }
}

/// A good program with a room, work area and buffer at or near what it needs.
fn tight(random: &mut Random) -> Record {
    let mut record = plain(good(random));
    let Ok(compiled) = compile(&record.source, record.lent) else {
        return record;
    };
    let states = compiled.states() as u64;
    let room = random.of(&[0, 1, states - 1, states, states, states + 1, LARGEST_ROOM, LARGEST_ROOM + 1]);
    let work = work_needed(room) - random.of(&[0, 0, 0, 0, 1, work_needed(room)]) + random.of(&[0, 0, 1000]);
    let file = compiled.file.len() as u64;
    let buffer = file - random.of(&[0, 0, 0, 1, BLOCK as u64, file]) + random.of(&[0, 0, 100]);
    record.lent = Lent { room, work, buffer };
    record
}

fn good(random: &mut Random) -> Vec<u8> {
    let words = program::words(random);
    join(random, &words)
}

/// Writes words with blanks between them, in one of several manners.
fn join(random: &mut Random, words: &[String]) -> Vec<u8> {
    let manner = random.below(3);
    let mut text = String::new();
    for (at, word) in words.iter().enumerate() {
        let free = at == 0 || stands_alone(word) || stands_alone(&words[at - 1]);
        text += match manner {
            0 => " ",
            1 if free => "",
            1 => "\n",
            _ if free && random.one_in(2) => "",
            _ => random.of(&[" ", "\n", "\t", "\r\n", "  "]),
        };
        text += word;
    }
    text += random.of(&["", "\n"]);
    text.into_bytes()
}

/// Words that never grow together with a neighbour.
fn stands_alone(word: &str) -> bool {
    matches!(word, ";" | "," | "(" | ")" | "[" | "]")
}
