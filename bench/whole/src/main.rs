//! Whole compiles and single clocks: the proved ones beside the yardstick's, in turns, on this machine, now. Nothing passes or fails by it.

mod clocks;
mod passes;
mod rounds;
mod sources;

use std::hint::black_box;

use yardstick::{work_needed, Lent, LARGEST_ROOM};

const ROOM: u32 = LARGEST_ROOM as u32;
const LARGEST_FILE: usize = 67 * 512;

#[link(name = "compiler", kind = "static")]
extern "C" {
    fn windnadel_compile(
        source: *const u8,
        source_len: usize,
        room: u32,
        work: *mut u8,
        work_len: usize,
        file: *mut u8,
        file_len: usize,
    ) -> u64;
}

/// What is lent to the proved compiler.
struct Areas {
    work: Vec<u8>,
    file: Vec<u8>,
}

fn proved(source: &[u8], areas: &mut Areas) -> u64 {
    let Areas { work, file } = areas;
    // The areas are borrowed for the call and do not overlap.
    unsafe {
        windnadel_compile(
            source.as_ptr(),
            source.len(),
            ROOM,
            work.as_mut_ptr(),
            work.len(),
            file.as_mut_ptr(),
            file.len(),
        )
    }
}

/// The yardstick's answer as the proved compiler would tell it, and its file.
fn plain(source: &[u8]) -> (u64, Vec<u8>) {
    match yardstick::compile(source, Lent::AMPLE) {
        Ok(made) => (made.states() as u64 + 65_536 * made.blocks() as u64, made.file),
        Err(refusal) => ((u64::from(refusal.number) << 32) + refusal.place as u64, Vec::new()),
    }
}

/// What a compile takes in all, and how much of it goes into the words (met once in each pass), the two passes without them, the search and the file.
fn measured(name: &str, source: &[u8], areas: &mut Areas, without: &mut Areas) {
    let (answer, file) = plain(source);
    assert_eq!(proved(source, areas), answer, "{name}");
    assert_eq!(areas.file[..file.len()], file, "{name}");
    let mut whole = || proved(source, areas);
    let mut unwritten = || proved(source, without);
    let mut reading = || clocks::reading(source);
    let mut first = || passes::first(source);
    let mut words = || passes::words(source);
    let mut plain = || black_box(plain(source)).0;
    let [ours, unwritten, reading, first, words, theirs] =
        rounds::in_turns([&mut whole, &mut unwritten, &mut reading, &mut first, &mut words, &mut plain]).map(|seconds| seconds * 1e6);
    let said = if answer >> 32 == 0 { format!("{} states", answer % 65_536) } else { format!("refusal {}", answer >> 32) };
    println!("{name:<22} {ours:9.1} us; yardstick {theirs:9.1} us, ratio {:5.2} ({said})", ours / theirs);
    println!(
        "{:<22} words {:.1}, first pass {:.1}, second pass {:.1}, search {:.1}, file {:.1}",
        "",
        2.0 * words,
        first - words,
        reading - first - words,
        unwritten - reading,
        ours - unwritten
    );
}

fn main() {
    let work = vec![0; work_needed(LARGEST_ROOM) as usize];
    let mut areas = Areas { work: work.clone(), file: vec![0; LARGEST_FILE] };
    let mut without = Areas { work, file: Vec::new() };
    for (name, source) in sources::all() {
        measured(name, &source, &mut areas, &mut without);
    }
    for (name, source) in sources::machines() {
        clocks::measured(name, source);
    }
}
