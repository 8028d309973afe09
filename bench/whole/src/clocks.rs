//! Single clocks: one sequence of inputs through the proved clock and through the yardstick's, each over its own tree.

use yardstick::state::State;
use yardstick::tree::{Class, Program};
use yardstick::{clock, expand, parse, words};

use crate::rounds;

const CLOCKS: usize = 2_000;

#[link(name = "clock_c", kind = "static")]
extern "C" {
    fn windnadel_clocks(text: *const u8, text_len: usize, inputs: *const u8, inputs_len: usize) -> u64;
}

fn proved(source: &[u8], inputs: &[u8]) -> u64 {
    // Both are borrowed for the call.
    unsafe { windnadel_clocks(source.as_ptr(), source.len(), inputs.as_ptr(), inputs.len()) }
}

/// Reads the source and runs no clock.
pub fn reading(source: &[u8]) -> u64 {
    proved(source, &[])
}

fn plain(program: &Program, inputs: &[u8]) -> u64 {
    let start = State::start(program);
    u64::from(inputs.iter().fold(start, |state, &input| clock::next(program, &state, u32::from(input))).word)
}

/// Inputs of so many bits, always the same ones.
fn inputs(bits: usize) -> Vec<u8> {
    let mut seed = 2_026u64;
    let mut draw = || {
        seed = seed.wrapping_mul(6_364_136_223_846_793_005).wrapping_add(1_442_695_040_888_963_407);
        (seed >> (64 - bits)) as u8
    };
    (0..CLOCKS).map(|_| draw()).collect()
}

pub fn measured(name: &str, source: &[u8]) {
    let written = words::words(source).and_then(|words| parse::parse(source, &words)).expect("an example is a program");
    let program = expand::expand(written);
    let inputs = inputs(program.declarations.iter().filter(|declaration| declaration.class == Class::Input).count());
    assert_eq!(proved(source, &inputs), plain(&program, &inputs), "{name}");
    // The proved call reads its source first: what that takes is taken off.
    let mut all = || proved(source, &inputs);
    let mut reading = || reading(source);
    let mut plain = || plain(&program, &inputs);
    let [all, reading, theirs] = rounds::in_turns([&mut all, &mut reading, &mut plain]);
    let [ours, theirs] = [all - reading, theirs].map(|seconds| seconds * 1e9 / CLOCKS as f64);
    println!("{name:<22} {ours:9.1} ns a clock; yardstick {theirs:9.1} ns, ratio {:5.2}", ours / theirs);
}
