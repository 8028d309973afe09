//! Any bytes at all: an answer, the yardstick's refusal, and nothing raw for the terminal.

mod common;

use common::{generated, tool_with, yardstick, Folder, STREAMS};

/// Bytes that look like a terminal's worst, made the same in every run.
fn noise(seed: u64, length: usize) -> Vec<u8> {
    let mut state = seed.wrapping_mul(0x9E37_79B9_7F4A_7C15) | 1;
    let mut next = || {
        state ^= state << 13;
        state ^= state >> 7;
        state ^= state << 17;
        (state >> 32) as u8
    };
    (0..length).map(|_| next()).collect()
}

fn is_harmless(text: &str) -> bool {
    text.bytes().all(|byte| matches!(byte, b' '..=b'~' | b'\n'))
}

fn is_told(source: &[u8]) {
    let said = tool_with(&["check", "-"], source);
    let expected = String::from_utf8(yardstick(&["list"], source)).unwrap();
    if expected.starts_with("refused") {
        assert_eq!(said.status, Some(1));
        assert!(said.err.ends_with(&format!("\n{expected}")), "{}", said.err);
        assert!(said.err.lines().count() <= 8 && is_harmless(&said.err), "{}", said.err);
        assert!(said.err.lines().filter(|line| line.contains(" | ")).all(|line| line.len() < 200), "{}", said.err);
    } else {
        assert_eq!((said.status, said.err.as_str()), (Some(0), ""));
    }
    assert_eq!(said.out, "");
}

#[test]
fn noise_is_told() {
    for seed in 0..60 {
        is_told(&noise(seed, seed as usize * 7));
        let program = [b"program p; output L; ", &noise(seed, 3)[..], b" raise(L) endprog"].concat();
        is_told(&program);
    }
    is_told(&noise(99, 8_192));
}

#[test]
fn every_byte_is_told() {
    for byte in 0..=255 {
        is_told(&[b"program p;\n\tskip ", &[byte][..], b" endprog"].concat());
    }
}

#[test]
fn programs_cut_anywhere_are_told() {
    let source = std::fs::read(common::example("crossing.csml")).unwrap();
    for length in (0..source.len()).step_by(5) {
        is_told(&source[..length]);
    }
}

#[test]
fn damaged_programs_are_told() {
    for source in STREAMS.iter().flat_map(|stream| generated(stream, 2027, 200)) {
        is_told(&source);
    }
}

#[test]
fn long_texts_are_cut() {
    is_told(&[b'x'; 8_192]);
    is_told(&[b"program p; ".to_vec(), b"a-".repeat(4_000)].concat());
    is_told(&[b"program p; skip".to_vec(), vec![b' '; 8_000], b"skip".to_vec()].concat());
    is_told(&[b"program p; ".to_vec(), b"loop ".repeat(1_600)].concat());
    is_told(&[b"program p; skip".to_vec(), b"\n".repeat(8_170)].concat());
    is_told(&[b"program p; w(".to_vec(), b"1,".repeat(4_000), b"1) endprog".to_vec()].concat());
    is_told(
        &[b"program p; procedure w(a".to_vec(), b",a".repeat(4_000), b") skip endproc w() endprog".to_vec()].concat(),
    );
    is_told(
        &[b"program p; procedure w(a) raise(a) endproc w(1".to_vec(), b"+1".repeat(4_000), b") endprog".to_vec()]
            .concat(),
    );
    is_told(&[b"program p; ".to_vec(), b"procedure w() w() endproc ".repeat(300), b"w() endprog".to_vec()].concat());
}

#[test]
fn any_table_file_is_told() {
    let folder = Folder::new();
    for seed in 0..40 {
        let file = folder.file("noise.table", &noise(seed, 512 * (seed as usize % 4)));
        let said = common::tool(&["open", file.to_str().unwrap()]);
        // Nothing is a bad length; noise has a wrong number.
        let number = if seed % 4 == 0 { 21 } else { 22 };
        assert!(said.status == Some(1) && said.err.ends_with(&format!("\nrefused {number} at 0\n")), "{}", said.err);
        assert!(is_harmless(&said.err));
    }
}

#[test]
fn a_long_line_is_one_line() {
    let blink = common::example("blink.csml");
    let said = tool_with(&["run", blink.to_str().unwrap()], &[&vec![b'9'; 100_000][..], b"\nGO\n"].concat());
    assert_eq!((said.status, said.out.lines().count()), (Some(2), 4));
}

#[test]
fn hostile_inputs_of_a_run_are_told() {
    let blink = common::example("blink.csml");
    let lines = [&noise(3, 300)[..], b"\n", &vec![b'9'; 100_000], b"\nGO\n\x1b[31m\n"].concat();
    let said = tool_with(&["run", blink.to_str().unwrap()], &lines);
    assert_eq!(said.status, Some(2));
    assert!(is_harmless(&said.out), "{}", said.out);
    assert!(said.out.contains("\n    1   1     1      1\n") && said.out.contains("\\x1b[31m is no input"));
}
