//! The program itself: its commands as a user runs them.

use std::io::Write;
use std::process::{Command, Output, Stdio};

use yardstick::file::open;

const BLINK: &str = "program blink; input GO; output LAMP; loop if GO then invert(LAMP) endif endloop endprog";

fn run(arguments: &[&str], input: &[u8]) -> Output {
    let mut child = Command::new(env!("CARGO_BIN_EXE_yardstick"))
        .args(arguments)
        .stdin(Stdio::piped())
        .stdout(Stdio::piped())
        .stderr(Stdio::piped())
        .spawn()
        .unwrap();
    child.stdin.take().unwrap().write_all(input).unwrap();
    child.wait_with_output().unwrap()
}

fn text(arguments: &[&str], input: &[u8]) -> String {
    String::from_utf8(run(arguments, input).stdout).unwrap()
}

#[test]
fn list() {
    let listing = "machine blink\ninputs GO\noutputs LAMP\nstates 2\n0 0 0 1\n1 1 1 0\n";
    assert_eq!(text(&["list"], BLINK.as_bytes()), listing);
    assert_eq!(text(&["list"], b"program p; skip"), "refused 5 at 15\n");
}

#[test]
fn file() {
    let file = run(&["file"], BLINK.as_bytes()).stdout;
    assert_eq!(file.len(), 512);
    assert!(open(&file).is_ok());
    let refused = run(&["file"], b"");
    assert_eq!((refused.status.code(), refused.stdout.len()), (Some(1), 0));
    assert_eq!(refused.stderr, b"refused 5 at 0\n");
}

#[test]
fn batch() {
    let records = format!("{} 2 32896 512\n{BLINK}\n{} 2 32896 511\n{BLINK}\n0 1 0 0\n\n", BLINK.len(), BLINK.len());
    let answers = text(&["batch"], records.as_bytes());
    let answers: Vec<&str> = answers.lines().collect();
    assert_eq!(answers.len(), 3);
    assert!(answers[0].starts_with("ok 2 1 ") && answers[0].len() == 23, "{}", answers[0]);
    assert_eq!(answers[1..], ["refused 12 at 0", "refused 2 at 0"]);
    assert_eq!(run(&["batch"], b"1 2 3\n").status.code(), Some(2));
}

#[test]
fn generated_records_are_the_same_for_the_same_seed() {
    let records = run(&["gen", "7", "50"], b"").stdout;
    assert_eq!(records, run(&["gen", "7", "50"], b"").stdout);
    assert_ne!(records, run(&["gen", "8", "50"], b"").stdout);
    assert_eq!(text(&["batch"], &records).lines().count(), 50);
    let with_procedures = run(&["gen-procedures", "7", "50"], b"").stdout;
    assert_eq!(with_procedures, run(&["gen-procedures", "7", "50"], b"").stdout);
    assert_eq!(text(&["batch"], &with_procedures).lines().count(), 50);
}

#[test]
fn anything_else_is_told_how() {
    for arguments in [&[][..], &["list", "x"], &["gen", "1"], &["gen", "a", "1"], &["gen-procedures", "1", "a"]] {
        let output = run(arguments, b"");
        assert_eq!(output.status.code(), Some(2));
        assert!(output.stderr.starts_with(b"usage: "));
    }
}
