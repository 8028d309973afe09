//! Bad usage: status 2, a line that says why, and nothing on standard output. And `--help`: status 0.

mod common;

use common::{example, os, tool, tool_with, Folder};

const COMMANDS: [&str; 10] = ["compile", "check", "list", "run", "vcd", "draw", "open", "kiss", "unkiss", "explain"];

fn is_bad_usage(arguments: &[&str], words: &str) {
    let said = tool(arguments);
    assert_eq!((said.status, said.out.as_str()), (Some(2), ""), "{arguments:?}");
    assert!(said.err.starts_with("windnadel: ") && said.err.contains(words), "{arguments:?}: {}", said.err);
}

#[test]
fn every_command_has_help() {
    for command in COMMANDS {
        for arguments in [&[command, "--help"][..], &[command, "-h"], &[command, "file", "--help"]] {
            let said = tool(arguments);
            assert_eq!((said.status, said.err.as_str()), (Some(0), ""));
            assert!(said.out.starts_with(&format!("usage: windnadel {command} ")));
        }
    }
    for argument in ["--help", "-h", "help"] {
        let said = tool(&[argument]);
        assert_eq!(said.status, Some(0));
        assert!(COMMANDS.iter().all(|command| said.out.contains(&format!("\n  {command} "))));
    }
    assert_eq!(tool(&["--version"]).out, format!("windnadel {}\n", env!("CARGO_PKG_VERSION")));
}

#[test]
fn what_makes_no_command_is_told() {
    is_bad_usage(&[], "a command is wanted");
    is_bad_usage(&["nosuch"], "there is no command nosuch");
    for command in COMMANDS {
        is_bad_usage(&[command], "wanted");
        is_bad_usage(&[command, "--nosuch", "x"], "there is no option --nosuch");
    }
    for command in ["compile", "check", "list", "draw", "open", "kiss", "unkiss", "explain"] {
        is_bad_usage(&[command, "one", "two"], "two is one too many");
    }
    is_bad_usage(&["compile", "x", "-o"], "-o wants");
    is_bad_usage(&["compile", "x", "--room"], "--room wants");
    is_bad_usage(&["compile", "x", "--room", "-1"], "-1 is no room");
    is_bad_usage(&["compile", "x", "--room", ""], "is no room");
    is_bad_usage(&["check", "x", "--room", "1"], "there is no option --room");
    is_bad_usage(&["compile", "-"], "has no name");
    is_bad_usage(&["compile", "x", "-o", "-"], "-o wants a file");
    is_bad_usage(&["kiss", "x", "-o", "-"], "-o wants a file");
    is_bad_usage(&["kiss", "x", "--room", "1"], "there is no option --room");
    is_bad_usage(&["unkiss", "x"], "name it by -o");
    is_bad_usage(&["unkiss", "x", "-o", "-"], "-o wants a file");
    is_bad_usage(&["run", "-"], "inputs are arguments");
    is_bad_usage(&["vcd", "-"], "inputs are arguments");
    for number in ["0", "13", "16", "20", "25", "-1x", "", "four", "4294967297", "99999999999"] {
        is_bad_usage(&["explain", "--", number], "is no refusal");
    }
}

#[test]
fn hostile_arguments_are_shown_harmless() {
    for argument in [&b"\x1b[31m"[..], b"\xff\xfe", b"a\nb", b"-\x1b"] {
        let said = tool(&[os(argument)]);
        assert_eq!(said.status, Some(2));
        assert!(said.err.trim_end().bytes().all(|byte| matches!(byte, b' '..=b'~')), "{:?}", said.err);
        let missing = tool(&[os(b"check"), os(b"--"), os(argument)]);
        assert_eq!(missing.status, Some(2));
        assert!(missing.err.trim_end().bytes().all(|byte| matches!(byte, b' '..=b'~')), "{:?}", missing.err);
    }
}

#[test]
fn a_name_that_looks_like_an_option_is_a_file_after_two_hyphens() {
    let folder = Folder::new();
    folder.file("--help", &std::fs::read(example("blink.csml")).unwrap());
    let mut command = std::process::Command::new(common::TOOL);
    command.args(["check", "--", "--help"]).current_dir(folder.path());
    assert_eq!(command.output().unwrap().status.code(), Some(0));
}

#[test]
fn standard_input_is_a_hyphen() {
    let source = std::fs::read(example("blink.csml")).unwrap();
    for arguments in
        [&["check", "-"][..], &["list", "-"], &["draw", "-"], &["kiss", "-"], &["run", "-", "1"], &["vcd", "-", "1"]]
    {
        let said = tool_with(arguments, &source);
        assert_eq!((said.status, said.err.as_str()), (Some(0), ""), "{arguments:?}");
    }
    let folder = Folder::new();
    let target = folder.path().join("out");
    let said = tool_with(&["compile", "-", "-o", target.to_str().unwrap()], &source);
    assert_eq!(said.status, Some(0));
    let table = std::fs::read(target).unwrap();
    for arguments in [&["open", "-"][..], &["draw", "-"], &["kiss", "-"], &["run", "-", "1"]] {
        assert_eq!(tool_with(arguments, &table).status, Some(0), "{arguments:?}");
    }
}

#[test]
fn what_is_broken_is_explained() {
    for (number, title) in [
        (21, "the table file has a bad length"),
        (22, "a block of the table file has a wrong number or total"),
        (23, "a block of the table file does not match its check"),
        (24, "the table file holds no sound table"),
    ] {
        let said = tool(&["explain".to_string(), number.to_string()]);
        assert!(
            said.status == Some(0) && said.out.starts_with(&format!("refused {number}: {title}\n")),
            "{}",
            said.out
        );
    }
}

#[test]
fn explained_examples_are_what_they_say() {
    for number in 4..=11u32 {
        let said = tool(&["explain".to_string(), number.to_string()]);
        let part = |from: &str, to: &str| said.out.split_once(from).unwrap().1.split(to).next().unwrap().to_string();
        let refused = tool_with(&["check", "-"], part("\nrefused:\n", "\nright:\n").as_bytes());
        assert!(refused.err.contains(&format!("refused {number} at ")), "{}", refused.err);
        let right = tool_with(&["check", "-"], part("\nright:\n", "\n\n").as_bytes());
        assert_eq!((right.status, right.err.as_str()), (Some(0), ""), "{number}");
    }
}
