//! Transcripts, the manual's examples among them: each command is run again and must say what is written under it.
//!
//! `$ cat FILE` of a file that is not there makes it, as shown. An exit status other than 0 is written after the output.
//! With WINDNADEL_STORE set, the files are written anew with what is said now.

mod common;

use std::fs;
use std::path::Path;
use std::process::Command;

use common::{example, fed, top, Folder, TOOL};

#[test]
fn transcripts_are_true() {
    let folder = top().join("tool/tests/transcripts");
    for entry in fs::read_dir(folder).unwrap() {
        let path = entry.unwrap().path();
        let text = fs::read_to_string(&path).unwrap();
        held(&path, &text, &replayed(&text));
    }
}

#[test]
fn the_manual_is_true() {
    let path = top().join("docs/MANUAL.md");
    let text = fs::read_to_string(&path).unwrap();
    held(&path, &text, &replayed_blocks(&text));
}

fn held(path: &Path, stored: &str, now: &str) {
    if std::env::var_os("WINDNADEL_STORE").is_some() {
        fs::write(path, now).unwrap();
    } else {
        let differ = stored.lines().zip(now.lines()).find(|(stored, now)| stored != now);
        assert!(stored == now, "{}: {differ:?}", path.display());
    }
}

/// The blocks of a page that begin with a command, in one folder, so that a later block can use an earlier one's files.
fn replayed_blocks(page: &str) -> String {
    let folder = sandbox();
    let mut parts: Vec<String> = page.split("```\n").map(String::from).collect();
    for block in parts.iter_mut().skip(1).step_by(2).filter(|block| block.starts_with("$ ")) {
        *block = replayed_in(&folder, block);
    }
    parts.join("```\n")
}

fn replayed(transcript: &str) -> String {
    replayed_in(&sandbox(), transcript)
}

/// Runs each command of a transcript and writes what it says now under it.
fn replayed_in(folder: &Folder, transcript: &str) -> String {
    let mut text = String::new();
    let mut lines = transcript.lines().peekable();
    while let Some(line) = lines.next() {
        let command = line.strip_prefix("$ ").expect("a transcript begins with a command");
        let mut shown = String::new();
        while let Some(line) = lines.next_if(|line| !line.starts_with("$ ")) {
            shown += &format!("{line}\n");
        }
        if let Some(name) = command.strip_prefix("cat ").filter(|name| !folder.path().join(name).exists()) {
            folder.file(name, shown.as_bytes());
        }
        text += &format!("{line}\n{}", said(folder, command));
    }
    text
}

/// Standard output and standard error of a command as a terminal would show them, then its status.
fn said(folder: &Folder, command: &str) -> String {
    let mut shell = Command::new("sh");
    let path = format!("{}:{}", Path::new(TOOL).parent().unwrap().display(), std::env::var("PATH").unwrap());
    shell.args(["-c", &format!("exec 2>&1\n{command}")]).current_dir(folder.path());
    shell.env("PATH", path).env("LC_ALL", "C").env_remove("NO_COLOR");
    let output = fed(shell, b"");
    let text = String::from_utf8(output.stdout).unwrap();
    match output.status.code() {
        Some(0) => text,
        status => format!("{text}[status {}]\n", status.unwrap_or(-1)),
    }
}

/// A folder with the examples in it.
fn sandbox() -> Folder {
    let folder = Folder::new();
    for name in common::examples() {
        let name = format!("{name}.csml");
        folder.file(&name, &fs::read(example(&name)).unwrap());
    }
    folder
}
