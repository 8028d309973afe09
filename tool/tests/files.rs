//! Files that can't be read or written, and table files that are whole or not there.

mod common;

use std::fs::{self, File};
use std::io::{Read, Write};
use std::os::unix::fs::{symlink, PermissionsExt};
use std::os::unix::process::CommandExt;
use std::path::Path;
use std::process::{Command, Stdio};
use std::time::{Duration, Instant};

use common::{example, examples, tool, Folder, Said, TOOL};

const READING: [&str; 8] = ["compile", "check", "list", "run", "vcd", "draw", "open", "kiss"];

fn text(path: &Path) -> &str {
    path.to_str().unwrap()
}

#[test]
fn missing_files_and_folders_are_told_in_the_system_s_words() {
    let folder = Folder::new();
    for command in READING {
        let missing = tool(&[command, text(&folder.path().join("nosuch"))]);
        assert_eq!((missing.status, missing.out.as_str()), (Some(2), ""));
        assert!(missing.err.ends_with("nosuch: No such file or directory (os error 2)\n"), "{}", missing.err);
        let directory = tool(&[command, text(folder.path())]);
        assert_eq!((directory.status, directory.out.as_str()), (Some(2), ""));
        assert!(directory.err.ends_with(": Is a directory (os error 21)\n"), "{}", directory.err);
    }
    assert!(folder.names().is_empty());
}

/// The tool without root's rights. Only so may it be pointed at a real device: a tool that wrongly replaced what it
/// should write to would, as root, take the machine's own /dev/null away.
fn unprivileged(folder: &Folder) -> Command {
    let copy = folder.path().join("tool");
    // By another process: a file that this one has open for writing, a test beside this one could hold while it starts.
    assert!(Command::new("cp").arg(TOOL).arg(&copy).status().unwrap().success());
    let mut command = Command::new(&copy);
    if is_root() {
        command.uid(65_534).gid(65_534);
        fs::set_permissions(folder.path(), fs::Permissions::from_mode(0o755)).unwrap();
    }
    command
}

fn is_root() -> bool {
    fs::metadata("/proc/self").is_ok_and(|own| std::os::unix::fs::MetadataExt::uid(&own) == 0)
}

/// The tool as a user who does not own the folder's files, which only root can try.
fn as_nobody(folder: &Folder) -> Option<Command> {
    if !is_root() {
        eprintln!("skipped: only root can try what another user may not");
    }
    is_root().then(|| unprivileged(folder))
}

#[test]
fn without_permission_nothing_is_read_or_written() {
    let folder = Folder::new();
    let Some(mut command) = as_nobody(&folder) else { return };
    let closed = folder.file("closed.csml", b"program p; skip endprog");
    fs::set_permissions(&closed, fs::Permissions::from_mode(0o600)).unwrap();
    let read = command.args(["check", text(&closed)]).output().unwrap();
    assert_eq!(read.status.code(), Some(2));
    assert!(String::from_utf8(read.stderr).unwrap().ends_with("closed.csml: Permission denied (os error 13)\n"));
    fs::set_permissions(&closed, fs::Permissions::from_mode(0o644)).unwrap();

    let mut command = as_nobody(&folder).unwrap();
    let written = command.args(["compile", text(&closed)]).output().unwrap();
    assert_eq!((written.status.code(), written.stdout.len()), (Some(2), 0));
    assert!(String::from_utf8(written.stderr).unwrap().ends_with("closed.table: Permission denied (os error 13)\n"));
    assert_eq!(folder.names(), ["closed.csml", "tool"]);
}

#[test]
fn a_read_only_table_file_is_not_replaced() {
    let folder = Folder::new();
    let Some(mut command) = as_nobody(&folder) else { return };
    fs::set_permissions(folder.path(), fs::Permissions::from_mode(0o777)).unwrap();
    let source = folder.file("p.csml", b"program p; skip endprog");
    let old = folder.file("p.table", b"old");
    fs::set_permissions(&old, fs::Permissions::from_mode(0o444)).unwrap();
    assert_eq!(command.args(["compile", text(&source)]).output().unwrap().status.code(), Some(2));
    assert_eq!(fs::read(&old).unwrap(), b"old");
    assert_eq!(folder.names(), ["p.csml", "p.table", "tool"]);
}

#[test]
fn a_refused_source_leaves_the_old_table_file() {
    let folder = Folder::new();
    let source = folder.file("p.csml", b"program p; skip");
    let old = folder.file("p.table", b"old");
    assert_eq!(tool(&["compile", text(&source)]).status, Some(1));
    assert_eq!(fs::read(&old).unwrap(), b"old");
    fs::write(&source, "program p; skip endprog").unwrap();
    let said = tool(&["compile", text(&source)]);
    assert_eq!((said.status, said.out), (Some(0), format!("{}: 2 states, 1 block, 512 bytes\n", text(&old))));
    assert_eq!(fs::read(&old).unwrap().len(), 512);
    assert_eq!(folder.names(), ["p.csml", "p.table"]);
}

#[test]
fn a_source_is_never_replaced_by_its_table() {
    let folder = Folder::new();
    let source = folder.file("p.table", b"program p; skip endprog");
    let link = folder.path().join("link.table");
    symlink(&source, &link).unwrap();
    for arguments in [&[text(&source)][..], &[text(&source), "-o", text(&link)], &[text(&link), "-o", text(&source)]] {
        let said = tool(&[&["compile"], arguments].concat());
        assert_eq!(said.status, Some(2));
        assert!(said.err.contains("would replace its own source"), "{}", said.err);
    }
    assert_eq!(fs::read(&source).unwrap(), b"program p; skip endprog");
}

#[test]
fn a_link_stays_a_link() {
    let folder = Folder::new();
    let source = folder.file("p.csml", b"program p; skip endprog");
    let there = folder.file("there", b"old");
    let link = folder.path().join("p.table");
    symlink(&there, &link).unwrap();
    assert_eq!(tool(&["compile", text(&source)]).status, Some(0));
    assert!(fs::symlink_metadata(&link).unwrap().is_symlink());
    assert_eq!(fs::read(&there).unwrap().len(), 512);
}

#[test]
fn a_write_that_fails_leaves_nothing() {
    let folder = Folder::new();
    let source = folder.file("p.csml", b"program p; skip endprog");
    fs::create_dir(folder.path().join("inner")).unwrap();
    for (target, words) in [
        ("inner", "Is a directory"),
        ("nosuch/out", "No such file or directory"),
        ("p.csml/out", "Not a directory"),
        ("out/", "directory"),
        (&"n".repeat(300), "File name too long"),
    ] {
        let said = tool(&["compile", text(&source), "-o", &format!("{}/{target}", text(folder.path()))]);
        assert_eq!((said.status, said.out.as_str()), (Some(2), ""), "{target}");
        assert!(said.err.contains(words), "{target}: {}", said.err);
        assert_eq!(folder.names(), ["inner", "p.csml"]);
    }
}

#[test]
fn a_full_disk_is_told() {
    let folder = Folder::new();
    let blink = example("blink.csml");
    let said: Said = unprivileged(&folder).args(["compile", text(&blink), "-o", "/dev/full"]).output().unwrap().into();
    assert_eq!(said.status, Some(2));
    assert_eq!(said.err, "windnadel: /dev/full: No space left on device (os error 28)\n");
    for arguments in [&["list", text(&blink)][..], &["run", text(&blink), "1"], &["draw", text(&blink)], &["--help"]] {
        let full = File::options().write(true).open("/dev/full").unwrap();
        let output = Command::new(TOOL).args(arguments).stdout(full).output().unwrap();
        assert_eq!(output.status.code(), Some(2), "{arguments:?}");
        let words = String::from_utf8(output.stderr).unwrap();
        assert_eq!(words, "windnadel: standard output: No space left on device (os error 28)\n");
    }
}

#[test]
fn devices_are_written_to_and_not_replaced() {
    let folder = Folder::new();
    let blink = example("blink.csml");
    let said: Said = unprivileged(&folder).args(["compile", text(&blink), "-o", "/dev/null"]).output().unwrap().into();
    assert_eq!((said.status, said.out.as_str()), (Some(0), "/dev/null: 2 states, 1 block, 512 bytes\n"));
}

#[test]
fn pipes_are_written_to_and_not_replaced() {
    let folder = Folder::new();
    let pipe = folder.path().join("pipe");
    assert!(Command::new("mkfifo").arg(&pipe).status().unwrap().success());
    // Open for both, so that neither side waits for the other, and a tool that does not write leaves nothing to read.
    let mut both = File::options().read(true).write(true).open(&pipe).unwrap();
    assert_eq!(tool(&["compile", text(&example("blink.csml")), "-o", text(&pipe)]).status, Some(0));
    assert!(!fs::metadata(&pipe).unwrap().is_file());
    let mut bytes = [0; 512];
    both.read_exact(&mut bytes).unwrap();
    assert_eq!(bytes[..8], [0, 0, 1, 0, 1, 1, 2, 0]);
}

#[test]
fn a_closed_pipe_ends_it_quietly() {
    let mut command = Command::new(TOOL);
    command.args(["run", text(&example("blink.csml"))]);
    let mut child = command.stdin(Stdio::piped()).stdout(Stdio::piped()).stderr(Stdio::piped()).spawn().unwrap();
    let mut out = child.stdout.take().unwrap();
    out.read_exact(&mut [0; 5]).unwrap();
    drop(out);
    // It notices at the first line that it can't print; what is fed after that may find the pipe closed.
    let mut stdin = child.stdin.take().unwrap();
    while stdin.write_all(b"1\n").is_ok() {}
    let output = child.wait_with_output().unwrap();
    assert_eq!((output.status.code(), output.stderr.len()), (Some(2), 0));
}

#[test]
fn a_run_answers_line_by_line() {
    let mut command = Command::new(TOOL);
    command.args(["run", text(&example("blink.csml"))]);
    let mut child = command.stdin(Stdio::piped()).stdout(Stdio::piped()).spawn().unwrap();
    let (mut stdin, mut out) = (child.stdin.take().unwrap(), child.stdout.take().unwrap());
    let mut expect = |text: &str| {
        let mut buffer = vec![0; text.len()];
        out.read_exact(&mut buffer).unwrap();
        assert_eq!(String::from_utf8(buffer).unwrap(), text);
    };
    expect("clock  GO  LAMP  state\n    0   -     0      0\n");
    stdin.write_all(b"GO\n").unwrap();
    expect("    1   1     1      1\n");
    stdin.write_all(b"\n  \n-\n").unwrap();
    expect("    2   0     1      1\n");
    drop(stdin);
    assert_eq!(child.wait().unwrap().code(), Some(0));
}

#[test]
fn long_sources_are_refused_and_not_read_to_the_end() {
    let folder = Folder::new();
    let mut most = b"program p; skip endprog".to_vec();
    most.resize(8_192, b' ');
    assert_eq!(tool(&["check", text(&folder.file("most", &most))]).status, Some(0));
    most.push(b' ');
    assert!(tool(&["check", text(&folder.file("long", &most))]).err.ends_with("\nrefused 3 at 0\n"));
    let huge = folder.path().join("huge");
    File::create(&huge).unwrap().set_len(100 << 20).unwrap();
    let begun = Instant::now();
    for command in ["compile", "check", "list"] {
        let said = tool(&[command, text(&huge)]);
        assert!(said.status == Some(1) && (said.err + &said.out).ends_with("refused 3 at 0\n"));
    }
    assert!(tool(&["open", text(&huge)]).err.ends_with("\nrefused 21 at 0\n"));
    assert!(tool(&["check", "/dev/zero"]).err.ends_with("\nrefused 3 at 0\n"));
    assert!(begun.elapsed() < Duration::from_secs(5));
    assert_eq!(folder.names(), ["huge", "long", "most"]);
}

#[test]
fn every_example_opens_runs_and_draws_from_its_table() {
    let folder = Folder::new();
    for name in examples() {
        let table = folder.path().join(format!("{name}.table"));
        let source = example(&format!("{name}.csml"));
        assert_eq!(tool(&["compile", text(&source), "-o", text(&table)]).status, Some(0));
        let opened = tool(&["open", text(&table)]);
        assert!(opened.status == Some(0) && opened.out.contains(": sound, "));
        let by_table = tool(&["run", text(&table), "0", "1", "0", "1", "1"]);
        let by_source = tool(&["run", text(&source), "0", "1", "0", "1", "1"]);
        assert_eq!(by_table.status, by_source.status);
        let last_column = |text: &str| -> Vec<String> {
            text.lines().skip(1).filter_map(|line| line.split(' ').next_back().map(String::from)).collect()
        };
        assert_eq!(last_column(&by_table.out), last_column(&by_source.out), "{name}");
        assert_eq!(tool(&["draw", text(&table)]).status, Some(0));
    }
}
