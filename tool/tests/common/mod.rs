//! What the tests share: the built program, folders that vanish, and the yardstick's answers.
#![allow(dead_code)]

use std::ffi::OsStr;
use std::fs;
use std::io::Write;
use std::os::unix::ffi::OsStrExt;
use std::path::{Path, PathBuf};
use std::process::{Command, Output, Stdio};
use std::sync::atomic::{AtomicU32, Ordering};

pub const TOOL: &str = env!("CARGO_BIN_EXE_windnadel");

/// The repository.
pub fn top() -> PathBuf {
    Path::new(env!("CARGO_MANIFEST_DIR")).join("..")
}

pub fn example(name: &str) -> PathBuf {
    top().join("examples").join(name)
}

/// The names of all example programs.
pub fn examples() -> Vec<String> {
    let entries = fs::read_dir(top().join("examples")).unwrap();
    let names = entries.map(|entry| entry.unwrap().file_name().into_string().unwrap());
    let mut names: Vec<String> = names.filter_map(|name| name.strip_suffix(".csml").map(String::from)).collect();
    names.sort();
    assert!(names.len() >= 10);
    names
}

/// A new folder, removed when it goes out of sight.
pub struct Folder(PathBuf);

impl Folder {
    pub fn new() -> Folder {
        static NUMBER: AtomicU32 = AtomicU32::new(0);
        let number = NUMBER.fetch_add(1, Ordering::Relaxed);
        let path = std::env::temp_dir().join(format!("windnadel-test-{}-{number}", std::process::id()));
        fs::create_dir(&path).unwrap();
        Folder(path)
    }

    pub fn path(&self) -> &Path {
        &self.0
    }

    /// Writes a file and answers its path.
    pub fn file(&self, name: impl AsRef<OsStr>, bytes: &[u8]) -> PathBuf {
        let path = self.0.join(name.as_ref());
        fs::write(&path, bytes).unwrap();
        path
    }

    /// The names of all files in it, sorted.
    pub fn names(&self) -> Vec<String> {
        let entries = fs::read_dir(&self.0).unwrap();
        let mut names: Vec<String> = entries.map(|entry| entry.unwrap().file_name().into_string().unwrap()).collect();
        names.sort();
        names
    }
}

impl Drop for Folder {
    fn drop(&mut self) {
        let _ = fs::remove_dir_all(&self.0);
    }
}

/// What a program said and how it ended.
#[derive(PartialEq, Eq, Debug)]
pub struct Said {
    pub status: Option<i32>,
    pub out: String,
    pub err: String,
}

impl From<Output> for Said {
    fn from(output: Output) -> Said {
        let text = |bytes: Vec<u8>| String::from_utf8(bytes).expect("the tool prints text");
        Said { status: output.status.code(), out: text(output.stdout), err: text(output.stderr) }
    }
}

/// The tool, with no standard input.
pub fn tool<A: AsRef<OsStr>>(arguments: &[A]) -> Said {
    tool_with(arguments, b"")
}

/// The tool, with this on standard input.
pub fn tool_with<A: AsRef<OsStr>>(arguments: &[A], input: &[u8]) -> Said {
    let mut command = Command::new(TOOL);
    command.args(arguments).env_remove("NO_COLOR");
    fed(command, input).into()
}

/// Runs a command with this on standard input, which it need not read.
pub fn fed(mut command: Command, input: &[u8]) -> Output {
    let mut child =
        command.stdin(Stdio::piped()).stdout(Stdio::piped()).stderr(Stdio::piped()).spawn().expect("it can be started");
    let mut stdin = child.stdin.take().unwrap();
    let input = input.to_vec();
    let feeder = std::thread::spawn(move || {
        let _ = stdin.write_all(&input);
    });
    let output = child.wait_with_output().unwrap();
    feeder.join().unwrap();
    output
}

/// The yardstick, which `tests/tool` builds.
pub fn yardstick(arguments: &[&str], input: &[u8]) -> Vec<u8> {
    let mut command = Command::new(top().join("target/yardstick/release/yardstick"));
    command.args(arguments);
    fed(command, input).stdout
}

/// The streams of the yardstick: without procedures, and with them.
pub const STREAMS: [&str; 2] = ["gen", "gen-procedures"];

/// The sources of records of a stream, good and damaged.
pub fn generated(stream: &str, seed: u32, count: u32) -> Vec<Vec<u8>> {
    let records = yardstick(&[stream, &seed.to_string(), &count.to_string()], b"");
    let mut rest = &records[..];
    let mut sources = Vec::new();
    while !rest.is_empty() {
        let end = rest.iter().position(|&byte| byte == b'\n').unwrap();
        let line = std::str::from_utf8(&rest[..end]).unwrap();
        let length: usize = line.split(' ').next().unwrap().parse().unwrap();
        sources.push(rest[end + 1..end + 1 + length].to_vec());
        rest = &rest[end + 2 + length..];
    }
    assert_eq!(sources.len(), count as usize);
    sources
}

/// Is this program installed? Says so where it is not.
pub fn installed(program: &str) -> bool {
    let found = std::env::var_os("PATH")
        .is_some_and(|path| std::env::split_paths(&path).any(|folder| folder.join(program).is_file()));
    if !found {
        eprintln!("skipped: {program} is not installed");
    }
    found
}

pub fn os(bytes: &[u8]) -> &OsStr {
    OsStr::from_bytes(bytes)
}
