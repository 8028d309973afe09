//! `kiss` and `unkiss`: the yardstick's texts, the same file back, and what is refused.

mod common;

use std::collections::BTreeSet;
use std::fs;
use std::path::Path;
use std::process::Command;

use common::{example, examples, fed, generated, tool, tool_with, yardstick, Folder, Said, STREAMS};

const BLINK: &str = ".i 1\n.o 1\n.p 4\n.s 2\n.r s0\n0 s0 s0 0\n1 s0 s1 0\n0 s1 s1 1\n1 s1 s0 1\n.e\n";

fn text(path: &Path) -> &str {
    path.to_str().unwrap()
}

fn unkissed(folder: &Folder, bytes: &[u8]) -> Said {
    tool_with(&["unkiss", "-", "-o", text(&folder.path().join("back.table"))], bytes)
}

#[test]
fn blink_is_the_document_s() {
    let said = tool(&["kiss", text(&example("blink.csml"))]);
    assert_eq!((said.status, said.out.as_str(), said.err.as_str()), (Some(0), BLINK, ""));
}

#[test]
fn every_example_goes_there_and_back() {
    let folder = Folder::new();
    for name in examples() {
        let (table, kiss) = (folder.path().join(format!("{name}.table")), folder.path().join(format!("{name}.kiss")));
        assert_eq!(tool(&["compile", text(&example(&format!("{name}.csml"))), "-o", text(&table)]).status, Some(0));
        let file = fs::read(&table).unwrap();
        if file[4] == 0 || file[5] == 0 {
            let said = tool(&["kiss", text(&table)]);
            assert!(said.status == Some(1) && said.err.ends_with("\nrefused 15 at 0\n"), "{}", said.err);
            continue;
        }
        let said = tool(&["kiss", text(&table), "-o", text(&kiss)]);
        assert_eq!((said.status, said.out.as_str(), said.err.as_str()), (Some(0), "", ""), "{name}");
        let written = fs::read(&kiss).unwrap();
        assert_eq!(written, yardstick(&["kiss"], &file), "{name}");
        assert_eq!(tool(&["kiss", text(&example(&format!("{name}.csml")))]).out.as_bytes(), written);
        let back = folder.path().join("back.table");
        assert_eq!(tool(&["unkiss", text(&kiss), "-o", text(&back)]).status, Some(0));
        assert_eq!(fs::read(&back).unwrap(), file, "{name}");
    }
}

#[test]
fn generated_programs_go_there_and_back() {
    let folder = Folder::new();
    let mut whole = 0;
    for source in STREAMS.iter().flat_map(|stream| generated(stream, 77, 120)) {
        let file = yardstick(&["file"], &source);
        if file.is_empty() {
            continue;
        }
        let table = folder.file("made.table", &file);
        let said = tool(&["kiss", text(&table)]);
        assert_eq!(said.out.as_bytes(), yardstick(&["kiss"], &file));
        if said.status == Some(0) {
            assert_eq!(unkissed(&folder, said.out.as_bytes()).status, Some(0));
            assert_eq!(fs::read(folder.path().join("back.table")).unwrap(), file);
            whole += 1;
        }
    }
    assert!(whole > 20, "{whole}");
}

#[test]
fn what_is_refused_is_the_yardstick_s() {
    let folder = Folder::new();
    for length in 0..BLINK.len() {
        let mut texts = vec![BLINK.as_bytes()[..length].to_vec()];
        for byte in [b'1', b'2', b'\n', 0xFF] {
            let mut changed = BLINK.as_bytes().to_vec();
            changed[length] = byte;
            texts.push(changed);
        }
        for bytes in texts {
            let said = unkissed(&folder, &bytes);
            let mut command = Command::new(common::top().join("target/yardstick/release/yardstick"));
            command.arg("unkiss");
            let expected = fed(command, &bytes);
            let refusal = String::from_utf8(expected.stderr).unwrap();
            assert_eq!(said.status, expected.status.code(), "{bytes:?}");
            assert!(said.err.ends_with(&refusal) && said.err.is_empty() == refusal.is_empty(), "{}", said.err);
            assert!(said.err.bytes().all(|byte| matches!(byte, b' '..=b'~' | b'\n')), "{}", said.err);
        }
    }
}

#[test]
fn a_refusal_leaves_what_was_there() {
    let folder = Folder::new();
    let back = folder.file("back.table", b"as it was");
    assert_eq!(unkissed(&folder, &BLINK.as_bytes()[1..]).status, Some(1));
    assert_eq!(fs::read(&back).unwrap(), b"as it was");
    let broken = folder.file("broken.table", &[0; 512]);
    let said = tool(&["kiss", text(&broken), "-o", text(&back)]);
    assert!(said.status == Some(1) && said.err.ends_with("\nrefused 22 at 0\n"), "{}", said.err);
    assert_eq!(fs::read(&back).unwrap(), b"as it was");
    assert_eq!(folder.names(), ["back.table", "broken.table"]);
}

#[test]
fn a_file_is_never_replaced_by_what_is_made_of_it() {
    let folder = Folder::new();
    let kiss = folder.file("blink.kiss", BLINK.as_bytes());
    let source = folder.file("blink.csml", &fs::read(example("blink.csml")).unwrap());
    for arguments in [["unkiss", text(&kiss), "-o", text(&kiss)], ["kiss", text(&source), "-o", text(&source)]] {
        let said = tool(&arguments);
        assert!(said.status == Some(2) && said.err.contains("would replace its own source"), "{}", said.err);
    }
    assert_eq!(fs::read(&kiss).unwrap(), BLINK.as_bytes());
}

/// A reader of KISS in general, which wants no order and no blanks in particular: the sizes told are those of the rows,
/// and the rows are those of the listing.
#[test]
fn the_rows_are_the_listing_s() {
    for name in ["blink", "crossing", "soda", "mast"] {
        let kiss = tool(&["kiss", text(&example(&format!("{name}.csml")))]).out;
        let listing = fs::read_to_string(example(&format!("{name}.listing"))).unwrap();
        let states: Vec<Vec<&str>> = listing.lines().skip(4).map(|line| line.split(' ').collect()).collect();
        let lines: Vec<Vec<&str>> = kiss.lines().map(|line| line.split_whitespace().collect()).collect();
        let size = |key: &str| lines.iter().find(|line| line[0] == key).unwrap()[1].parse::<usize>().unwrap();
        let rows: Vec<&Vec<&str>> = lines.iter().filter(|line| !line[0].starts_with('.')).collect();
        let met: BTreeSet<&str> = rows.iter().flat_map(|row| [row[1], row[2]]).collect();
        assert_eq!((size(".p"), size(".s")), (rows.len(), met.len()), "{name}");
        assert_eq!(states.len(), met.len(), "{name}");
        for row in rows {
            let input: usize = row[0].bytes().enumerate().map(|(bit, byte)| usize::from(byte - b'0') << bit).sum();
            let number = |word: &str| word[1..].parse::<usize>().unwrap();
            let state = &states[number(row[1])];
            let outputs = size(".o");
            assert_eq!((row[0].len(), row[3].len()), (size(".i"), outputs), "{name}");
            assert_eq!(row[3], state[1..=outputs].concat(), "{name}");
            assert_eq!(number(row[2]).to_string(), state[1 + outputs + input], "{name}");
        }
    }
}
