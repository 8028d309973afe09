//! `vcd`: read back, it is the run; and a reader that is not ours reads it where it is installed.

mod common;

use std::collections::BTreeMap;
use std::process::Command;

use common::{example, installed, tool, Folder};

const INPUTS: [&str; 8] = ["FROST+METER", "METER", "METER", "SENT+METER", "METER", "METER", "FIRE+WATER+FROST", "-"];

/// The value of each signal at each time.
type Waves = BTreeMap<String, Vec<String>>;

/// Reads a dump: names by their signs, then times and changes. Numbers lose their leading zeros.
fn waves(dump: &str) -> Waves {
    let mut names: BTreeMap<String, String> = BTreeMap::new();
    let mut now: BTreeMap<String, String> = BTreeMap::new();
    let mut waves = Waves::new();
    let mut time = None;
    let mut until = |time: &mut Option<usize>, next: usize, now: &BTreeMap<String, String>| {
        for _ in time.map_or(next, |time| time)..next {
            now.iter().for_each(|(name, value)| waves.entry(name.clone()).or_default().push(value.clone()));
        }
        *time = Some(next);
    };
    let (head, changes) = dump.split_once("$enddefinitions").unwrap();
    for line in head.lines() {
        if let ["$var", _, _, sign, name, ..] = line.split_whitespace().collect::<Vec<_>>()[..] {
            names.insert(sign.to_string(), name.to_string());
        }
    }
    for line in changes.lines() {
        match line.split_whitespace().collect::<Vec<_>>()[..] {
            [word, ..] if word.starts_with('$') => {}
            [stamp] if stamp.starts_with('#') => until(&mut time, stamp[1..].parse().unwrap(), &now),
            [number, sign] if number.starts_with('b') => {
                now.insert(names[sign].clone(), number[1..].trim_start_matches('0').to_string());
            }
            [change] if change.starts_with(['0', '1', 'x']) => {
                now.insert(names[&change[1..]].clone(), change[..1].to_string());
            }
            _ => {}
        }
    }
    waves
}

fn dump() -> String {
    let mast = example("mast.csml");
    let said = tool(&[&["vcd", mast.to_str().unwrap()], &INPUTS[..]].concat());
    assert_eq!((said.status, said.err.as_str()), (Some(0), ""));
    said.out
}

#[test]
fn a_dump_is_the_run() {
    let mast = example("mast.csml");
    let run = tool(&[&["run", mast.to_str().unwrap()], &INPUTS[..]].concat()).out;
    let rows: Vec<Vec<&str>> = run.lines().map(|line| line.split_whitespace().collect()).collect();
    let waves = waves(&dump());
    for (column, name) in rows[0].iter().enumerate().skip(1) {
        let values: Vec<String> = rows[1..].iter().map(|row| row[column].to_string()).collect();
        let expected: Vec<String> = match *name {
            "state" => values.iter().map(|state| format!("{:b}", state.parse::<u32>().unwrap())).collect(),
            // The inputs of a clock stand in the dump before it, in the run beside what came of them.
            _ if column <= 5 => values[1..].iter().cloned().chain(["x".to_string()]).collect(),
            _ => values,
        };
        let found: Vec<String> =
            waves[*name].iter().map(|value| if value.is_empty() { "0".to_string() } else { value.clone() }).collect();
        assert_eq!(found, expected, "{name}");
    }
}

#[test]
fn refused_inputs_take_no_time() {
    let blink = example("blink.csml");
    let path = blink.to_str().unwrap();
    let refused = tool(&["vcd", path, "1", "2", "0"]);
    assert_eq!((refused.status, refused.err.lines().count()), (Some(1), 1));
    assert_eq!(refused.out, tool(&["vcd", path, "1", "0"]).out);
    assert_eq!(tool(&["vcd", path, "1", "NO", "0"]).status, Some(2));
}

#[test]
fn another_reader_sees_the_same_waves() {
    if !installed("vcd2fst") || !installed("fst2vcd") {
        return;
    }
    let folder = Folder::new();
    let ours = folder.file("ours.vcd", dump().as_bytes());
    let theirs = folder.path().join("theirs.fst");
    let made = Command::new("vcd2fst").arg(&ours).arg(&theirs).output().unwrap();
    assert!(made.status.success(), "{}", String::from_utf8_lossy(&made.stderr));
    let back = Command::new("fst2vcd").arg(&theirs).output().unwrap();
    assert!(back.status.success());
    let without_zeros = waves(&String::from_utf8(back.stdout).unwrap());
    assert_eq!(without_zeros.keys().collect::<Vec<_>>(), waves(&dump()).keys().collect::<Vec<_>>());
    for (name, values) in waves(&dump()) {
        let values: Vec<&str> = values.iter().map(|value| value.trim_start_matches('0')).collect();
        let back: Vec<&str> = without_zeros[&name].iter().map(|value| value.trim_start_matches('0')).collect();
        // A dump may end at its last change.
        assert!(back.len() + 1 >= values.len() && values.starts_with(&back), "{name}: {values:?}, {back:?}");
    }
}
