//! `draw`: read back by a reader of this test's own, it is the table; and Graphviz reads it where it is installed.

mod common;

use std::collections::HashMap;
use std::fs;
use std::process::Command;

use common::{example, examples, fed, installed, tool};

/// The state that each state goes to for each input, and the names that are high in it, as drawn.
struct Drawn {
    next: HashMap<(usize, usize), usize>,
    high: HashMap<usize, String>,
}

fn label(line: &str) -> &str {
    line.split_once("[label=\"").map_or("", |(_, rest)| rest.trim_end_matches("\"];"))
}

fn drawn(text: &str, inputs: &[&str]) -> Drawn {
    let mut drawn = Drawn { next: HashMap::new(), high: HashMap::new() };
    for line in text.lines().filter(|line| line.trim_start().starts_with(|first: char| first.is_ascii_digit())) {
        let words: Vec<&str> = line.trim().trim_end_matches(';').split(' ').collect();
        let state = words[0].parse().unwrap();
        if words[1] != "->" {
            drawn.high.insert(state, label(line).split_once("\\n").unwrap().1.replace("\\n", " "));
            continue;
        }
        for cube in label(line).split("\\n") {
            for input in (0..1 << inputs.len()).filter(|&input| is_in(input, cube, inputs)) {
                let before = drawn.next.insert((state, input), words[2].parse().unwrap());
                assert!(before.is_none_or(|before| before.to_string() == words[2]), "{line}");
            }
        }
    }
    drawn
}

fn is_in(input: usize, cube: &str, inputs: &[&str]) -> bool {
    cube.split_whitespace().all(|literal| {
        let (name, value) = literal.split_once('=').unwrap();
        let bit = inputs.iter().position(|input| *input == name).unwrap();
        (input >> bit & 1).to_string() == value
    })
}

/// The words of a listing's line after its first, without the sign for none.
fn names(line: &str) -> Vec<&str> {
    line.split(' ').skip(1).filter(|word| *word != "-").collect()
}

#[test]
fn a_drawing_is_the_table() {
    for name in examples() {
        let listing = fs::read_to_string(example(&format!("{name}.listing"))).unwrap();
        let lines: Vec<&str> = listing.lines().collect();
        let (inputs, outputs) = (names(lines[1]), names(lines[2]));
        let said = tool(&[&"draw".into(), &example(&format!("{name}.csml"))]);
        assert_eq!(said.status, Some(0));
        let drawn = drawn(&said.out, &inputs);
        for row in &lines[4..] {
            let row: Vec<&str> = row.split(' ').collect();
            let (state, bits) = (row[0].parse().unwrap(), &row[1..=outputs.len().max(1)]);
            let high: Vec<&str> =
                outputs.iter().zip(bits).filter(|(_, bit)| **bit == "1").map(|(name, _)| *name).collect();
            let high = if high.is_empty() { "-".to_string() } else { high.join(" ") };
            assert_eq!(drawn.high[&state], high, "{name}, state {state}");
            for (input, next) in row[1 + bits.len()..].iter().enumerate() {
                assert_eq!(drawn.next[&(state, input)].to_string(), *next, "{name}, state {state}, input {input}");
            }
        }
    }
}

#[test]
fn drawings_are_short() {
    let soda = tool(&[&"draw".into(), &example("soda.csml")]).out;
    // 88 states with 16 inputs each: joined by target there are few arrows, with short words on them.
    assert!(soda.matches(" -> ").count() < 88 * 4, "{}", soda.matches(" -> ").count());
    assert!(soda.lines().all(|line| line.len() < 160));
}

#[test]
fn graphviz_reads_every_drawing() {
    if !installed("dot") {
        return;
    }
    for name in ["blink", "crossing", "soda", "exp"] {
        let said = tool(&[&"draw".into(), &example(&format!("{name}.csml"))]);
        let mut dot = Command::new("dot");
        dot.arg("-Tplain");
        let output = fed(dot, said.out.as_bytes());
        assert!(output.status.success() && output.stderr.is_empty(), "{}", String::from_utf8_lossy(&output.stderr));
        let plain = String::from_utf8(output.stdout).unwrap();
        let nodes = plain.lines().filter(|line| line.starts_with("node ")).count();
        let states = fs::read_to_string(example(&format!("{name}.listing"))).unwrap().lines().count() - 4;
        assert_eq!(nodes, states + 1, "{name}: a node for each state, and the start");
    }
}
