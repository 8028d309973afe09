//! A program that others wrote reads the KISS texts of four examples: the logic that `berkeley-abc` makes of them,
//! walked through from its start, has our states and our rows. `tests/kiss` runs this where the program is installed.

mod common;

use std::collections::HashSet;
use std::fs;
use std::path::Path;
use std::process::Command;

use common::compiled;
use yardstick::kiss::text;
use yardstick::search::Table;

fn example(name: &str) -> Table {
    let path = Path::new(env!("CARGO_MANIFEST_DIR")).join("../examples").join(name).with_extension("csml");
    compiled(&fs::read_to_string(path).unwrap()).unwrap().table
}

/// Ands and latches in the AIGER format. A literal is twice a number, and one more where it is inverted; inputs are
/// numbered from 1, then latches, then ands.
struct Logic {
    inputs: usize,
    latches: Vec<usize>,
    outputs: Vec<usize>,
    ands: Vec<[usize; 2]>,
}

/// What the program makes of a text, each state a latch. It takes a state's name for a number, so the names lose their
/// letter.
fn read_by_abc(name: &str, text: &str) -> Logic {
    let folder = Path::new(env!("CARGO_TARGET_TMPDIR"));
    let (stg, aig) = (format!("{name}.stg"), format!("{name}.aig"));
    let _ = fs::remove_file(folder.join(&aig));
    fs::write(folder.join(&stg), text.replace(" s", " ")).unwrap();
    let commands = format!("&read_stg -K 1 {stg}; &write {aig}");
    let said = Command::new("berkeley-abc").args(["-c", &commands]).current_dir(folder).output().unwrap();
    assert!(said.status.success(), "{}", String::from_utf8_lossy(&said.stdout));
    logic(&fs::read(folder.join(&aig)).unwrap())
}

fn logic(file: &[u8]) -> Logic {
    let mut at = 0;
    let mut line = || {
        let end = at + file[at..].iter().position(|&byte| byte == b'\n').unwrap();
        let words = std::str::from_utf8(&file[at..end]).unwrap().split(' ');
        at = end + 1;
        words.filter_map(|word| word.parse().ok()).collect::<Vec<usize>>()
    };
    let [_, inputs, latches, outputs, ands] = line()[..] else { panic!("no heading") };
    let latches: Vec<usize> = (0..latches).map(|_| line()[0]).collect();
    let outputs = (0..outputs).map(|_| line()[0]).collect();
    let mut less = || {
        let mut value = 0;
        for shift in (0..).step_by(7) {
            value |= usize::from(file[at] & 127) << shift;
            at += 1;
            if file[at - 1] < 128 {
                break;
            }
        }
        value
    };
    let first = 1 + inputs + latches.len();
    let ands = (first..first + ands).map(|number| {
        let left = 2 * number - less();
        [left, left - less()]
    });
    Logic { inputs, outputs, ands: ands.collect(), latches }
}

impl Logic {
    /// The outputs, and what the latches hold next, for every input at once: a bit of a word for each.
    fn clock(&self, held: &[bool]) -> [Vec<u64>; 2] {
        let mut values = vec![0];
        // The leftmost bit of a row is the first declared here, and the last there.
        values.extend((0..self.inputs).rev().map(|bit| (0..64).map(|input| (input >> bit & 1) << input).sum::<u64>()));
        values.extend(held.iter().map(|&held| if held { u64::MAX } else { 0 }));
        let value = |values: &[u64], literal: usize| values[literal / 2] ^ (literal as u64 & 1).wrapping_neg();
        for &[left, right] in &self.ands {
            values.push(value(&values, left) & value(&values, right));
        }
        [&self.outputs, &self.latches].map(|literals| literals.iter().map(|&literal| value(&values, literal)).collect())
    }
}

/// How many states and rows of the logic are met from its start, where each row is the table's.
fn walked(logic: &Logic, table: &Table) -> (usize, usize) {
    let mut met = vec![None; table.rows.len()];
    met[0] = Some(vec![false; logic.latches.len()]);
    let (mut open, mut rows) = (vec![0], 0);
    while let Some(state) = open.pop() {
        let [outputs, latches] = logic.clock(met[state].as_ref().unwrap());
        for (input, &next) in table.rows[state].next.iter().enumerate() {
            let shown = outputs.iter().fold(0, |shown, word| shown << 1 | (word >> input & 1) as u16);
            assert_eq!(shown, table.rows[state].outputs, "state {state}, input {input}");
            let held: Vec<bool> = latches.iter().map(|word| word >> input & 1 == 1).collect();
            match &met[usize::from(next)] {
                Some(known) => assert_eq!(known, &held, "state {state}, input {input}"),
                None => {
                    met[usize::from(next)] = Some(held);
                    open.push(next.into());
                }
            }
            rows += 1;
        }
    }
    (met.iter().flatten().collect::<HashSet<_>>().len(), rows)
}

#[test]
#[ignore = "wants berkeley-abc"]
fn abc_has_our_states_and_rows() {
    for name in ["blink", "crossing", "soda", "mast"] {
        let table = example(name);
        let text = text(&table);
        let size = |key: &str| text.lines().find_map(|line| line.strip_prefix(key)).unwrap().parse::<usize>().unwrap();
        let logic = read_by_abc(name, &text);
        assert_eq!((logic.inputs, logic.outputs.len()), (size(".i "), size(".o ")), "{name}");
        assert_eq!(logic.latches.len(), size(".s "), "{name}");
        assert_eq!(walked(&logic, &table), (size(".s "), size(".p ")), "{name}");
    }
}
