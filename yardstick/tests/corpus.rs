//! The programs in `examples`: their stored listings, and what they are there to show.

mod common;

use std::collections::{HashMap, HashSet};
use std::fs;
use std::path::PathBuf;

use common::compiled;
use yardstick::file::{open, step};
use yardstick::listing::listing;
use yardstick::search::Table;
use yardstick::Compiled;

fn examples() -> PathBuf {
    PathBuf::from(env!("CARGO_MANIFEST_DIR")).join("../examples")
}

fn example(name: &str) -> Compiled {
    let source = fs::read_to_string(examples().join(name).with_extension("csml")).unwrap();
    compiled(&source).unwrap()
}

#[test]
fn stored_listings() {
    let mut seen = 0;
    for entry in fs::read_dir(examples()).unwrap() {
        let path = entry.unwrap().path();
        if path.extension().is_some_and(|extension| extension == "csml") {
            let compiled = compiled(&fs::read_to_string(&path).unwrap()).unwrap();
            let stored = fs::read_to_string(path.with_extension("listing")).unwrap();
            assert_eq!(listing(&compiled.program, &compiled.table), stored, "{}", path.display());
            seen += 1;
        }
    }
    assert!(seen >= 10);
}

#[test]
fn with_procedures_the_same_machines() {
    for name in ["soda", "blackjack", "card"] {
        let [written_out, with_procedures] = [example(name), example(&format!("{name}-procedures"))];
        let listings = [&written_out, &with_procedures].map(|compiled| listing(&compiled.program, &compiled.table));
        assert_eq!(listings[0], listings[1], "{name}");
        assert_eq!(written_out.file, with_procedures.file, "{name}");
    }
}

/// How many states are left when equal ones are merged: states with other outputs, or that lead to states that differ,
/// differ.
fn merged(table: &Table) -> usize {
    let mut classes: Vec<usize> = table.rows.iter().map(|row| usize::from(row.outputs)).collect();
    let mut count = classes.iter().collect::<HashSet<_>>().len();
    loop {
        let mut numbers = HashMap::new();
        let refined = table.rows.iter().enumerate().map(|(state, row)| {
            let nexts: Vec<usize> = row.next.iter().map(|&next| classes[usize::from(next)]).collect();
            let fresh = numbers.len();
            *numbers.entry((classes[state], nexts)).or_insert(fresh)
        });
        classes = refined.collect();
        if numbers.len() == count {
            return count;
        }
        count = numbers.len();
    }
}

#[test]
fn the_soda_machine_has_the_states_that_001_prints() {
    let soda = example("soda");
    assert_eq!(soda.states(), 88);
    assert_eq!(merged(&soda.table), 80);
}

#[test]
fn the_blackjack_player_has_the_states_that_001_prints() {
    let blackjack = example("blackjack");
    assert_eq!(blackjack.states(), 74);
    assert_eq!(merged(&blackjack.table), 32);
}

#[test]
fn a_hand_of_blackjack() {
    let file = example("blackjack").file;
    let mut player = open(&file).unwrap();
    // HIT, STAND and BUST, and the score shown by S4 (first declared) to S0.
    let shown = |outputs: u16| (outputs & 7, (3..8).fold(0, |score, bit| score << 1 | outputs >> bit & 1));
    assert_eq!(shown(player.outputs), (1, 0));
    // An ace as 11, a five, a king that makes the ace 1, a five; then the reset.
    for (card, status, score) in [(1, 1, 11), (5, 1, 16), (13, 1, 16), (5, 2, 21)] {
        let lines = (0..4).fold(0, |lines, bit| lines | (card >> bit & 1) << (5 - bit));
        player.step(&file, 2 | lines).unwrap();
        assert_eq!(shown(player.outputs), (status, score), "card {card}");
        player.step(&file, 0).unwrap();
    }
    player.step(&file, 1).unwrap();
    assert_eq!(shown(player.outputs), (1, 0));
}

#[test]
fn one_program_has_more_than_two_hundred_states() {
    assert!(example("mast").states() > 200);
}

/// What the mast's queue holds and shows, by the words of mast.md.
#[derive(Clone, Copy, PartialEq, Eq, Hash, Default, Debug)]
struct Queue {
    /// Fire, frost, water and meter frames.
    frames: [u32; 4],
    lost: bool,
    take_meter: bool,
}

impl Queue {
    fn waiting(&self) -> u32 {
        self.frames.iter().sum()
    }

    /// One clock with the inputs FROST, WATER, FIRE, METER, SENT from the lowest bit.
    fn clock(self, input: u32) -> Queue {
        let [frost, water, fire, meter, sent] = [0, 1, 2, 3, 4].map(|bit| input >> bit & 1 == 1);
        let take_meter = meter && self.waiting() == 0 && !self.take_meter && !fire && !frost && !water;
        let mut next = Queue { frames: self.frames, lost: false, take_meter };
        for (kind, comes) in [fire, frost, water, self.take_meter].into_iter().enumerate() {
            let room = self.waiting() + [fire, frost, water][..kind].iter().filter(|&&comes| comes).count() as u32;
            if comes && room < 6 {
                next.frames[kind] += 1;
            } else if comes && kind < 3 {
                next.lost = true;
            }
        }
        if let Some(urgent) = self.frames.iter().position(|&frames| frames > 0).filter(|_| sent) {
            next.frames[urgent] -= 1;
        }
        next
    }

    fn outputs(self) -> u16 {
        u16::from(self.waiting() > 0) | u16::from(self.lost) << 1 | u16::from(self.take_meter) << 2
    }
}

#[test]
fn the_mast_does_what_its_page_says() {
    let file = example("mast").file;
    let start = open(&file).unwrap();
    assert_eq!(start.outputs, Queue::default().outputs());
    let mut seen = HashSet::from([(start.state, Queue::default())]);
    let mut open_pairs = vec![(start.state, Queue::default())];
    while let Some((state, queue)) = open_pairs.pop() {
        for input in 0..32 {
            let (machine, model) = (step(&file, state, input).unwrap(), queue.clock(input));
            assert_eq!(machine.outputs, model.outputs(), "{queue:?} {input}");
            if seen.insert((machine.state, model)) {
                open_pairs.push((machine.state, model));
            }
        }
    }
    assert!(seen.len() >= 228);
}

#[test]
fn the_counter_counts() {
    // After figure 4-2's outer loop has run n times its outputs are n in binary.
    let exp = example("exp");
    let shown: HashSet<u16> = exp.table.rows.iter().map(|row| row.outputs).collect();
    assert_eq!(shown.len(), 16);
}
