//! What the streams hold of the binding order: operators of neighbouring strengths, bare beside each other, both ways round.

use std::collections::{HashMap, HashSet};

use yardstick::words::{words, Kind};
use yardstick::{compile, gen};

/// As many as the proved compiler is tried on, and in how many good programs each pair must stand.
const RECORDS: usize = 5_000;
const OFTEN: usize = 100;

/// Pairs of operators with one operand between them and no parenthesis; `!` stands before its operand.
const PAIRS: [(char, char); 11] = [
    ('&', '|'),
    ('|', '&'),
    ('|', '='),
    ('=', '|'),
    ('&', '='),
    ('=', '&'),
    ('=', '!'),
    ('!', '='),
    ('+', '*'),
    ('*', '+'),
    ('=', '='),
];

/// The sign of an operator's strength.
fn strength(kind: Kind) -> Option<char> {
    Some(match kind {
        Kind::And => '&',
        Kind::Bar => '|',
        Kind::Equal | Kind::Unequal | Kind::Greater | Kind::Less => '=',
        Kind::Not => '!',
        Kind::Plus | Kind::Minus => '+',
        Kind::Times | Kind::Divide | Kind::Remainder => '*',
        _ => return None,
    })
}

/// The pairs of operators that stand beside each other in a text, outside the parentheses of their operands.
fn pairs(source: &[u8]) -> HashSet<(char, char)> {
    let mut met = HashSet::new();
    // The last operator of each open parenthesis.
    let mut open = vec![None];
    for word in words(source).unwrap_or_default() {
        match word.kind {
            Kind::Open => open.push(None),
            Kind::Close => drop(open.pop()),
            Kind::Name | Kind::Number(_) | Kind::True | Kind::False | Kind::Int => {}
            Kind::OpenIndex | Kind::CloseIndex => {}
            kind => {
                let Some(last) = open.last_mut() else { return met };
                let now = strength(kind);
                met.extend(last.zip(now));
                *last = now;
            }
        }
    }
    met
}

#[test]
fn neighbouring_strengths_stand_bare() {
    for seed in [2026, 2027] {
        let mut counts: HashMap<(char, char), usize> = HashMap::new();
        for record in gen::records(seed).take(RECORDS) {
            if compile(&record.source, record.lent).is_ok() {
                pairs(&record.source).into_iter().for_each(|pair| *counts.entry(pair).or_default() += 1);
            }
        }
        for pair in PAIRS {
            assert!(counts.get(&pair).is_some_and(|&count| count >= OFTEN), "{pair:?}, seed {seed}: {counts:?}");
        }
    }
}
