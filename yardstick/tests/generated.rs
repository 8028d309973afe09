//! Twenty thousand generated records, and as many with procedures.

use std::collections::BTreeMap;
use std::io::BufReader;

use yardstick::batch::{hash, Record};
use yardstick::file::{open, step};
use yardstick::refusal::Refusal;
use yardstick::{compile, gen};

const RECORDS: usize = 20_000;

/// A file is sound and runs as its table says.
fn file_follows_table(record: &Record) {
    let Ok(compiled) = compile(&record.source, record.lent) else { return };
    let start = open(&compiled.file).unwrap();
    assert_eq!(start.outputs, compiled.table.rows[0].outputs);
    for (state, row) in compiled.table.rows.iter().enumerate() {
        for (input, next) in row.next.iter().enumerate() {
            let after = step(&compiled.file, state as u32, input as u32).unwrap();
            assert_eq!(
                (after.state, after.outputs),
                (u32::from(*next), compiled.table.rows[usize::from(*next)].outputs)
            );
        }
    }
}

/// How often each answer occurs among the records.
fn answers(records: impl Iterator<Item = Record>) -> BTreeMap<String, usize> {
    let mut kinds: BTreeMap<String, usize> = BTreeMap::new();
    for (at, record) in records.take(RECORDS).enumerate() {
        let answer = record.answer();
        let kind = answer.split(" at").next().unwrap().to_string();
        let kind = if kind.starts_with("ok") { "ok".to_string() } else { kind };
        *kinds.entry(kind).or_default() += 1;
        if at % 10 == 0 {
            file_follows_table(&record);
        }
    }
    kinds
}

#[test]
fn records_of_every_kind() {
    let kinds = answers(gen::records(1));
    let refusals = (1..=12).map(|number| format!("refused {number}"));
    for kind in refusals.chain(["ok".to_string()]) {
        assert!(kinds.get(&kind).is_some_and(|&count| count >= 20), "{kind}: {kinds:?}");
    }
    assert!(kinds["ok"] > RECORDS / 3, "{kinds:?}");
}

#[test]
fn records_with_procedures_of_every_kind() {
    let kinds = answers(gen::records_with_procedures(1));
    for kind in (4..=11).map(|number| format!("refused {number}")).chain(["ok".to_string()]) {
        assert!(kinds.get(&kind).is_some_and(|&count| count >= 50), "{kind}: {kinds:?}");
    }
    assert!(kinds["ok"] > RECORDS / 3, "{kinds:?}");
}

/// The old streams are what stored outputs and other tests stand on. T-03 moved them: comparisons stand bare beside `&` and `|`.
#[test]
fn records_without_procedures_are_as_they_were() {
    let mut bytes = Vec::new();
    for record in gen::records(2026).take(2_000) {
        record.write(&mut bytes).unwrap();
    }
    assert_eq!(hash(&bytes), 0xa81c_46fc_812b_724b);
}

#[test]
fn many_have_many_states() {
    let counts = gen::records(2).take(RECORDS / 4).filter_map(|record| compile(&record.source, record.lent).ok());
    let counts: Vec<usize> = counts.map(|compiled| compiled.states()).collect();
    assert!(counts.iter().filter(|&&count| count > 10).count() > counts.len() / 5);
    assert!(counts.iter().filter(|&&count| count > 100).count() > counts.len() / 100);
}

/// Nothing stands before a place that is refused but whole words that a program can begin with: no blank from there up to `at`.
fn is_in_the_word_of(text: &[u8], place: usize, at: usize) -> bool {
    place >= at || !text[place..at].contains(&b' ')
}

#[test]
fn every_prefix_and_every_changed_byte() {
    let blink = b"program b; input G; integer x[2]; loop if G & x[0] then x := x + 1 endif endloop endprog";
    assert!(compile(blink, yardstick::Lent::AMPLE).is_ok());
    // A text that is cut off is refused with 5: at its end, or at the word that the cut made.
    for end in 0..blink.len() {
        let refusal = compile(&blink[..end], yardstick::Lent::AMPLE).err().unwrap();
        assert_eq!(refusal.number, 5, "{end}");
        assert!(refusal.place <= end && is_in_the_word_of(blink, refusal.place, end), "{end}: {refusal}");
    }
    // Another byte is refused with 4 at its own word, with 5 there or later, with 6 to 10 inside the text; or it is a program.
    for at in 0..blink.len() {
        for byte in 0..=255 {
            let mut changed = blink.to_vec();
            changed[at] = byte;
            let Err(refusal) = compile(&changed, yardstick::Lent::AMPLE) else { continue };
            let well = match refusal.number {
                4 => refusal.place <= at && is_in_the_word_of(&changed, refusal.place, at),
                5 => refusal.place <= blink.len() && is_in_the_word_of(blink, refusal.place, at),
                6..=10 => refusal.place < blink.len(),
                number => number == 11 && refusal.place == 0,
            };
            assert!(well, "byte {at} as {byte}: {refusal}");
            if changed == blink {
                panic!("the text itself is refused: {refusal}");
            }
        }
    }
}

#[test]
fn the_longest_texts() {
    for unit in [
        "x",
        "1+",
        "!",
        "(",
        "int(",
        "loop ",
        "skip;",
        "raise(",
        "if a then ",
        "parallel a:=1||",
        "a:=1;",
        "x[9],",
        "--",
    ] {
        for head in ["", "program p;", "program p; integer ", "program p; x:=", "program p; if "] {
            let text = head.to_string() + &unit.repeat((8_192 - head.len()) / unit.len());
            assert!(compile(text.as_bytes(), yardstick::Lent::AMPLE).is_err());
        }
    }
    // A grammatical text with far too much in every respect: 6 wins.
    let sum = vec!["x"; 4_000].join("+");
    let text = format!("program p; x:={sum} endprog");
    assert_eq!(compile(text.as_bytes(), yardstick::Lent::AMPLE).err(), Some(Refusal::at(6, 11)));
}

#[test]
fn records_are_read_as_they_are_written() {
    let records: Vec<Record> = gen::records(3).take(200).collect();
    let mut bytes = Vec::new();
    for record in &records {
        record.write(&mut bytes).unwrap();
    }
    let mut reader = BufReader::new(&bytes[..]);
    for record in &records {
        assert_eq!(Record::read(&mut reader).unwrap().as_ref(), Some(record));
    }
    assert_eq!(Record::read(&mut reader).unwrap(), None);
    assert!(Record::read(&mut BufReader::new(&b"5 1 1\nhello\n"[..])).is_err());
    assert!(Record::read(&mut BufReader::new(&b"9 1 1 1\nhello\n"[..])).is_err());
    let huge = Record::read(&mut BufReader::new(&b"1 99999999999999999999999 0 0\nx\n"[..])).unwrap().unwrap();
    assert_eq!(huge.answer(), "refused 1 at 0");
}
