//! Damaged programs: good ones with a few bytes or words changed.

use super::random::Random;
use super::{join, program};

/// Words to put where they may not belong.
#[rustfmt::skip]
const STRAY: [&str; 60] = [
    "program", "endprog", "input", "output", "internal", "integer", "skip", "delay", "raise", "lower", "invert", "if",
    "then", "else", "endif", "while", "do", "loop", "endloop", "exit", "switch", "case", "default", "endswitch", "break",
    "parallel", "endparallel", "procedure", "endproc", "process", "processtype", "endtype", "compress", "endcompress",
    "true", "false", "int", ":=", ":", ";", ",", "(", ")", "[", "]", "=", "==", "!=", "!", ">", "<", "&", "|", "||", "+",
    "-", "*", ".H", "0", "unknown-name",
];

/// Bytes that matter to a scanner.
const BYTES: &[u8] = b" \t\n\r\x0b\x0c\0\x7f\xff_-.HLh:=|!<>&+*/%();,[]09aZ~$";

/// The text of a damaged program.
pub fn source(random: &mut Random) -> Vec<u8> {
    let words = program::words(random);
    damaged(random, words)
}

/// The text of these words, damaged.
pub fn damaged(random: &mut Random, mut words: Vec<String>) -> Vec<u8> {
    if random.one_in(4) {
        let mut text = join(random, &words);
        for _ in 0..random.between(1, 3) {
            damage_byte(random, &mut text);
        }
        return text;
    }
    for _ in 0..random.of(&[1, 1, 1, 2, 3]) {
        damage_word(random, &mut words);
    }
    join(random, &words)
}

fn damage_byte(random: &mut Random, text: &mut Vec<u8>) {
    let at = random.below(text.len() + 1);
    let byte = if random.one_in(3) { random.next() as u8 } else { random.of(BYTES) };
    match random.below(4) {
        0 => text.insert(at, byte),
        1 => text.truncate(at),
        _ if at < text.len() => text[at] = byte,
        _ => text.push(byte),
    }
}

fn damage_word(random: &mut Random, words: &mut Vec<String>) {
    if words.len() < 2 {
        return;
    }
    let at = random.below(words.len());
    let other = random.below(words.len());
    match random.below(10) {
        9 => insert_jump(random, words),
        0 => {
            words.remove(at);
        }
        1 => words.insert(at, words[at].clone()),
        2 => words.swap(at, other),
        3 => {
            let moved = words.remove(at);
            words.insert(other.min(words.len()), moved);
        }
        4 => words[at] = random.of(&STRAY).to_string(),
        5 => words.insert(at, random.of(&STRAY).to_string()),
        _ => rename(random, words),
    }
}

/// A jump before some statement, perhaps with nothing to leave.
fn insert_jump(random: &mut Random, words: &mut Vec<String>) {
    let ends: Vec<usize> = (3..words.len()).filter(|&at| words[at] == ";").collect();
    if !ends.is_empty() {
        let after = random.of(&ends) + 1;
        let jump = random.of(&["exit", "break"]);
        words.splice(after..after, [jump.to_string(), ";".to_string()]);
    }
}

/// An unknown name, a fault of kinds, or a name declared again: one name stands in for another.
fn rename(random: &mut Random, words: &mut [String]) {
    let names: Vec<usize> = (3..words.len()).filter(|&at| is_name(&words[at])).collect();
    if names.is_empty() {
        return;
    }
    let at = random.of(&names);
    words[at] = match random.below(5) {
        0 => "unknown".to_string(),
        1 => random.of(&["3", "true", "(x)"]).to_string(),
        _ => words[random.of(&names)].clone(),
    };
}

fn is_name(word: &str) -> bool {
    word.starts_with(|first: char| first.is_ascii_alphabetic()) && !STRAY.contains(&word)
}
