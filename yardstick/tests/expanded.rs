//! Calls expanded as text, by words alone: the text that comes out means the same and is refused as the program was.

use std::collections::HashMap;

use yardstick::words::{words, Kind};
use yardstick::{compile, gen, Lent, LONGEST_SOURCE};

/// How many words of an actual are looked at, and what stands for more.
const LONGEST_ACTUAL: usize = 2_000;
const TOO_LONG: &str = "?";

type Text = Vec<String>;

struct Procedure {
    formals: Vec<String>,
    body: Text,
}

/// What replaces a formal where it is changed or indexed, and where it is read.
#[derive(Clone)]
struct Actual {
    bare: Text,
    read: Text,
}

fn is_name(word: &str) -> bool {
    word.starts_with(|first: char| first.is_ascii_alphabetic())
        && matches!(words(word.as_bytes()).as_deref(), Ok([word]) if word.kind == Kind::Name)
}

/// The place of the `)` that closes the `(` at `open`.
fn closing(text: &[String], open: usize) -> usize {
    let mut depth = 0;
    for (at, word) in text.iter().enumerate().skip(open) {
        match word.as_str() {
            "(" => depth += 1,
            ")" if depth == 1 => return at,
            ")" => depth -= 1,
            _ => {}
        }
    }
    panic!("a program closes its parentheses");
}

/// The words between commas that no parenthesis holds.
fn parted(text: &[String]) -> Vec<&[String]> {
    let mut depth = 0;
    let parts = text.split(|word| {
        depth += usize::from(word == "(");
        depth -= usize::from(word == ")");
        depth == 0 && word == ","
    });
    if text.is_empty() {
        Vec::new()
    } else {
        parts.collect()
    }
}

struct Expander {
    procedures: HashMap<String, Procedure>,
}

impl Expander {
    fn expanded(&self, text: &[String], actuals: &HashMap<String, Actual>) -> Text {
        let mut out = Text::new();
        let mut at = 0;
        while at < text.len() {
            let next = text.get(at + 1).map_or("", String::as_str);
            if next == "(" && is_name(&text[at]) {
                let close = closing(text, at + 1);
                out.extend(self.call(&text[at], &text[at + 2..close], actuals));
                at = close + 1;
                continue;
            }
            let changed = at > 1 && matches!(text[at - 2].as_str(), "raise" | "lower" | "invert");
            match actuals.get(&text[at]) {
                Some(actual) if changed || next == ":=" || next == "[" => out.extend(actual.bare.clone()),
                Some(actual) => out.extend(actual.read.clone()),
                None => out.push(text[at].clone()),
            }
            at += 1;
        }
        out
    }

    fn call(&self, name: &str, written: &[String], actuals: &HashMap<String, Actual>) -> Text {
        let procedure = &self.procedures[name];
        let written = parted(written);
        assert_eq!(written.len(), procedure.formals.len());
        let bound = procedure.formals.iter().cloned().zip(written.iter().map(|actual| self.actual(actual, actuals)));
        self.expanded(&procedure.body, &bound.collect())
    }

    fn actual(&self, written: &[String], actuals: &HashMap<String, Actual>) -> Actual {
        let mut replaced = self.expanded(written, actuals);
        // Too long to be looked at: it is dropped in the end, or the text is not compared.
        if replaced.len() > LONGEST_ACTUAL {
            replaced = vec![TOO_LONG.to_string()];
        }
        let read = [vec!["(".to_string()], replaced.clone(), vec![")".to_string()]].concat();
        // A formal handed on stays the name that it stands for.
        match (written, actuals.get(&written[0])) {
            ([_], Some(actual)) => Actual { bare: actual.bare.clone(), read },
            _ => Actual { bare: replaced, read },
        }
    }
}

/// The program without procedures and calls, as text.
fn written_out(source: &[u8]) -> String {
    let cut = words(source).unwrap();
    let text: Text =
        cut.iter().map(|word| String::from_utf8_lossy(&source[word.start..word.end]).into_owned()).collect();
    let mut expander = Expander { procedures: HashMap::new() };
    let mut out: Text = text[..3].to_vec();
    let mut at = 3;
    loop {
        let end = match text[at].as_str() {
            "input" | "output" | "internal" | "integer" => ";",
            "procedure" => "endproc",
            _ => break,
        };
        let end = at + text[at..].iter().position(|word| word == end).unwrap();
        if text[at] == "procedure" {
            let close = closing(&text, at + 2);
            let formals = parted(&text[at + 3..close]).concat();
            let spare = usize::from(text[end - 1] == ";");
            let body = text[close + 1..end - spare].to_vec();
            expander.procedures.insert(text[at + 1].clone(), Procedure { formals, body });
            at = end + 1 + usize::from(text[end + 1] == ";");
        } else {
            out.extend_from_slice(&text[at..=end]);
            at = end + 1;
        }
    }
    out.extend(expander.expanded(&text[at..], &HashMap::new()));
    out.join(" ")
}

fn is_compared(text: &str) -> bool {
    text.len() <= LONGEST_SOURCE && !text.contains(TOO_LONG)
}

#[test]
fn the_text_written_out_means_the_same() {
    let (mut same, mut refused) = (0, 0);
    for record in gen::records_with_procedures(4).take(8_000) {
        match compile(&record.source, Lent::AMPLE) {
            Ok(compiled) => {
                let text = written_out(&record.source);
                if is_compared(&text) {
                    let other = compile(text.as_bytes(), Lent::AMPLE);
                    let other = other.unwrap_or_else(|refusal| panic!("{refusal}: {text}"));
                    assert_eq!(compiled.file, other.file, "{text}");
                    same += 1;
                }
            }
            // No call of a program that is refused with 10 or 11 is refused or passes a size.
            Err(refusal) if refusal.number >= 10 => {
                let text = written_out(&record.source);
                if is_compared(&text) {
                    let other = compile(text.as_bytes(), Lent::AMPLE).err().map(|other| other.number);
                    assert_eq!(other, Some(refusal.number), "{text}");
                    refused += 1;
                }
            }
            Err(_) => {}
        }
    }
    assert!(same > 2_000 && refused > 200, "{same} {refused}");
}
