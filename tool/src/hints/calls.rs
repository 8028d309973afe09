//! Refusals 6 to 10 at a call: of the call itself, or of the body that it stands for. It looks at the words of that one body.

use super::names::nearest;
use super::{quoted, Around, Hint};
use crate::count::count;
use crate::names::{Names, Procedure};
use crate::words::may_name;

const EXPANDED: &str =
    "a call stands for its body with the actuals in place of the formals, and what is wrong there is told \
                        at the call";
const FITTING: &str =
    "a call has as many actuals as its procedure has formals, and names where a formal is changed or indexed";
const SIZES: &str =
    "once calls are expanded, a program has at most 255 statements, 1,024 parts of expressions, 32 levels and 8 \
                     activities at once, and a delay is at most 255";

const LONGEST_SHOWN: usize = 40;

/// What is said of a refusal at a call in the program's own list; nothing where the place is none.
pub fn hint(source: &[u8], number: u32, place: usize) -> Option<Hint> {
    if !(6..=10).contains(&number) {
        return None;
    }
    let names = Names::of(source);
    let around = Around::of(source, place).filter(|around| place >= names.statements && around.is_call())?;
    let name = quoted(around.word);
    Some(match number {
        6 => unknown(&names, around.word, &actuals(source, place)),
        7 => Hint::found(format!("a wrong kind in the body of {name}, with these actuals"))
            .rule(EXPANDED)
            .right("actuals of the kinds that the body asks for, or another body"),
        8 => Hint::found(format!("an `exit` or `break` in the body of {name} has nothing to leave here"))
            .rule(EXPANDED)
            .right("a loop, or a switch or parallel, around the call or in the body"),
        9 => Hint::found(format!("with the body of {name} a size is passed")).rule(SIZES),
        _ => Hint::found(format!("a number in the body of {name} could pass 2,147,483,647")).rule(EXPANDED),
    })
}

/// Words of the text, or others where those are many.
fn shown(words: &str, otherwise: &str) -> String {
    if words.len() <= LONGEST_SHOWN {
        quoted(words.as_bytes())
    } else {
        otherwise.to_string()
    }
}

/// Without the blanks beside brackets.
fn tight(words: &str) -> String {
    words.replace("( ", "(").replace(" )", ")").replace(" [ ", "[").replace(" ]", "]")
}

/// The words of each actual of the call at this place.
fn actuals(source: &[u8], place: usize) -> Vec<Vec<String>> {
    let mut actuals = Vec::new();
    let mut actual = Vec::new();
    let mut depth = 0;
    for around in Around::all(source).skip_while(|around| around.at <= place) {
        let word = String::from_utf8_lossy(around.word).into_owned();
        match word.as_str() {
            "(" => depth += 1,
            ")" => depth -= 1,
            _ => {}
        }
        match (depth, word.as_str()) {
            (0, _) => break,
            (1, ",") => actuals.push(std::mem::take(&mut actual)),
            (1, "(") => {}
            _ => actual.push(word),
        }
    }
    if !actual.is_empty() {
        actuals.push(actual);
    }
    actuals
}

/// Refusal 6: no such procedure, other actuals, or something unknown in the body.
fn unknown(names: &Names, called: &[u8], actuals: &[Vec<String>]) -> Hint {
    let name = quoted(called);
    let Some(number) = names.procedures.iter().rposition(|one| one.name.as_bytes() == called) else {
        return no_procedure(names, called);
    };
    let procedure = &names.procedures[number];
    let formals = procedure.formals.len();
    if formals != actuals.len() {
        let given = count(actuals.len(), "actual");
        return Hint::found(format!("{name} has {} and is given {given}", count(formals, "formal")))
            .rule(FITTING)
            .right(shown(
                &format!("{}({})", procedure.name, procedure.formals.join(", ")),
                "as many actuals as formals",
            ));
    }
    if let Some(hint) = not_fitting(procedure, actuals) {
        return hint;
    }
    let used = |formal: &String| procedure.body.contains(formal);
    let written = procedure.formals.iter().zip(actuals).filter(|(formal, _)| used(formal));
    let in_actuals = written.map(|(_, actual)| actual).find_map(|actual| stranger(names, 0, &[], actual));
    match in_actuals.or_else(|| stranger(names, number, &procedure.formals, &procedure.body)) {
        Some(stranger) => Hint::found(format!("{name} stands for a use of `{stranger}`, which is not known there"))
            .rule("a body uses its formals, declared names, and procedures declared before its own")
            .right(format!("declare `{stranger}`, or another name")),
        None => Hint::found(format!("the body of {name} has a call that can't be expanded, or an unknown name"))
            .rule(EXPANDED)
            .right("in the body, calls of procedures declared before it, with actuals that fit"),
    }
}

fn no_procedure(names: &Names, called: &[u8]) -> Hint {
    let name = quoted(called);
    let found = if names.class(called).is_some() { "is no procedure" } else { "is not declared" };
    let right = match nearest(names.procedures.iter().map(|one| one.name.as_str()), called) {
        Some(near) => format!("`{near}`, perhaps, which is declared"),
        None => "`procedure .. endproc`, among the declarations".to_string(),
    };
    Hint::found(format!("{name} {found}")).rule("a call names a procedure").right(right)
}

/// An actual that is no name, for a formal that the body's own statements change or index.
fn not_fitting(procedure: &Procedure, actuals: &[Vec<String>]) -> Option<Hint> {
    let own = without_calls(&procedure.body);
    procedure.formals.iter().zip(actuals).find_map(|(formal, actual)| {
        let uses = || own.iter().enumerate().filter(|(_, word)| **word == formal).map(|(at, _)| at);
        let next = |at: usize| own.get(at + 1).map_or("", |word| word.as_str());
        let whole = uses().any(|at| matches!(next(at), ":=" | "["));
        let changed = uses().any(|at| at > 1 && matches!(own[at - 2].as_str(), "raise" | "lower" | "invert"));
        let is_name = actual.len() == 1 && may_name(actual[0].as_bytes());
        let is_bit = actual.len() == 4 && may_name(actual[0].as_bytes()) && actual[1] == "[";
        let (use_of, right) = match (whole && !is_name, changed && !is_name && !is_bit) {
            (true, _) => ("assigned or indexed", "a name"),
            (_, true) => ("changed", "a name, or a bit as `x[0]`"),
            _ => return None,
        };
        let shown = shown(&tight(&actual.join(" ")), "its actual");
        Some(
            Hint::found(format!("`{formal}` is {use_of} in the body, and {shown} is no name"))
                .rule(FITTING)
                .right(right),
        )
    })
}

/// A body without what stands in the parentheses of its calls.
fn without_calls(body: &[String]) -> Vec<&String> {
    let mut kept = Vec::new();
    let mut depth = 0;
    for (at, word) in body.iter().enumerate() {
        let calls = word == "(" && at > 0 && may_name(body[at - 1].as_bytes());
        depth += usize::from(word == "(" && (depth > 0 || calls));
        if depth == 0 {
            kept.push(word);
        }
        depth -= usize::from(word == ")" && depth > 0);
    }
    kept
}

/// A name that is neither declared nor a formal, or a call of no procedure before number `seen`.
fn stranger<'a>(names: &Names, seen: usize, formals: &[String], words: &'a [String]) -> Option<&'a str> {
    let known = |at: usize| {
        let word = words[at].as_str();
        if words.get(at + 1).is_some_and(|next| next == "(") {
            names.procedures[..seen].iter().any(|one| one.name == word)
        } else {
            formals.iter().any(|formal| formal == word) || names.class(word.as_bytes()).is_some()
        }
    };
    let at = (0..words.len()).find(|&at| may_name(words[at].as_bytes()) && !known(at))?;
    Some(&words[at])
}
