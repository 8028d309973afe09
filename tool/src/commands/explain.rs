//! `explain N`

use crate::arguments::Arguments;
use crate::files;
use crate::rules::{self, Example, Rule, NUMBERS};
use crate::safe;
use crate::trouble::{Outcome, Status, Trouble};

pub fn obey(arguments: Arguments) -> Outcome {
    let word = super::only(arguments.words, &format!("a refusal's number, {NUMBERS},"))?;
    let number = word.to_str().and_then(|word| word.parse().ok());
    let Some((number, rule)) = number.and_then(|number| Some((number, rules::rule(number)?))) else {
        return Err(Trouble::Usage(format!("{} is no refusal: they are {NUMBERS}", safe::path(&word))));
    };
    files::print(&explained(number, rule))?;
    Ok(Status::Done)
}

fn explained(number: u32, rule: &Rule) -> String {
    let Rule { title, place, rule, right, example, .. } = rule;
    let text = format!("refused {number}: {title}\n\n  rule:   {rule}\n  right:  {right}\n  place:  {place}\n");
    text + &match example {
        Example::Way(way) => format!("\nexample:\n{}", indented(way)),
        Example::Programs { refused, right } => {
            format!("\nrefused:\n{}\nright:\n{}", indented(refused), indented(right))
        }
    }
}

fn indented(text: &str) -> String {
    text.lines().map(|line| format!("  {line}\n")).collect()
}
