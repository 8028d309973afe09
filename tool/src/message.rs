//! What is said of a refusal: where, the line, the rule, and what would be right.

use crate::broken;
use crate::excerpt::Excerpt;
use crate::files::Text;
use crate::hints::{self, Hint};
use crate::paint::Paint;
use crate::refusal::Refusal;
use crate::rules;
use crate::words::word_at;

pub struct Message {
    pub refusal: Refusal,
    /// The file, with the line and column or the block.
    place: String,
    excerpt: Option<Excerpt>,
    hint: Hint,
}

impl Message {
    /// A source that was refused in a room.
    pub fn of_source(source: &Text, room: u32, refusal: Refusal) -> Message {
        let hint = hints::of_source(&source.bytes, room, refusal);
        if !(4..=10).contains(&refusal.number) {
            return Message { refusal, place: source.name.clone(), excerpt: None, hint };
        }
        let length = word_at(&source.bytes, refusal.place).len();
        let excerpt = Excerpt::of(&source.bytes, refusal.place, length);
        let place = format!("{}:{}:{}", source.name, excerpt.line, excerpt.column);
        Message { refusal, place, excerpt: Some(excerpt), hint }
    }

    /// A table file that was not opened.
    pub fn of_table(name: &str, file: &[u8], refusal: Refusal) -> Message {
        let hint = Hint::found(broken::found(file, refusal));
        Message { refusal, place: name.to_string(), excerpt: None, hint }
    }

    /// A KISS text that was not read.
    pub fn of_kiss(text: &Text, refusal: Refusal) -> Message {
        let excerpt = Excerpt::of(&text.bytes, refusal.place, 1);
        let place = format!("{}:{}:{}", text.name, excerpt.line, excerpt.column);
        Message { refusal, place, excerpt: Some(excerpt), hint: hints::kiss::hint(&text.bytes, refusal.place) }
    }

    /// A machine that has no KISS text.
    pub fn of_unwired(name: &str, inputs: usize, outputs: usize, refusal: Refusal) -> Message {
        let missing = match (inputs, outputs) {
            (0, 0) => "no inputs and no outputs",
            (0, _) => "no inputs",
            _ => "no outputs",
        };
        let hint = Hint::found(format!("the machine has {missing}"))
            .rule("a machine has a KISS text if it has inputs and outputs")
            .right("declare one input and one output at least");
        Message { refusal, place: name.to_string(), excerpt: None, hint }
    }

    /// A refusal of which no more is known.
    pub fn bare(refusal: Refusal) -> Message {
        Message { refusal, place: "the table".to_string(), excerpt: None, hint: Hint::default() }
    }

    /// All lines but the bare refusal's.
    pub fn text(&self, paint: Paint) -> String {
        let Some(rule) = rules::rule(self.refusal.number) else {
            return String::new();
        };
        let number = self.excerpt.as_ref().map_or(" ".to_string(), |excerpt| excerpt.line.to_string());
        let margin = " ".repeat(number.len());
        let head = paint.loud(&format!("error[{}]", self.refusal.number));
        let mut text = format!("{head}: {}\n{margin}{} {}\n", rule.title, paint.quiet("-->"), self.place);
        let found = &self.hint.found;
        if let Some(Excerpt { shown, marks, .. }) = &self.excerpt {
            let bar = paint.quiet("|");
            let shown = format!("{} {bar} {shown}", paint.quiet(&number));
            text += &format!("{margin} {bar}\n{}\n", shown.trim_end());
            text += &format!("{margin} {bar} {}\n", paint.loud(&format!("{marks} {found}")));
        } else if !found.is_empty() {
            text += &format!("{margin} {} {found}\n", paint.quiet("= found:"));
        }
        let said = |particular: &Option<String>, general: &str| particular.as_deref().unwrap_or(general).to_string();
        text += &format!("{margin} {} {}\n", paint.quiet("= rule:"), said(&self.hint.rule, rule.rule));
        text + &format!("{margin} {} {}\n", paint.quiet("= right:"), said(&self.hint.right, rule.right))
    }
}
