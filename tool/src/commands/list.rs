//! `list SOURCE`

use crate::arguments::Arguments;
use crate::files;
use crate::machine::Machine;
use crate::paint::Paint;
use crate::trouble::{complain, Outcome, Status, Trouble};

/// The listing, or the bare refusal in its stead, as the document has it; the rest of a message is beside it.
pub fn obey(arguments: Arguments) -> Outcome {
    let source = files::source(&super::only(arguments.words, "a source")?)?;
    match Machine::of_source(&source) {
        Ok(machine) => {
            files::print(&listing(&machine)?)?;
            Ok(Status::Done)
        }
        Err(Trouble::Refused(message)) => {
            complain(&message.text(Paint::for_errors()));
            files::print(&format!("{}\n", message.refusal))?;
            Ok(Status::Refused)
        }
        Err(other) => Err(other),
    }
}

/// "Single blanks, each line ended by LF. A row is state, output bits in declared order, next states. Missing names or
/// bits are one `-`."
fn listing(machine: &Machine) -> Result<String, Trouble> {
    let table = &machine.table;
    let mut text = format!("machine {}\n", machine.name);
    text += &format!("inputs {}\noutputs {}\n", or_dash(&machine.inputs), or_dash(&machine.outputs));
    text += &format!("states {}\n", table.states);
    for state in 0..table.states {
        let outputs = table.outputs_of(state)?;
        let bits: Vec<String> = (0..table.outputs).map(|bit| (outputs >> bit & 1).to_string()).collect();
        text += &format!("{state} {}", or_dash(&bits));
        for input in 0..table.choices() {
            text += &format!(" {}", table.step(state, input)?);
        }
        text.push('\n');
    }
    Ok(text)
}

fn or_dash(words: &[String]) -> String {
    if words.is_empty() {
        "-".to_string()
    } else {
        words.join(" ")
    }
}
