//! `draw TABLE|SOURCE`: Graphviz text.

use crate::arguments::Arguments;
use crate::cubes;
use crate::files;
use crate::machine::Machine;
use crate::trouble::{Outcome, Status, Trouble};

pub fn obey(arguments: Arguments) -> Outcome {
    let machine = Machine::read(&super::only(arguments.words, "a table file or a source")?)?;
    files::print(&drawing(&machine)?)?;
    Ok(Status::Done)
}

fn drawing(machine: &Machine) -> Result<String, Trouble> {
    let mut text = format!("digraph \"{}\" {{\n", machine.name);
    text += "  node [shape=box, style=rounded, fontname=\"sans-serif\"];\n";
    text += "  edge [fontname=\"sans-serif\", fontsize=11];\n";
    text += "  start [shape=point];\n  start -> 0;\n";
    for state in 0..machine.table.states {
        let high = machine.high(machine.table.outputs_of(state)?);
        let high = if high.is_empty() { "-".to_string() } else { high.join("\\n") };
        text += &format!("  {state} [label=\"{state}\\n{high}\"];\n");
        for (target, inputs) in targets(machine, state)? {
            text += &format!("  {state} -> {target}{};\n", label(machine, &inputs));
        }
    }
    Ok(text + "}\n")
}

/// The states that follow a state, as first met, each with the inputs that lead there.
fn targets(machine: &Machine, state: u32) -> Result<Vec<(u32, Vec<u32>)>, Trouble> {
    let mut targets: Vec<(u32, Vec<u32>)> = Vec::new();
    for input in 0..machine.table.choices() {
        let next = machine.table.step(state, input)?;
        match targets.iter_mut().find(|(target, _)| *target == next) {
            Some((_, inputs)) => inputs.push(input),
            None => targets.push((next, vec![input])),
        }
    }
    Ok(targets)
}

/// The inputs as cubes, one to a line; none where every input leads there.
fn label(machine: &Machine, inputs: &[u32]) -> String {
    let cubes = cubes::cover(inputs, machine.table.inputs);
    let text: Vec<String> = cubes.into_iter().map(|cube| cube.text(&machine.inputs)).collect();
    match text.join("\\n").as_str() {
        "" => String::new(),
        text => format!(" [label=\"{text}\"]"),
    }
}
