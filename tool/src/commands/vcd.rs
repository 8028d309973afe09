//! `vcd TABLE|SOURCE [INPUT..]`: a run as a Value Change Dump.

use crate::arguments::Arguments;
use crate::files;
use crate::machine::Machine;
use crate::trouble::{complain, Outcome, Trouble};
use crate::walk::{self, Clock, Stand};

/// At time t stand the outputs after t clocks and the inputs of the next clock, which move the outputs at t + 1.
pub fn obey(arguments: Arguments) -> Outcome {
    let (path, inputs) = walk::split(arguments.words)?;
    let machine = Machine::read(&path)?;
    let mut dump = Dump { time: 0, values: Vec::new() };
    let mut stand = walk::start(&machine)?;
    files::print(&head(&machine))?;
    let status = walk::walk(&machine, inputs, |clock| match clock {
        Clock::Taken(input, next) => {
            dump.print(values(&machine, Some(input), stand))?;
            stand = next;
            Ok(())
        }
        Clock::Stays(words) => {
            complain(&format!("windnadel: {words}; state {} stays\n", stand.state));
            Ok(())
        }
    })?;
    // After the last clock the inputs are unknown; one more time stamp lets the last outputs be seen.
    dump.print(values(&machine, None, stand))?;
    files::print(&format!("#{}\n", dump.time))?;
    Ok(status)
}

/// The signals: inputs, outputs and the state, each with one sign of its own, from `!` on.
fn head(machine: &Machine) -> String {
    let mut signs = ('!'..='~').map(String::from);
    let mut wire = |width: usize, name: &str| {
        let sign = signs.next().unwrap_or_default();
        format!("$var wire {width} {sign} {name} $end\n")
    };
    let inputs: String = machine.inputs.iter().map(|name| wire(1, name)).collect();
    let outputs: String = machine.outputs.iter().map(|name| wire(1, name)).collect();
    let state = wire(8, "state");
    let scope = |name: &str, inside: &str| format!("$scope module {name} $end\n{inside}$upscope $end\n");
    let inside = scope("inputs", &inputs) + &scope("outputs", &outputs) + &state;
    format!("$version windnadel $end\n$timescale 1 us $end\n{}$enddefinitions $end\n", scope(&machine.name, &inside))
}

/// The values of all signals, in the order of the head.
fn values(machine: &Machine, input: Option<u32>, stand: Stand) -> Vec<String> {
    let inputs =
        (0..machine.inputs.len()).map(|bit| input.map_or("x".to_string(), |input| (input >> bit & 1).to_string()));
    let outputs = (0..machine.outputs.len()).map(|bit| (stand.outputs >> bit & 1).to_string());
    inputs.chain(outputs).chain([format!("b{:b} ", stand.state)]).collect()
}

struct Dump {
    time: u32,
    /// The values that were printed last; none before the first time.
    values: Vec<String>,
}

impl Dump {
    /// One time: all values at the first, then those that changed.
    fn print(&mut self, values: Vec<String>) -> Result<(), Trouble> {
        let first = self.values.is_empty();
        let changed = |at: usize| self.values.get(at) != values.get(at);
        let lines = values.iter().zip('!'..='~').enumerate().filter(|(at, _)| changed(*at));
        let lines: String = lines.map(|(_, (value, sign))| format!("{value}{sign}\n")).collect();
        let (open, close) = if first { ("$dumpvars\n", "$end\n") } else { ("", "") };
        files::print(&format!("#{}\n{open}{lines}{close}", self.time))?;
        self.values = values;
        self.time += 1;
        Ok(())
    }
}
