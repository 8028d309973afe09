//! The listing: the table as text.

use crate::search::Table;
use crate::tree::{Class, Program};

/// "Single blanks, each line ended by LF. A row is state, output bits in declared order, next states. Missing names or
/// bits are one `-`."
pub fn listing(program: &Program, table: &Table) -> String {
    let mut text = format!(
        "machine {}\ninputs {}\noutputs {}\nstates {}\n",
        program.name,
        names(program, Class::Input),
        names(program, Class::Output),
        table.rows.len()
    );
    for (state, row) in table.rows.iter().enumerate() {
        let bits = (0..table.outputs).map(|bit| (row.outputs >> bit & 1).to_string());
        let next: Vec<String> = row.next.iter().map(u16::to_string).collect();
        text += &format!("{state} {} {}\n", or_dash(bits.collect()), next.join(" "));
    }
    text
}

fn names(program: &Program, class: Class) -> String {
    let declared = program.declarations.iter().filter(|declaration| declaration.class == class);
    or_dash(declared.map(|declaration| declaration.name.clone()).collect())
}

fn or_dash(words: Vec<String>) -> String {
    if words.is_empty() {
        "-".to_string()
    } else {
        words.join(" ")
    }
}
