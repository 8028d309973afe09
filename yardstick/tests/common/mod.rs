//! What the tests share.
#![allow(dead_code)]

use yardstick::listing::listing;
use yardstick::refusal::Refusal;
use yardstick::{compile, Compiled, Lent};

/// Compiles with all that a program could need.
pub fn compiled(source: &str) -> Result<Compiled, Refusal> {
    keep(source);
    compile(source.as_bytes(), Lent::AMPLE)
}

/// Keeps a source in the directory that `SOURCES` names, if it does: the proved compiler is tried on it too.
pub fn keep(source: &str) {
    if let Some(directory) = std::env::var_os("SOURCES") {
        let name = format!("{:016x}", yardstick::batch::hash(source.as_bytes()));
        std::fs::write(std::path::Path::new(&directory).join(name), source).expect("a source is kept");
    }
}

/// The rows of the listing, parted by `; `, or the refusal.
pub fn rows(source: &str) -> String {
    match compiled(source) {
        Ok(compiled) => {
            let listing = listing(&compiled.program, &compiled.table);
            listing.lines().skip(4).collect::<Vec<_>>().join("; ")
        }
        Err(refusal) => refusal.to_string(),
    }
}

/// How many states a program has, or the refusal.
pub fn states(source: &str) -> String {
    match compiled(source) {
        Ok(compiled) => format!("{} states", compiled.states()),
        Err(refusal) => refusal.to_string(),
    }
}

/// Checks that each source is refused with `number` at the place where `^` stands in it.
pub fn all_refused(number: u8, sources: &[&str]) {
    for marked in sources {
        let place = marked.find('^').expect("a mark");
        let source = marked.replacen('^', "", 1);
        assert_eq!(states(&source), Refusal::at(number, place).to_string(), "{marked}");
    }
}

/// Checks the rows of each statement list, compiled with some declarations before it.
pub fn all_rows(declarations: &str, lists: &[(&str, &str)]) {
    for (list, expected) in lists {
        assert_eq!(rows(&format!("program p; {declarations} {list} endprog")), *expected, "{list}");
    }
}

/// Checks that each source compiles.
pub fn all_compile(sources: &[&str]) {
    for source in sources {
        assert_eq!(compiled(source).err(), None, "{source}");
    }
}
