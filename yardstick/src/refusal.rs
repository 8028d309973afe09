//! How a compile, an opening or a step says no.

use std::fmt;

/// "The lowest number wins, then the earliest place": the order of the fields is the order of refusals.
#[derive(Clone, Copy, PartialEq, Eq, PartialOrd, Ord, Debug)]
pub struct Refusal {
    /// The number in the table of refusals.
    pub number: u8,
    /// "The place is a byte offset, 0 where none is given."
    pub place: usize,
}

impl Refusal {
    /// Refusal `number` at `place`.
    pub fn at(number: u8, place: usize) -> Refusal {
        Refusal { number, place }
    }
}

impl fmt::Display for Refusal {
    fn fmt(&self, f: &mut fmt::Formatter<'_>) -> fmt::Result {
        write!(f, "refused {} at {}", self.number, self.place)
    }
}
