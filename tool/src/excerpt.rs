//! The line of a text around a place, fit to be shown: cut where it is long, with the word underlined.

use crate::safe;

/// Columns of text that are shown, and how many of them stand before the place in a line that is cut.
const WIDTH: usize = 76;
const BEFORE: usize = 30;
const CUT: &str = "...";

pub struct Excerpt {
    /// Both counted from 1; a column is a byte.
    pub line: usize,
    pub column: usize,
    pub shown: String,
    /// Blanks, then a mark under each column of the word.
    pub marks: String,
}

impl Excerpt {
    /// The line of `source` that holds byte `place`, with `length` bytes from there on marked, one at least.
    pub fn of(source: &[u8], place: usize, length: usize) -> Excerpt {
        let start = source[..place].iter().rposition(|&byte| byte == b'\n').map_or(0, |at| at + 1);
        let end = source[place..].iter().position(|&byte| byte == b'\n').map_or(source.len(), |at| place + at);
        let line = source[start..end].strip_suffix(b"\r").unwrap_or(&source[start..end]);
        let cells: Vec<String> = line.iter().map(|&byte| safe::byte(byte)).collect();
        let at = (place - start).min(cells.len());
        let (from, to) = window(&cells, at);
        let marked = &cells[at..(at + length).min(to)];
        let head = if from > 0 { CUT } else { "" };
        let tail = if to < cells.len() { CUT } else { "" };
        Excerpt {
            line: source[..place].iter().filter(|&&byte| byte == b'\n').count() + 1,
            column: place - start + 1,
            shown: format!("{head}{}{tail}", cells[from..to].concat()),
            marks: " ".repeat(head.len() + width(&cells[from..at])) + &"^".repeat(width(marked).max(1)),
        }
    }
}

fn width(cells: &[String]) -> usize {
    cells.iter().map(String::len).sum()
}

/// The cells to show, by their numbers: all if they fit, else some before the place and as many after it as fit.
fn window(cells: &[String], at: usize) -> (usize, usize) {
    if width(cells) <= WIDTH {
        return (0, cells.len());
    }
    let mut from = at;
    while from > 0 && width(&cells[from - 1..at]) <= BEFORE {
        from -= 1;
    }
    let mut to = at;
    while to < cells.len() && width(&cells[from..to + 1]) <= WIDTH {
        to += 1;
    }
    (from, to)
}

#[cfg(test)]
mod tests {
    use super::{Excerpt, WIDTH};

    #[test]
    fn a_place_is_a_line_and_a_column_in_bytes() {
        let found = Excerpt::of(b"one\n\ttwo three\r\nfour", 9, 5);
        assert_eq!((found.line, found.column), (2, 6));
        assert_eq!((found.shown.as_str(), found.marks.as_str()), (" two three", "     ^^^^^"));
    }

    #[test]
    fn the_end_of_a_text_has_a_mark_too() {
        let found = Excerpt::of(b"one\n", 4, 0);
        assert_eq!((found.line, found.column), (2, 1));
        assert_eq!((found.shown.as_str(), found.marks.as_str()), ("", "^"));
    }

    #[test]
    fn bytes_that_are_not_printable_are_marked_in_full() {
        let found = Excerpt::of(b"a\x1b[31m\xff", 6, 1);
        assert_eq!(found.shown, "a\\x1b[31m\\xff");
        assert_eq!(found.marks, "         ^^^^");
    }

    #[test]
    fn a_long_line_is_cut_around_the_place() {
        let found = Excerpt::of(&[b'a'; 8_000], 4_000, 8_000);
        assert!(found.shown.len() <= WIDTH + 6 && found.shown.starts_with("...") && found.shown.ends_with("..."));
        assert_eq!(found.marks.find('^'), Some(33));
        assert_eq!(found.marks.len() + 3, found.shown.len());
        let none_fits = Excerpt::of(&[0; 8_000], 4_000, 1);
        assert!(none_fits.shown.len() <= WIDTH + 6);
    }
}
