//! KISS text: the document's blink, the examples there and back, and where texts are refused.

mod common;

use common::compiled;
use yardstick::file::BLOCK;
use yardstick::kiss::{read, write};
use yardstick::refusal::Refusal;

const BLINK: &str = "program blink; input GO; output LAMP; loop if GO then invert(LAMP) endif endloop endprog";
const TEXT: &str = ".i 1\n.o 1\n.p 4\n.s 2\n.r s0\n0 s0 s0 0\n1 s0 s1 0\n0 s1 s1 1\n1 s1 s0 1\n.e\n";

fn file_of(source: &str) -> Vec<u8> {
    compiled(source).unwrap().file
}

#[test]
fn blink_is_the_document_s() {
    let file = file_of(BLINK);
    assert_eq!(write(&file, TEXT.len() as u64).unwrap(), TEXT);
    assert_eq!(read(TEXT.as_bytes(), BLOCK as u64).unwrap(), file);
}

#[test]
fn a_file_has_its_text_and_a_text_its_file() {
    for source in [
        "program p; input A, B, C; output X, Y; loop if A & B then raise(X) else if C then invert(Y) endif endif endloop endprog",
        "program p; input A; output X, Y, Z; delay 200; raise(Z) endprog",
        "program p; input A, B, C, D, E, F; output L; delay 255 endprog",
    ] {
        let file = file_of(source);
        let text = write(&file, u64::MAX).unwrap();
        assert_eq!(read(text.as_bytes(), file.len() as u64).unwrap(), file);
    }
}

#[test]
fn writing_refuses() {
    let file = file_of(BLINK);
    assert_eq!(write(&[], 0), Err(Refusal::at(21, 0)));
    assert_eq!(write(&file[..511], 0), Err(Refusal::at(21, 0)));
    for source in
        ["program p; output L; raise(L) endprog", "program p; input A; skip endprog", "program p; skip endprog"]
    {
        assert_eq!(write(&file_of(source), 0), Err(Refusal::at(15, 0)));
    }
    assert_eq!(write(&file, TEXT.len() as u64 - 1), Err(Refusal::at(12, 0)));
    assert_eq!(read(TEXT.as_bytes(), BLOCK as u64 - 1), Err(Refusal::at(12, 0)));
}

/// Each text is refused with 15 at the place where `^` stands in it.
#[test]
fn reading_refuses_at_the_first_byte_with_which_no_text_goes_on() {
    for marked in [
        "^",
        "^x",
        ".i ^",
        ".i ^0\n",
        ".i ^7\n",
        ".i 1^6\n",
        ".i 1^ \n",
        ".i 1^\r\n",
        ".i 1\n.o 1^7\n",
        ".i 1\n.o 16^",
        ".i 1\n.o 2^0\n",
        // Odd at the end, and still the beginning of an even number.
        ".i 1\n.o 1\n.p 3^\n",
        ".i 1\n.o 1\n.p 3^",
        ".i 1\n.o 1\n.p 51^3",
        ".i 1\n.o 1\n.p 51^4",
        ".i 1\n.o 1\n.p 512^0",
        ".i 1\n.o 1\n.p ^0",
        ".i 6\n.o 1\n.p 1638^5",
        // 63 is no count of rows with six inputs, 6336 is one.
        ".i 6\n.o 1\n.p 63^\n",
        ".i 6\n.o 1\n.p 6336^0",
        // The states are known by then.
        ".i 1\n.o 1\n.p 4\n.s ^4\n",
        ".i 1\n.o 1\n.p 4\n.s 2^0\n",
        ".i 1\n.o 1\n.p 4\n.s 2\n.r s^1\n",
        ".i 1\n.o 1\n.p 4\n.s 2\n.r s0\n^1 s0",
        ".i 1\n.o 1\n.p 4\n.s 2\n.r s0\n0 s^1",
        ".i 1\n.o 1\n.p 4\n.s 2\n.r s0\n0 s0 s^2",
        ".i 1\n.o 1\n.p 4\n.s 2\n.r s0\n0 s0 s0^0",
        ".i 1\n.o 1\n.p 4\n.s 2\n.r s0\n0 s0 s1^0",
        ".i 1\n.o 1\n.p 4\n.s 2\n.r s0\n0 s0 s0 ^-",
        // A state's outputs are the same in all its rows.
        ".i 1\n.o 1\n.p 4\n.s 2\n.r s0\n0 s0 s0 0\n1 s0 s1 ^1",
        ".i 1\n.o 1\n.p 2\n.s 1\n.r s0\n0 s0 s0 1\n1 s0 s0 1\n.e^",
        ".i 1\n.o 1\n.p 2\n.s 1\n.r s0\n0 s0 s0 1\n1 s0 s0 1\n.e\n^\n",
        // Twelve states: a next state may have two digits, 1 and then 0 or 1.
        ".i 1\n.o 1\n.p 24\n.s 12\n.r s0\n0 s0 s1^2",
        ".i 1\n.o 1\n.p 24\n.s 12\n.r s0\n0 s0 s11^0",
        ".i 1\n.o 1\n.p 24\n.s 12\n.r s0\n0 s0 s2^0",
        ".i 1\n.o 1\n.p 24\n.s 12\n.r s0\n0 s0 s0^1",
    ] {
        let place = marked.find('^').expect("a mark");
        let text = marked.replacen('^', "", 1);
        assert_eq!(read(text.as_bytes(), 0), Err(Refusal::at(15, place)), "{marked:?}");
    }
}
