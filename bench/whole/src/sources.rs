//! What is compiled.

/// "Source 8,192 bytes."
const LENGTH: usize = 8_192;

/// Nothing but assigned sums, their terms in parentheses now and then.
const SUMS: &[u8] = b"program sums;
    input UP, DOWN; output FULL; integer a[8], b[8], c[8], d[4];
    parallel
      loop a := a + b - c + d - 3 + b endloop
    ||
      loop b := b - (a + c) + (d - 7) - a + 1 endloop
    ||
      loop c := c + d + d + d - a - b - (b - (c + 5)) endloop
    ||
      loop if UP then d := d + 1 else d := d - 1 endif endloop
    endparallel
    endprog";

/// Whose clocks are counted.
pub fn machines() -> [(&'static str, &'static [u8]); 4] {
    [
        ("soda", include_bytes!("../../../examples/soda.csml")),
        ("mast", include_bytes!("../../../examples/mast.csml")),
        ("blackjack", include_bytes!("../../../examples/blackjack.csml")),
        ("sums", SUMS),
    ]
}

pub fn all() -> Vec<(&'static str, Vec<u8>)> {
    let made = [
        ("soda, with procedures", include_bytes!("../../../examples/soda-procedures.csml").to_vec()),
        ("8,192 bytes", refused_late()),
        ("256 states, 64 inputs", many_states()),
    ];
    machines().map(|(name, source)| (name, source.to_vec())).into_iter().chain(made).collect()
}

/// The longest text, grammatical and sound but for its last operator, which passes the worst size.
fn refused_late() -> Vec<u8> {
    let mut text = String::from("program late; output LAMP_OF_THE_MAST; integer x[8], y[4], wide[16];\n");
    for _ in 0..110 {
        text += "  x := x + y * 3 - (x % 7);\n  invert(LAMP_OF_THE_MAST);\n";
    }
    let end = "wide := wide * 32769 endprog";
    format!("{text:<width$}{end}", width = LENGTH - end.len()).into_bytes()
}

/// A counter of 8 bits that looks at every input.
fn many_states() -> Vec<u8> {
    let text = "program counter; input A, B, C, D, E, F; output P; integer x[8];
        loop
          if A == B then x := x + 1
          else if C then x := x + int(D) * 3 + int(E) * 5 else x := x - int(F) endif
          endif
        endloop
        endprog";
    text.as_bytes().to_vec()
}
