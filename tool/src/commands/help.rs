//! What `--help` says.

pub const ALL: &str = "\
usage: windnadel COMMAND ..

  compile SOURCE [-o FILE] [--room N]   write the table file
  check SOURCE                          say what is refused, and nothing else
  list SOURCE                           print the table as text
  run TABLE|SOURCE [INPUT..]            step it, one clock for each input
  vcd TABLE|SOURCE [INPUT..]            the same run, for a waveform viewer
  draw TABLE|SOURCE                     the states as a Graphviz drawing
  open TABLE                            is the table file sound? its sizes
  kiss TABLE|SOURCE [-o FILE]           the table as KISS2 text, for makers of logic
  unkiss TEXT -o TABLE                  such a text back into its table file
  explain N                             refusal N in plain words
  COMMAND --help                        more about a command

`-` as SOURCE, TABLE or TEXT is standard input.
Exit status: 0 done; 1 refused; 2 bad usage, or a file that can't be read or written.
";

pub const COMPILE: &str = "\
usage: windnadel compile SOURCE [-o FILE] [--room N]

Compiles a source of at most 8,192 bytes into a table file. The file is written whole or not
at all: a file that was there before stays as it was until the new one is complete.

  -o FILE     the table file; else the source's name, ending in .table
  --room N    how many states the table may have, 1 to 256; else 256

Prints one line: states, blocks and bytes.
";

pub const CHECK: &str = "\
usage: windnadel check SOURCE

Compiles a source with room 256 and writes nothing. Prints nothing where it compiles; else the
message, and status 1.
";

pub const LIST: &str = "\
usage: windnadel list SOURCE

Prints the table of a source: the machine's name, its inputs, its outputs, how many states; then
a row for each state: its number, its output bits in declared order, and the next state for each
input, 0 first. For a refused source it prints `refused N at P`, with the message on standard
error, and status 1.
";

pub const RUN: &str = "\
usage: windnadel run TABLE|SOURCE [INPUT..]

Steps a machine from its start, one clock for each INPUT; without any, one for each line of
standard input. An INPUT is
  a number      by bits: the first declared input is bit 0
  names         those of the high inputs, parted by + or blanks: FROST+METER, 'FROST METER'
  -             none is high
Prints a header, then a row for the start and one for each clock: its inputs, and the outputs
and state after it. A table file has no names: its inputs are i0, i1, .. and its outputs o0, o1, ..
An input that is refused, or is none, is told; the run goes on from the same state, and the exit
status is 1, or 2, at the end.

A file is a table file if its name ends in .table or its first byte is zero, else a source.
";

pub const VCD: &str = "\
usage: windnadel vcd TABLE|SOURCE [INPUT..]

Steps a machine as `run` does and prints a Value Change Dump, which waveform viewers read. A
clock is 1 us. At each time stand the outputs and the state, and the inputs of the clock that
begins then. An input that is refused is told on standard error, and no time passes for it.
";

pub const DRAW: &str = "\
usage: windnadel draw TABLE|SOURCE

Prints Graphviz text: a box for each state with its number and its high outputs, an arrow to
each state that follows, with the inputs that lead there: `FIRE=1 METER=0` is every input with
FIRE high and METER low. For a picture:

  windnadel draw SOURCE | dot -Tsvg > picture.svg
";

pub const OPEN: &str = "\
usage: windnadel open TABLE

Opens a table file as firmware does. Prints its sizes; or what is broken and where, and status 1.
";

pub const KISS: &str = "\
usage: windnadel kiss TABLE|SOURCE [-o FILE]

Prints the table as Berkeley KISS2 text, or writes it to FILE, whole or not at all. A row is the
inputs, the state, the next state and the state's outputs; the first declared bit is leftmost. A
machine without inputs or without outputs has no such text: refusal 15.

  -o FILE     the text's file; else it is printed
";

pub const UNKISS: &str = "\
usage: windnadel unkiss TEXT -o TABLE

Reads a text as `kiss` writes it, byte for byte, and writes the table file that it is the text of,
whole or not at all. All else is refused with 15, at the first byte with which no such text goes on.

  -o TABLE    the table file

Prints one line: states, blocks and bytes.
";

pub const EXPLAIN: &str = "\
usage: windnadel explain N

Says in plain words what refusal N (1 to 12, 14, 15, and 21 to 24) means, what would be right,
and gives an example.
";
