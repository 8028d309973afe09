//! The refusals in plain words, for messages and for `explain`.

pub struct Rule {
    pub number: u32,
    pub title: &'static str,
    /// What the place of the refusal is.
    pub place: &'static str,
    pub rule: &'static str,
    /// What would be right, where nothing nearer to the case is known.
    pub right: &'static str,
    pub example: Example,
}

pub enum Example {
    /// A program that is refused, and one that is not.
    Programs { refused: &'static str, right: &'static str },
    /// A way to meet the refusal that is no program.
    Way(&'static str),
}

/// Which numbers there are, for messages.
pub const NUMBERS: &str = "1 to 12, 14, 15, and 21 to 24";

/// The rule with this number.
pub fn rule(number: u32) -> Option<&'static Rule> {
    RULES.iter().find(|rule| rule.number == number)
}

const RULES: [Rule; 18] = [
    Rule {
        number: 1,
        title: "no such room",
        place: "0",
        rule: "the room, which is how many states a table may have, is 1 to 256",
        right: "--room takes a number from 1 to 256; without it the room is 256",
        example: Example::Way("windnadel compile blink.csml --room 0"),
    },
    Rule {
        number: 2,
        title: "the work area is short",
        place: "0",
        rule: "a compile needs a work area of 32,768 + 64 * room bytes",
        right: "lend 49,152 bytes, enough for every room; the tool always does, so only a C program meets this",
        example: Example::Way("windnadel_compile(source, length, 1, work, 32768, file, 34304), which needs 32,832"),
    },
    Rule {
        number: 3,
        title: "the source is too long",
        place: "0",
        rule: "a source has at most 8,192 bytes, blanks included",
        right: "take out blanks, shorten names, or make two machines of it",
        example: Example::Way("a source of 8,193 bytes, whatever they are"),
    },
    Rule {
        number: 4,
        title: "no word starts here, or a word is too large",
        place: "that byte, or the first byte of the word",
        rule: "a program is made of names (a letter first, at most 16 bytes), numbers up to 65,535, the language's signs and \
               blanks",
        right: "take it out; there are no comments in the language yet",
        example: Example::Programs {
            refused: "program p; output LAMP; raise(LAMP) # on\nendprog",
            right: "program p; output LAMP; raise(LAMP)\nendprog",
        },
    },
    Rule {
        number: 5,
        title: "no program goes on so",
        place: "the word, or the length of the text where it ends too early",
        rule: "a program goes on as the grammar says, and no more than 32 levels stand open at once",
        right: "`windnadel check` says what could stand at the place",
        example: Example::Programs {
            refused: "program p; output LAMP; raise LAMP endprog",
            right: "program p; output LAMP; raise(LAMP) endprog",
        },
    },
    Rule {
        number: 6,
        title: "a name is unknown or declared again, or a call can't be expanded",
        place: "the name, of a call too; the call in the program's own list, for all that it stands for",
        rule: "a name is declared once, before the statements; upper and lower case are different; a call names a procedure \
               declared before it, with an actual for each formal, a name where the formal is changed or indexed",
        right: "declare it once, before the first statement; a procedure before the bodies that call it",
        example: Example::Programs {
            refused: "program p; integer sum[8]; sum := sum-5 endprog",
            right: "program p; integer sum[8]; sum := sum - 5 endprog",
        },
    },
    Rule {
        number: 7,
        title: "a wrong kind, a changed input, or a bit outside its integer",
        place: "the operator, `int`, `if`, `while` or `case`; `raise`, `lower` or `invert`; the assigned or indexed name; the \
                call, for what it stands for",
        rule: "operators and statements take booleans or integers, each its own kind; inputs are never changed; a bit's \
               number is below its integer's width",
        right: "`int(..)` makes a number of a boolean, a comparison makes a boolean of two numbers",
        example: Example::Programs {
            refused: "program p; integer x[4]; if 10 < x < 14 then skip endif endprog",
            right: "program p; integer x[4]; if x > 10 & x < 14 then skip endif endprog",
        },
    },
    Rule {
        number: 8,
        title: "nothing to leave",
        place: "the word `exit` or `break`; the call, where that stands in its body",
        rule: "`exit` leaves the smallest loop around it, `break` the smallest switch or parallel, and there must be one",
        right: "put a loop, or a switch or parallel, around it",
        example: Example::Programs {
            refused: "program p; input GO; if GO then exit endif; skip endprog",
            right: "program p; input GO; loop if GO then exit endif endloop; skip endprog",
        },
    },
    Rule {
        number: 9,
        title: "a size is passed",
        place: "the first name, number, statement or part too many; the `parallel` with too many activities; the call with \
                whose body a size is passed",
        rule: "at most 6 inputs, 16 outputs, 32 bits that are no inputs, 255 statements, 1,024 parts of expressions, a delay \
               of 255 and 8 activities at once, calls expanded, and then 32 levels too; widths are 1 to 16",
        right: "do with less, or make two machines of it",
        example: Example::Programs {
            refused: "program p; integer x[17]; x := 1 endprog",
            right: "program p; integer x[16]; x := 1 endprog",
        },
    },
    Rule {
        number: 10,
        title: "a number could grow too large",
        place: "the operator; the call, where that stands in its body",
        rule: "no operator's result may be able to pass 2,147,483,647, reckoned from the widths and numbers in it",
        right: "take narrower integers or smaller numbers, or do it in two assignments",
        example: Example::Programs {
            refused: "program p; integer x[16]; x := x * 40000 endprog",
            right: "program p; integer x[16]; x := x * 30000 endprog",
        },
    },
    Rule {
        number: 11,
        title: "too many states",
        place: "0",
        rule: "no more states may be reachable than the room has",
        right: "fewer or narrower variables, shorter delays, or fewer activities at once make fewer states",
        example: Example::Programs {
            refused: "program p; integer x[9]; loop x := x + 1 endloop endprog",
            right: "program p; integer x[8]; loop x := x + 1 endloop endprog",
        },
    },
    Rule {
        number: 12,
        title: "the file buffer is short",
        place: "0",
        rule: "the whole table file, or KISS text, must fit into the buffer that is lent for it",
        right: "lend 34,304 bytes, enough for every table, or 557,092, enough for every KISS text; the tool always does, so \
                only a C program meets this",
        example: Example::Way("windnadel_compile(source, length, 256, work, 49152, file, 511)"),
    },
    Rule {
        number: 14,
        title: "no such state or input",
        place: "0",
        rule: "a step takes a state of the table, and an input below 2 to the number of its inputs",
        right: "the run goes on from the same state: give an input that the table has",
        example: Example::Way("windnadel run blink.csml 2, which has one input: 0 and 1 are all there is"),
    },
    Rule {
        number: 15,
        title: "no table has such a KISS text",
        place: "the first byte with which no such text goes on, or the length of a text that stops early; 0 when writing",
        rule: "a KISS text is what `kiss` writes, byte for byte, and a machine has one if it has inputs and outputs",
        right: "write the text by `kiss` again, or say it as `kiss` would",
        example: Example::Way("windnadel unkiss of a text that begins with `.i 7`: there are at most 6 inputs"),
    },
    Rule {
        number: 21,
        title: "the table file has a bad length",
        place: "0",
        rule: "a table file is 1 to 67 whole blocks of 512 bytes",
        right: "copy the file again, whole",
        example: Example::Way("windnadel open of a file of 511 bytes"),
    },
    Rule {
        number: 22,
        title: "a block of the table file has a wrong number or total",
        place: "the position of the block, counted from 0",
        rule: "a block says its own number, counted from 0, and how many blocks there are",
        right: "copy the file again, with every block once and in order",
        example: Example::Way("windnadel open of the first block of a file of two, alone"),
    },
    Rule {
        number: 23,
        title: "a block of the table file does not match its check",
        place: "the position of the block, counted from 0",
        rule: "a block ends with the CRC-32 of the 508 bytes before it",
        right: "copy the file again",
        example: Example::Way("windnadel open of a file of which one bit has changed"),
    },
    Rule {
        number: 24,
        title: "the table file holds no sound table",
        place: "0",
        rule: "the blocks hold one table: sizes in their range, as many blocks as these call for, no output that is not \
               declared, no next state that there is not, and zeros behind",
        right: "compile the source again",
        example: Example::Way("windnadel open of a file whose blocks are right, and which says that it has no states"),
    },
];
