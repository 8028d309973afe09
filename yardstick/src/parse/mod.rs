//! The grammar: words to the written program, or refusal 5 at the first word that no program has there.
//!
//! A body may use what is declared after it, so names are only numbered as they are read; what is wrong with them is for
//! `check` to say.

mod expressions;
mod statements;

use std::collections::HashMap;

use crate::refusal::Refusal;
use crate::tree::{Class, Declaration, Variable};
use crate::words::{Kind, Word};
use crate::written::{Meaning, Name, Need, Procedure, Program, Symbol};

/// "Levels 32 (each open compound statement, each open `(` of any use, and each `!` with its operand is one level)."
pub const LEVELS: usize = 32;

type Parsed<T> = Result<T, Refusal>;

/// Reads the words of `source` as a program.
pub fn parse(source: &[u8], words: &[Word]) -> Parsed<Program> {
    let parser = Parser {
        source,
        words,
        at: 0,
        levels: 0,
        symbols: HashMap::new(),
        meanings: Vec::new(),
        again: Vec::new(),
        declarations: Vec::new(),
        procedures: Vec::new(),
        formals: HashMap::new(),
        needs: Vec::new(),
        in_actual: false,
        inputs: 0,
        bits: 0,
    };
    parser.program()
}

struct Parser<'a> {
    source: &'a [u8],
    words: &'a [Word],
    /// How many words have been read.
    at: usize,
    /// How many levels are open.
    levels: usize,
    symbols: HashMap<&'a [u8], Symbol>,
    meanings: Vec<Meaning>,
    again: Vec<usize>,
    declarations: Vec<Declaration>,
    procedures: Vec<Procedure>,
    /// The formals of the procedure that is being read, and what its body asks of each so far.
    formals: HashMap<&'a [u8], usize>,
    needs: Vec<Need>,
    /// Whether an actual is being read.
    in_actual: bool,
    /// How many inputs have been declared.
    inputs: u32,
    /// How many non-input bits have been declared.
    bits: u32,
}

/// The words one by one, and the levels.
impl<'a> Parser<'a> {
    fn peek(&self) -> Option<Kind> {
        self.words.get(self.at).map(|word| word.kind)
    }

    /// Refusal 5's place: "that word, or the length".
    fn place(&self) -> usize {
        self.words.get(self.at).map_or(self.source.len(), |word| word.start)
    }

    fn fail<T>(&self) -> Parsed<T> {
        Err(Refusal::at(5, self.place()))
    }

    fn take(&mut self, kind: Kind) -> bool {
        let taken = self.peek() == Some(kind);
        self.at += usize::from(taken);
        taken
    }

    fn expect(&mut self, kind: Kind) -> Parsed<()> {
        if self.take(kind) {
            Ok(())
        } else {
            self.fail()
        }
    }

    /// "Level 33 opens": refused at the word that opens it.
    fn open(&mut self, kind: Kind) -> Parsed<()> {
        if self.levels == LEVELS {
            return self.fail();
        }
        self.levels += 1;
        self.expect(kind)
    }

    fn close(&mut self, kind: Kind) -> Parsed<()> {
        self.levels -= 1;
        self.expect(kind)
    }

    fn name(&mut self) -> Parsed<&'a [u8]> {
        match self.words.get(self.at) {
            Some(Word { kind: Kind::Name, start, end }) => {
                self.at += 1;
                Ok(&self.source[*start..*end])
            }
            _ => self.fail(),
        }
    }

    fn number(&mut self) -> Parsed<u16> {
        match self.peek() {
            Some(Kind::Number(value)) => {
                self.at += 1;
                Ok(value)
            }
            _ => self.fail(),
        }
    }

    /// `[` number `]`.
    fn index(&mut self) -> Parsed<u16> {
        self.expect(Kind::OpenIndex)?;
        let number = self.number()?;
        self.expect(Kind::CloseIndex)?;
        Ok(number)
    }

    fn symbol(&mut self, name: &'a [u8]) -> Symbol {
        let fresh = self.meanings.len();
        let symbol = *self.symbols.entry(name).or_insert(fresh);
        if symbol == fresh {
            self.meanings.push(Meaning::Nothing);
        }
        symbol
    }

    /// A name that is used: a formal of this procedure before anything else.
    fn used(&mut self) -> Parsed<Name> {
        let name = self.name()?;
        match self.formals.get(name) {
            Some(&formal) => Ok(Name::Formal(formal)),
            None => Ok(Name::Symbol(self.symbol(name))),
        }
    }

    /// Notes what the body asks of a formal.
    fn needs(&mut self, name: Name, need: Need) {
        if let Name::Formal(formal) = name {
            self.needs[formal] = need.max(self.needs[formal]);
        }
    }
}

/// The program and its declarations.
impl<'a> Parser<'a> {
    /// "`program name;`, then zero or more declarations each closed by `;`, then a statement list, then `endprog`;
    /// only blanks may follow."
    fn program(mut self) -> Parsed<Program> {
        self.expect(Kind::Program)?;
        let name = text(self.name()?);
        self.expect(Kind::Semicolon)?;
        loop {
            if self.peek() == Some(Kind::Procedure) {
                self.procedure()?;
            } else if self.declaration()? {
                self.expect(Kind::Semicolon)?;
            } else {
                break;
            }
        }
        let body = self.list()?;
        self.expect(Kind::EndProg)?;
        if self.at < self.words.len() {
            return self.fail();
        }
        let Parser { declarations, procedures, meanings, again, .. } = self;
        Ok(Program { name, declarations, procedures, meanings, again, body })
    }

    /// "`procedure name(formals, if any) .. endproc` among the declarations (its `;` may be missing, as 001 prints it)."
    fn procedure(&mut self) -> Parsed<()> {
        self.expect(Kind::Procedure)?;
        let place = self.place();
        let name = self.name()?;
        self.declare(name, place, Meaning::Procedure(self.procedures.len()));
        self.open(Kind::Open)?;
        if self.peek() != Some(Kind::Close) {
            self.formal()?;
            while self.take(Kind::Comma) {
                self.formal()?;
            }
        }
        self.close(Kind::Close)?;
        let body = self.list()?;
        self.expect(Kind::EndProc)?;
        let _ = self.take(Kind::Semicolon);
        self.formals.clear();
        self.procedures.push(Procedure { formals: std::mem::take(&mut self.needs), body });
        Ok(())
    }

    /// "A formal that repeats a declared name is 6 at the formal": one declared before it, its own procedure's, or one of
    /// its own list.
    fn formal(&mut self) -> Parsed<()> {
        let place = self.place();
        let name = self.name()?;
        let declared = self.symbols.get(name).is_some_and(|&symbol| self.meanings[symbol] != Meaning::Nothing);
        if declared || self.formals.insert(name, self.needs.len()).is_some() {
            self.again.push(place);
        }
        self.needs.push(Need::Anything);
        Ok(())
    }

    /// "Declarations are `input`, `output`, `internal` and `integer`, with comma lists": one of them, if one is next.
    fn declaration(&mut self) -> Parsed<bool> {
        let item = match self.peek() {
            Some(Kind::Input) => Self::input,
            Some(Kind::Output) => Self::output,
            Some(Kind::Internal) => Self::internal,
            Some(Kind::Integer) => Self::integer,
            _ => return Ok(false),
        };
        self.at += 1;
        item(self)?;
        while self.take(Kind::Comma) {
            item(self)?;
        }
        Ok(true)
    }

    /// Inputs "are numbered by bits, first declared lowest".
    fn input(&mut self) -> Parsed<()> {
        let place = self.place();
        let name = self.name()?;
        self.ending();
        self.inputs += 1;
        self.declare_variable(name, place, Class::Input, Variable::Input(self.inputs - 1), 0);
        Ok(())
    }

    fn output(&mut self) -> Parsed<()> {
        self.boolean(Class::Output)
    }

    fn internal(&mut self) -> Parsed<()> {
        self.boolean(Class::Internal)
    }

    fn boolean(&mut self, class: Class) -> Parsed<()> {
        let place = self.place();
        let name = self.name()?;
        self.ending();
        let initial = self.take(Kind::Equals) && self.truth()?;
        let variable = Variable::Boolean(self.bits);
        self.bits += 1;
        self.declare_variable(name, place, class, variable, u16::from(initial));
        Ok(())
    }

    fn integer(&mut self) -> Parsed<()> {
        let place = self.place();
        let name = self.name()?;
        self.expect(Kind::OpenIndex)?;
        let width_place = self.place();
        let width = self.number()?;
        self.expect(Kind::CloseIndex)?;
        let initial = if self.take(Kind::Equals) { self.number()? } else { 0 };
        let variable = Variable::Integer { low: self.bits, width: u32::from(width) };
        self.bits += u32::from(width);
        self.declare_variable(name, place, Class::Integer { width, width_place }, variable, initial);
        Ok(())
    }

    /// "All work is in activity; the ending changes nothing yet."
    fn ending(&mut self) {
        let _ = self.take(Kind::High) || self.take(Kind::Low);
    }

    fn truth(&mut self) -> Parsed<bool> {
        if self.take(Kind::True) {
            return Ok(true);
        }
        self.expect(Kind::False)?;
        Ok(false)
    }

    fn declare_variable(&mut self, name: &'a [u8], place: usize, class: Class, variable: Variable, initial: u16) {
        self.declare(name, place, Meaning::Variable(variable));
        self.declarations.push(Declaration { name: text(name), place, class, variable, initial });
    }

    fn declare(&mut self, name: &'a [u8], place: usize, meaning: Meaning) {
        let symbol = self.symbol(name);
        if self.meanings[symbol] != Meaning::Nothing {
            self.again.push(place);
        }
        self.meanings[symbol] = meaning;
    }
}

/// A name's text: words are ASCII.
fn text(name: &[u8]) -> String {
    String::from_utf8_lossy(name).into_owned()
}
