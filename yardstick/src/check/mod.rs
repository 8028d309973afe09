//! What a grammatical text may still be refused for: refusals 6 to 10.
//!
//! All faults of the whole text are candidates. The check never stops at one; it keeps the least. What a call's expansion
//! says is one `Effect`, whose place is the call; see `calls`.

mod calls;
mod reader;

use crate::parse::LEVELS;
use crate::refusal::Refusal;
use crate::state::ACTIVITIES;
use crate::tree::{Class, Declaration, Variable};
use crate::written::{Expr, List, Name, Program, Statement, StatementKind, Symbol, Target};
use calls::{Calls, Effect};
use reader::{Actual, Bare, Reader};

/// "Inputs 6; outputs 16; non-input bits 32."
const INPUTS: u32 = 6;
const OUTPUTS: u32 = 16;
const BITS: u32 = 32;
/// "Width 1 to 16."
const WIDEST: u16 = 16;
/// "Statements 255; expression parts 1,024; delay 255."
const STATEMENTS: u32 = 255;
const PARTS: u32 = 1_024;
const DELAY: u16 = 255;

/// The least of refusals 6 to 10, if the program has any fault.
pub fn check(program: &Program) -> Result<(), Refusal> {
    let mut calls = Calls::new(program);
    let mut checker = Checker::new(Reader::new(program, &[]), &mut calls, None);
    for &place in &program.again {
        checker.reader.fault(6, place);
    }
    checker.declarations(&program.declarations);
    checker.list(&program.body);
    checker.reader.faults.least().map_or(Ok(()), Err)
}

/// Checks the main text, or one procedure's body with the actuals that its reader knows.
struct Checker<'a, 'b> {
    reader: Reader<'b>,
    calls: &'b mut Calls<'a>,
    /// The procedure whose body this is.
    inside: Option<usize>,
    /// How many statements have been met, in text order.
    statements: u32,
    /// How many loops, and how many switches and parallels, are open.
    loops: u32,
    breakable: u32,
    /// Whether an `exit` or a `break` leaves the body.
    exits: bool,
    breaks: bool,
}

impl<'a, 'b> Checker<'a, 'b> {
    fn new(reader: Reader<'b>, calls: &'b mut Calls<'a>, inside: Option<usize>) -> Self {
        Checker { reader, calls, inside, statements: 0, loops: 0, breakable: 0, exits: false, breaks: false }
    }

    /// "Declared again" is 6 and too many inputs, outputs or bits 9, all at the name; a wrong width is 9 at its number.
    fn declarations(&mut self, declarations: &[Declaration]) {
        let (mut inputs, mut outputs, mut bits) = (0, 0, 0);
        for declaration in declarations {
            match declaration.class {
                Class::Input => inputs += 1,
                Class::Output => (outputs, bits) = (outputs + 1, bits + 1),
                Class::Internal => bits += 1,
                // "Any written width counts towards the bits."
                Class::Integer { width, width_place } => {
                    bits += u32::from(width);
                    self.reader.fault_if(width == 0 || width > WIDEST, 9, width_place);
                }
            }
            self.reader.fault_if(inputs > INPUTS || outputs > OUTPUTS || bits > BITS, 9, declaration.place);
        }
    }
}

/// Statements: each says how many activities it takes, "a parallel sums its branches, other statements and lists take the
/// largest part, at least 1".
impl Checker<'_, '_> {
    fn list(&mut self, list: &List) -> usize {
        let mut activities = 1;
        for statement in list {
            // A body that has passed a size is not searched for anything else.
            if self.inside.is_some() && self.is_too_large() {
                break;
            }
            activities = activities.max(self.statement(statement));
        }
        activities
    }

    fn is_too_large(&self) -> bool {
        self.statements > STATEMENTS || self.reader.parts > PARTS
    }

    fn count(&mut self, statements: u32, place: usize) {
        self.statements += statements;
        self.reader.fault_if(self.statements > STATEMENTS, 9, place);
    }

    fn statement(&mut self, statement: &Statement) -> usize {
        let place = statement.place;
        if let StatementKind::Call { procedure, actuals } = &statement.kind {
            return self.call(place, *procedure, actuals);
        }
        self.count(1, place);
        match &statement.kind {
            StatementKind::Skip | StatementKind::Call { .. } => 1,
            StatementKind::Delay { clocks, place } => {
                self.reader.fault_if(*clocks > DELAY, 9, *place);
                1
            }
            StatementKind::Change(_, target) => {
                self.target(place, target);
                1
            }
            StatementKind::Assign(name, value) => {
                self.assignment(place, *name, value);
                1
            }
            StatementKind::Exit => {
                self.exit(place);
                1
            }
            StatementKind::Break => {
                self.break_statement(place);
                1
            }
            compound => {
                self.reader.open(1);
                let activities = self.compound(place, compound);
                self.reader.close(1);
                activities
            }
        }
    }

    fn compound(&mut self, place: usize, kind: &StatementKind) -> usize {
        match kind {
            StatementKind::If { test, then, otherwise } => {
                self.test(place, test);
                self.list(then).max(self.list(otherwise))
            }
            StatementKind::Loop { test, body } => {
                if let Some(test) = test {
                    self.test(place, test);
                }
                self.loops += 1;
                let activities = self.list(body);
                self.loops -= 1;
                activities
            }
            _ => {
                self.breakable += 1;
                let activities = self.lists(place, kind);
                self.breakable -= 1;
                activities
            }
        }
    }

    /// The lists that a `break` leaves: a switch's and a parallel's.
    fn lists(&mut self, place: usize, kind: &StatementKind) -> usize {
        match kind {
            StatementKind::Switch { cases, default } => {
                let mut activities = 1;
                for case in cases {
                    self.test(case.place, &case.test);
                    activities = activities.max(self.list(&case.body));
                }
                activities.max(self.list(default))
            }
            StatementKind::Parallel(branches) => {
                // Every parallel above eight activities is a fault, so the outermost is the place.
                let activities = branches.iter().map(|branch| self.list(branch)).sum();
                self.reader.fault_if(activities > ACTIVITIES, 9, place);
                activities
            }
            _ => 1,
        }
    }

    /// "`exit` or `break` with nothing to leave"; both pass through the other kind.
    fn exit(&mut self, place: usize) {
        if self.loops == 0 {
            self.exits = true;
            self.reader.fault_if(self.inside.is_none(), 8, place);
        }
    }

    fn break_statement(&mut self, place: usize) {
        if self.breakable == 0 {
            self.breaks = true;
            self.reader.fault_if(self.inside.is_none(), 8, place);
        }
    }

    /// A test that is no boolean is 7 at `if`, `while` or `case`.
    fn test(&mut self, place: usize, test: &Expr) {
        let kind = self.reader.expression(test);
        self.reader.fault_if(kind.is_integer(), 7, place);
    }

    /// An integer or an input is 7 at `raise`, `lower` or `invert`; what is wrong with an index, at the indexed name.
    fn target(&mut self, place: usize, target: &Target) {
        self.reader.open(1);
        self.reader.close(1);
        let (variable, bit) = match (self.reader.bare(target.name), target.bit) {
            (Bare::Name(variable), bit) => (variable, bit),
            (Bare::Bit(variable, bit), None) => (variable, Some(bit)),
            _ => (Variable::Unknown, target.bit),
        };
        self.reader.name(variable, target.place);
        match bit {
            Some(bit) => self.reader.bit(variable, bit, target.place),
            None => self.reader.fault_if(!matches!(variable, Variable::Boolean(_)), 7, place),
        }
    }

    /// Both sides of `:=` are integers, else 7 at the assigned name, where the statement begins.
    fn assignment(&mut self, place: usize, name: Name, value: &Expr) {
        let variable = match self.reader.bare(name) {
            Bare::Name(variable) => variable,
            _ => Variable::Unknown,
        };
        self.reader.name(variable, place);
        self.reader.fault_if(!matches!(variable, Variable::Integer { .. }), 7, place);
        let kind = self.reader.expression(value);
        self.reader.fault_if(!kind.is_integer(), 7, place);
    }
}

/// Calls: what is wrong with an expansion is at the call, so that inner calls hand it on to the outermost.
impl Checker<'_, '_> {
    fn call(&mut self, place: usize, procedure: Symbol, actuals: &[Expr]) -> usize {
        let Some(number) = self.calls.called(procedure, actuals.len(), self.inside) else {
            return self.refused(place);
        };
        let mut actuals: Vec<Actual> = actuals.iter().map(|actual| self.reader.actual(actual)).collect();
        if self.inside.is_none() && self.reader.faults.numbers().has(9) {
            actuals.iter_mut().for_each(|actual| *actual = actual.without_size());
        }
        if !self.calls.takes(number, &actuals) {
            return self.refused(place);
        }
        let effect = self.calls.effect(number, actuals);
        self.expanded(place, &effect);
        effect.activities
    }

    /// "Refusal 6 at the call, which isn't expanded": it counts as one statement.
    fn refused(&mut self, place: usize) -> usize {
        self.reader.fault(6, place);
        self.count(1, place);
        1
    }

    /// "Levels above 32 or sizes passed after expansion are 9 at the call; an outermost call that passes one by itself
    /// isn't searched for 6, 7, 8 or 10."
    fn expanded(&mut self, place: usize, effect: &Effect) {
        self.count(effect.statements, place);
        self.reader.parts(effect.parts, place);
        let levels = self.reader.open(effect.levels);
        self.reader.fault_if(levels > LEVELS, 9, place);
        self.reader.close(effect.levels);
        if effect.faults.has(9) {
            return self.reader.fault(9, place);
        }
        self.reader.faults(effect.faults, place);
        if effect.exits {
            self.exit(place);
        }
        if effect.breaks {
            self.break_statement(place);
        }
    }
}
