//! Expressions and names: their kinds, worst sizes, parts, levels and faults.

use super::{PARTS, WIDEST};
use crate::parse::LEVELS;
use crate::refusal::Refusal;
use crate::tree::{Operator, Variable};
use crate::written::{Expr, ExprKind, Link, Meaning, Name, Program};

/// "A size above 2,147,483,647 anywhere is refused."
const LARGEST_SIZE: u64 = 2_147_483_647;

/// The earliest place of each refusal, by its number.
#[derive(Clone, Copy, Default)]
pub struct Faults([Option<usize>; 11]);

impl Faults {
    fn add(&mut self, number: usize, place: usize) {
        self.0[number] = Some(self.0[number].map_or(place, |earliest| earliest.min(place)));
    }

    /// "The lowest number wins, then the earliest place."
    pub fn least(&self) -> Option<Refusal> {
        let found = |number: usize| self.0[number].map(|place| Refusal::at(number as u8, place));
        (0..self.0.len()).find_map(found)
    }

    /// Which numbers there are.
    pub fn numbers(&self) -> Numbers {
        Numbers((0..self.0.len()).filter(|&number| self.0[number].is_some()).fold(0, |set, number| set | 1 << number))
    }
}

/// A set of refusals by their numbers, for what has no place of its own.
#[derive(Clone, Copy, PartialEq, Eq, Hash, Debug)]
pub struct Numbers(u16);

impl Numbers {
    pub const NONE: Numbers = Numbers(0);

    pub fn has(self, number: usize) -> bool {
        self.0 >> number & 1 == 1
    }

    pub const fn with(self, number: usize) -> Numbers {
        Numbers(self.0 | 1 << number)
    }

    fn without(self, number: usize) -> Numbers {
        Numbers(self.0 & !(1 << number))
    }
}

/// "The operator alone settles its result's kind": so each expression has its kind whatever its operands are.
#[derive(Clone, Copy, PartialEq, Eq, Hash, Debug)]
pub enum Kind {
    Boolean,
    /// An integer with its worst size, which stands at one above the limit when it has passed it.
    Integer(u64),
}

impl Kind {
    pub fn is_integer(self) -> bool {
        matches!(self, Kind::Integer(_))
    }

    fn size(self) -> u64 {
        match self {
            Kind::Boolean => 0,
            Kind::Integer(size) => size,
        }
    }
}

/// What stands in the place of a formal that is changed or indexed, which "is replaced bare".
#[derive(Clone, Copy, PartialEq, Eq, Hash, Debug)]
pub enum Bare {
    /// A name, or a formal that stands for one.
    Name(Variable),
    /// A bit of one.
    Bit(Variable, u32),
    /// Neither: "`(x)` is no name".
    Other,
}

/// All that an expansion asks of an actual.
#[derive(Clone, Copy, PartialEq, Eq, Hash, Debug)]
pub struct Actual {
    pub bare: Bare,
    kind: Kind,
    /// Its parts and its levels; one above the limit stands for any more.
    parts: u32,
    levels: usize,
    /// Its faults, "none where the expansion drops it".
    faults: Numbers,
}

impl Actual {
    /// This actual handed on by a formal, which adds levels where it is read.
    pub fn handed(self, levels: usize, bare: bool) -> Actual {
        let bare = if bare { self.bare } else { Bare::Other };
        Actual { bare, levels: (self.levels + levels).min(LEVELS + 1), ..self }
    }

    /// What is left of it where a 9 stands before it: no worst size can matter.
    pub fn without_size(self) -> Actual {
        let kind = if self.kind.is_integer() { Kind::Integer(0) } else { Kind::Boolean };
        Actual { kind, faults: self.faults.without(10), ..self }
    }
}

/// Reads expressions of the main text or of a body.
pub struct Reader<'a> {
    program: &'a Program,
    /// What this body's formals stand for.
    actuals: &'a [Actual],
    pub faults: Faults,
    /// How many parts have been met, in text order.
    pub parts: u32,
    /// How many levels are open, and the most that were.
    level: usize,
    pub deepest: usize,
}

impl<'a> Reader<'a> {
    pub fn new(program: &'a Program, actuals: &'a [Actual]) -> Self {
        Reader { program, actuals, faults: Faults::default(), parts: 0, level: 0, deepest: 0 }
    }

    pub fn fault(&mut self, number: usize, place: usize) {
        self.faults.add(number, place);
    }

    pub fn fault_if(&mut self, wrong: bool, number: usize, place: usize) {
        if wrong {
            self.fault(number, place);
        }
    }

    /// The same faults, all at one place.
    pub fn faults(&mut self, numbers: Numbers, place: usize) {
        for number in (6..=10).filter(|&number| numbers.has(number)) {
            self.fault(number, place);
        }
    }

    /// Opens levels, and says how many are open now.
    pub fn open(&mut self, levels: usize) -> usize {
        self.level += levels;
        self.deepest = self.deepest.max(self.level);
        self.level
    }

    pub fn close(&mut self, levels: usize) {
        self.level -= levels;
    }

    /// "Expression parts (literals, names, operators, `int`; not a bit's number, nor a changed variable)."
    pub fn parts(&mut self, parts: u32, place: usize) {
        self.parts += parts;
        self.fault_if(self.parts > PARTS, 9, place);
    }

    /// What a name stands for where it is changed or indexed: "a variable called, or a procedure read, is 6".
    pub fn bare(&self, name: Name) -> Bare {
        match name {
            Name::Formal(formal) => self.actuals.get(formal).map_or(Bare::Other, |actual| actual.bare),
            Name::Symbol(symbol) => match self.program.meanings[symbol] {
                Meaning::Variable(variable) => Bare::Name(kind_only(variable)),
                Meaning::Nothing | Meaning::Procedure(_) => Bare::Name(Variable::Unknown),
            },
        }
    }

    /// "Unknown name."
    pub fn name(&mut self, variable: Variable, place: usize) {
        self.fault_if(variable == Variable::Unknown, 6, place);
    }

    /// "Bit outside the width": the written width counts, and what is no integer has no bits.
    pub fn bit(&mut self, variable: Variable, bit: u32, place: usize) {
        let inside = matches!(variable, Variable::Integer { width, .. } if bit < width);
        self.fault_if(!inside, 7, place);
    }

    /// An actual by itself, as the expansion will find it wherever its formal stands.
    pub fn actual(&self, actual: &Expr) -> Actual {
        let mut reader = Reader::new(self.program, self.actuals);
        let kind = reader.expression(actual);
        Actual {
            bare: self.bare_actual(actual),
            kind,
            parts: reader.parts.min(PARTS + 1),
            levels: reader.deepest.min(LEVELS + 1),
            faults: reader.faults.numbers().without(9),
        }
    }

    fn bare_actual(&self, actual: &Expr) -> Bare {
        match actual.kind {
            _ if actual.parentheses > 0 => Bare::Other,
            ExprKind::Name(name) => self.bare(name),
            ExprKind::Bit(name, bit) => match self.bare(name) {
                Bare::Name(variable) => Bare::Bit(variable, bit),
                _ => Bare::Other,
            },
            _ => Bare::Other,
        }
    }
}

/// Expressions.
impl Reader<'_> {
    pub fn expression(&mut self, expression: &Expr) -> Kind {
        self.open(expression.parentheses);
        let kind = self.expression_kind(expression);
        self.close(expression.parentheses);
        kind
    }

    fn expression_kind(&mut self, expression: &Expr) -> Kind {
        let place = expression.place;
        match &expression.kind {
            ExprKind::Row(first, links) => return self.row(first, links),
            ExprKind::Name(name) => return self.read(*name, place),
            ExprKind::Number(_) | ExprKind::Truth(_) => self.parts(1, place),
            ExprKind::Bit(name, bit) => {
                self.parts(1, place);
                match self.bare(*name) {
                    Bare::Name(variable) => {
                        self.name(variable, place);
                        self.bit(variable, *bit, place);
                    }
                    _ => self.fault(6, place),
                }
            }
            ExprKind::Int(operand) => {
                self.parts(1, place);
                self.truth(operand, place);
            }
            ExprKind::Not(operand) => {
                self.parts(1, place);
                self.open(1);
                self.truth(operand, place);
                self.close(1);
            }
        }
        kind(&expression.kind)
    }

    /// What `int` and `!` take.
    fn truth(&mut self, operand: &Expr, place: usize) {
        let kind = self.expression(operand);
        self.fault_if(kind.is_integer(), 7, place);
    }

    /// A name that is read. "Each formal replaced by the actual, as if in parentheses": one level.
    fn read(&mut self, name: Name, place: usize) -> Kind {
        if let Some(&actual) = self.actual_of(name) {
            self.parts(actual.parts, place);
            self.open(1 + actual.levels);
            self.close(1 + actual.levels);
            self.faults(actual.faults, place);
            return actual.kind;
        }
        self.parts(1, place);
        match self.bare(name) {
            Bare::Name(variable) => {
                self.name(variable, place);
                variable_kind(variable)
            }
            _ => Kind::Boolean,
        }
    }

    fn actual_of(&self, name: Name) -> Option<&Actual> {
        match name {
            Name::Formal(formal) => self.actuals.get(formal),
            Name::Symbol(_) => None,
        }
    }

    /// Operators of one binding from the left: parts in text order, kinds and sizes as the operators say.
    fn row(&mut self, first: &Expr, links: &[Link]) -> Kind {
        let mut left = self.expression(first);
        for Link { place, operator, operand } in links {
            self.parts(1, *place);
            let right = self.expression(operand);
            self.fault_if(!takes(*operator, left, right), 7, *place);
            left = result(*operator, left, right);
            self.fault_if(left.size() > LARGEST_SIZE, 10, *place);
        }
        left
    }
}

/// "Worst size: a literal its value, a w-bit variable 2^w - 1, `int` 1."
fn kind(kind: &ExprKind) -> Kind {
    match kind {
        ExprKind::Number(value) => Kind::Integer(u64::from(*value)),
        ExprKind::Int(_) => Kind::Integer(1),
        _ => Kind::Boolean,
    }
}

fn variable_kind(variable: Variable) -> Kind {
    match variable {
        Variable::Integer { width, .. } => Kind::Integer((1 << width.min(u32::from(WIDEST))) - 1),
        _ => Kind::Boolean,
    }
}

/// A variable without its place in the words of values, so that calls which differ in it alone are equal.
fn kind_only(variable: Variable) -> Variable {
    match variable {
        Variable::Unknown => Variable::Unknown,
        Variable::Input(_) => Variable::Input(0),
        Variable::Boolean(_) => Variable::Boolean(0),
        Variable::Integer { width, .. } => Variable::Integer { low: 0, width },
    }
}

/// Whether an operator takes these operands: `==` and `!=` two of one kind, `&` and `|` booleans, the others integers.
fn takes(operator: Operator, left: Kind, right: Kind) -> bool {
    match operator {
        Operator::Equal | Operator::Unequal => left.is_integer() == right.is_integer(),
        Operator::And | Operator::Or => !left.is_integer() && !right.is_integer(),
        _ => left.is_integer() && right.is_integer(),
    }
}

/// "A sum or difference the two sizes added, a product their product, `/` and `%` the left size."
fn result(operator: Operator, left: Kind, right: Kind) -> Kind {
    let size = match operator {
        Operator::Add | Operator::Subtract => left.size() + right.size(),
        Operator::Multiply => left.size() * right.size(),
        Operator::Divide | Operator::Remainder => left.size(),
        _ => return Kind::Boolean,
    };
    // A passed size stays passed, except beside a zero factor: one above the limit says as much as the size itself.
    Kind::Integer(size.min(LARGEST_SIZE + 1))
}
