//! A program as it is written: names not yet looked up in their callers, calls not yet expanded, every word's place kept.

use crate::tree::{Change, Declaration, Operator, Variable};

/// A whole program.
#[derive(Debug)]
pub struct Program {
    /// The program's name, which clashes with nothing.
    pub name: String,
    /// All declared variables in text order.
    pub declarations: Vec<Declaration>,
    /// All procedures in text order.
    pub procedures: Vec<Procedure>,
    /// What each name stands for, by its symbol.
    pub meanings: Vec<Meaning>,
    /// The places of names, formals too, that were declared before.
    pub again: Vec<usize>,
    /// The statement list.
    pub body: List,
}

/// "`procedure name(formals, if any) .. endproc`."
#[derive(Debug)]
pub struct Procedure {
    /// What the body asks of the actual for each formal.
    pub formals: Vec<Need>,
    /// The statement list.
    pub body: List,
}

/// What a body asks of an actual: "where one is changed or indexed, that isn't a name (or a bit, if raised, lowered or
/// inverted)" is refused.
#[derive(Clone, Copy, PartialEq, Eq, PartialOrd, Ord, Debug)]
pub enum Need {
    /// Nothing: the formal is only read, handed on or dropped.
    Anything,
    /// The formal is raised, lowered or inverted.
    NameOrBit,
    /// The formal is assigned or indexed.
    Name,
}

/// The number of a name, by its first use or declaration.
pub type Symbol = usize;

/// What a name stands for: "One name space" for variables and procedures.
#[derive(Clone, Copy, PartialEq, Eq, Debug)]
pub enum Meaning {
    /// Nothing has this name.
    Nothing,
    /// A variable.
    Variable(Variable),
    /// A procedure, by its number in text order.
    Procedure(usize),
}

/// A name in an expression or a statement.
#[derive(Clone, Copy, PartialEq, Eq, Debug)]
pub enum Name {
    /// A formal of the procedure in whose body it stands.
    Formal(usize),
    /// Any other name.
    Symbol(Symbol),
}

/// A statement list.
pub type List = Vec<Statement>;

/// A statement.
#[derive(Debug)]
pub struct Statement {
    /// The offset of its first word.
    pub place: usize,
    /// What it is.
    pub kind: StatementKind,
}

/// The kinds of statements.
#[derive(Debug)]
#[allow(missing_docs)]
pub enum StatementKind {
    Skip,
    Delay {
        clocks: u16,
        place: usize,
    },
    Change(Change, Target),
    Assign(Name, Expr),
    If {
        test: Expr,
        then: List,
        otherwise: List,
    },
    /// `while E do loop` with its test, or `loop` without one.
    Loop {
        test: Option<Expr>,
        body: List,
    },
    Switch {
        cases: Vec<Case>,
        default: List,
    },
    Parallel(Vec<List>),
    Exit,
    Break,
    Call {
        procedure: Symbol,
        actuals: Vec<Expr>,
    },
}

/// What `raise`, `lower` or `invert` changes: "a boolean or an integer's bit".
#[derive(Debug)]
pub struct Target {
    /// The name's place.
    pub place: usize,
    /// The name.
    pub name: Name,
    /// The number in the brackets, if there are any.
    pub bit: Option<u32>,
}

/// One case of a switch.
#[derive(Debug)]
pub struct Case {
    /// The place of the word `case`.
    pub place: usize,
    /// The test.
    pub test: Expr,
    /// The list that runs when the test holds.
    pub body: List,
}

/// An expression.
#[derive(Debug)]
pub struct Expr {
    /// The offset of its first word, parentheses aside.
    pub place: usize,
    /// How many parentheses stand around it, those of `int` among them.
    pub parentheses: usize,
    /// What it is.
    pub kind: ExprKind,
}

/// The kinds of expressions.
#[derive(Debug)]
#[allow(missing_docs)]
pub enum ExprKind {
    Number(u16),
    Truth(bool),
    Name(Name),
    Bit(Name, u32),
    Int(Box<Expr>),
    Not(Box<Expr>),
    /// Operators of one binding in a row, which "group from the left". A row keeps the tree no deeper than its levels.
    Row(Box<Expr>, Vec<Link>),
}

/// An operator in a row and its right operand.
#[derive(Debug)]
pub struct Link {
    /// The operator's place.
    pub place: usize,
    /// The operator.
    pub operator: Operator,
    /// The right operand.
    pub operand: Expr,
}
