//! The tree of an expanded program, which the clock runs: no calls, no formals, every name looked up.

use std::ops::Range;

/// "Places are places in the text", and "a place in the text includes the chain of calls that led there": the number of a
/// statement or case test, counted in the order of the expanded text.
pub type Point = u16;

/// A whole program.
#[derive(Debug)]
pub struct Program {
    /// The program's name, which clashes with nothing.
    pub name: String,
    /// All declared variables in text order.
    pub declarations: Vec<Declaration>,
    /// The statement list.
    pub body: List,
    /// Where the machine stands for ever after the last statement.
    pub end: Point,
}

/// One declared variable.
#[derive(Debug)]
pub struct Declaration {
    /// Its name.
    pub name: String,
    /// The name's place.
    pub place: usize,
    /// Which declaration it stands in.
    pub class: Class,
    /// What its name means in the program.
    pub variable: Variable,
    /// The number after `=`, `true` being 1, and 0 without an initialiser.
    pub initial: u16,
}

/// The four declarations.
#[derive(Clone, Copy, PartialEq, Eq, Debug)]
#[allow(missing_docs)]
pub enum Class {
    Input,
    Output,
    Internal,
    Integer {
        width: u16,
        /// The place of the number that gives the width.
        width_place: usize,
    },
}

/// What a name in an expression or a statement stands for.
#[derive(Clone, Copy, PartialEq, Eq, Hash, Debug)]
pub enum Variable {
    /// No declaration has this name.
    Unknown,
    /// An input, by its bit in the input's number.
    Input(u32),
    /// An output or internal, by its bit in the value word.
    Boolean(u32),
    /// An integer, by its lowest bit in the value word.
    Integer {
        /// The lowest bit.
        low: u32,
        /// The number of bits.
        width: u32,
    },
}

/// A statement list.
pub type List = Vec<Statement>;

/// A statement.
#[derive(Debug)]
pub struct Statement {
    /// Its own number first, then those of everything inside it.
    pub points: Range<Point>,
    /// The activities it may use; as long as it is one activity, the first of them.
    pub activities: Range<usize>,
    /// What it is.
    pub kind: StatementKind,
}

/// The kinds of statements.
#[derive(Debug)]
#[allow(missing_docs)]
pub enum StatementKind {
    Skip,
    Delay(u16),
    Change(Change, Target),
    Assign(Variable, Expr),
    If {
        test: Expr,
        then: List,
        otherwise: List,
    },
    /// `while E do loop` with its test, or `loop` without one.
    Loop {
        test: Option<Expr>,
        body: List,
    },
    Switch {
        cases: Vec<Case>,
        default: List,
    },
    Parallel(Vec<Branch>),
    Exit,
    Break,
}

/// `raise`, `lower` or `invert`.
#[derive(Clone, Copy, PartialEq, Eq, Debug)]
#[allow(missing_docs)]
pub enum Change {
    Raise,
    Lower,
    Invert,
}

/// What `raise`, `lower` or `invert` changes: "a boolean or an integer's bit".
#[derive(Debug)]
pub struct Target {
    /// What the name stands for.
    pub variable: Variable,
    /// The number in the brackets, if there are any.
    pub bit: Option<u32>,
}

/// One case of a switch.
#[derive(Debug)]
pub struct Case {
    /// The test's own number first, then those of the list.
    pub points: Range<Point>,
    /// The test.
    pub test: Expr,
    /// The list that runs when the test holds.
    pub body: List,
}

/// One branch of a parallel.
#[derive(Debug)]
pub struct Branch {
    /// The activities it may use, never empty.
    pub activities: Range<usize>,
    /// Its list.
    pub body: List,
}

/// An expression.
#[derive(Debug)]
#[allow(missing_docs)]
pub enum Expr {
    Number(u16),
    Truth(bool),
    Name(Variable),
    Bit(Variable, u32),
    Int(Box<Expr>),
    Not(Box<Expr>),
    /// Operators of one binding in a row, which "group from the left". A row keeps the tree no deeper than its levels.
    Row(Box<Expr>, Vec<Link>),
}

/// An operator in a row and its right operand.
#[derive(Debug)]
pub struct Link {
    /// The operator.
    pub operator: Operator,
    /// The right operand.
    pub operand: Expr,
}

/// The binary operators.
#[derive(Clone, Copy, PartialEq, Eq, Debug)]
#[allow(missing_docs)]
pub enum Operator {
    Equal,
    Unequal,
    Greater,
    Less,
    And,
    Or,
    Add,
    Subtract,
    Multiply,
    Divide,
    Remainder,
}
