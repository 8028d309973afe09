//! The value of an expression.

use crate::tree::{Expr, Operator, Variable};

/// "All reads in a clock see the values at its start and the clock's inputs."
#[derive(Clone, Copy)]
pub struct Reads {
    /// The value word at the clock's start.
    pub word: u32,
    /// The clock's inputs, first declared lowest.
    pub input: u32,
}

impl Reads {
    /// Whether a boolean is true.
    pub fn truth(&self, expression: &Expr) -> bool {
        self.value(expression) != 0
    }

    /// "An integer expression has its exact whole value, and a value below zero is a proper value." Worst sizes keep
    /// every value within 32 bits.
    pub fn value(&self, expression: &Expr) -> i64 {
        let bit = |number: u32, bit: u32| i64::from(number >> bit & 1);
        match expression {
            Expr::Number(value) => i64::from(*value),
            Expr::Truth(value) => i64::from(*value),
            Expr::Name(Variable::Input(at)) => bit(self.input, *at),
            Expr::Name(Variable::Boolean(at)) => bit(self.word, *at),
            Expr::Name(Variable::Integer { low, width }) => i64::from(self.word >> low & low_bits(*width)),
            Expr::Bit(Variable::Integer { low, .. }, index) => bit(self.word, low + index),
            // The check has refused unknown names, and bits of what is no integer.
            Expr::Name(Variable::Unknown) | Expr::Bit(..) => 0,
            Expr::Int(operand) => self.value(operand),
            Expr::Not(operand) => i64::from(!self.truth(operand)),
            Expr::Row(first, links) => {
                links.iter().fold(self.value(first), |left, link| apply(link.operator, left, self.value(&link.operand)))
            }
        }
    }
}

/// "`/` goes toward zero and `%` takes the dividend's sign (house); a/0 is 0 and a%0 is a (house)."
fn apply(operator: Operator, left: i64, right: i64) -> i64 {
    match operator {
        Operator::Equal => i64::from(left == right),
        Operator::Unequal => i64::from(left != right),
        Operator::Greater => i64::from(left > right),
        Operator::Less => i64::from(left < right),
        Operator::And => left & right,
        Operator::Or => left | right,
        Operator::Add => left + right,
        Operator::Subtract => left - right,
        Operator::Multiply => left * right,
        Operator::Divide => left.checked_div(right).unwrap_or(0),
        Operator::Remainder => left.checked_rem(right).unwrap_or(left),
    }
}

/// A mask of the lowest `width` bits, at most 16.
pub fn low_bits(width: u32) -> u32 {
    (1 << width) - 1
}
