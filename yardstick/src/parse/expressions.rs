//! Expressions, by how tightly their operators bind.

use super::{Parsed, Parser};
use crate::tree::Operator;
use crate::words::Kind;
use crate::written::{Expr, ExprKind, Link, Need};

/// How tightly the binary operators bind: "lowest to highest: `&`; `|`; `== != > <`; `!`; `+ -`; `* / %`."
#[derive(Clone, Copy, PartialEq, Eq)]
enum Binding {
    And,
    Or,
    Comparison,
    Sum,
    Product,
}

/// Expressions.
impl Parser<'_> {
    pub(super) fn expression(&mut self) -> Parsed<Expr> {
        self.row(Binding::And)
    }

    /// "Binary operators group from the left."
    fn row(&mut self, binding: Binding) -> Parsed<Expr> {
        let first = self.operand(binding)?;
        let mut links = Vec::new();
        while let Some(operator) = self.peek().and_then(|kind| operator(kind, binding)) {
            let place = self.place();
            self.at += 1;
            links.push(Link { place, operator, operand: self.operand(binding)? });
        }
        if links.is_empty() {
            return Ok(first);
        }
        Ok(Expr { place: first.place, parentheses: 0, kind: ExprKind::Row(Box::new(first), links) })
    }

    /// An operand of the operators of one binding: what binds more tightly.
    fn operand(&mut self, binding: Binding) -> Parsed<Expr> {
        match binding {
            Binding::And => self.row(Binding::Or),
            Binding::Or => self.row(Binding::Comparison),
            Binding::Comparison => self.negation(),
            Binding::Sum => self.row(Binding::Product),
            Binding::Product => self.primary(),
        }
    }

    /// `!` binds more tightly than `==`, less than `+`: "an arithmetic operator's operand can't begin with `!`".
    fn negation(&mut self) -> Parsed<Expr> {
        if self.peek() != Some(Kind::Not) {
            return self.row(Binding::Sum);
        }
        let place = self.place();
        self.open(Kind::Not)?;
        let operand = self.negation()?;
        self.levels -= 1;
        Ok(Expr { place, parentheses: 0, kind: ExprKind::Not(Box::new(operand)) })
    }

    fn primary(&mut self) -> Parsed<Expr> {
        let place = self.place();
        let kind = match self.peek() {
            Some(Kind::Number(_)) => ExprKind::Number(self.number()?),
            Some(Kind::True | Kind::False) => ExprKind::Truth(self.truth()?),
            Some(Kind::Name) => self.name_or_bit()?,
            Some(Kind::Int) => {
                self.at += 1;
                ExprKind::Int(Box::new(self.in_parentheses()?))
            }
            Some(Kind::Open) => return self.in_parentheses(),
            _ => return self.fail(),
        };
        Ok(Expr { place, parentheses: 0, kind })
    }

    /// A formal's bit in an actual asks nothing here: the expansion may drop it.
    fn name_or_bit(&mut self) -> Parsed<ExprKind> {
        let name = self.used()?;
        if self.peek() != Some(Kind::OpenIndex) {
            return Ok(ExprKind::Name(name));
        }
        if !self.in_actual {
            self.needs(name, Need::Name);
        }
        Ok(ExprKind::Bit(name, u32::from(self.index()?)))
    }

    fn in_parentheses(&mut self) -> Parsed<Expr> {
        self.open(Kind::Open)?;
        let mut inner = self.expression()?;
        self.close(Kind::Close)?;
        inner.parentheses += 1;
        Ok(inner)
    }
}

/// The operator that a word is, if it has the given binding.
fn operator(kind: Kind, binding: Binding) -> Option<Operator> {
    Some(match (binding, kind) {
        (Binding::And, Kind::And) => Operator::And,
        (Binding::Or, Kind::Bar) => Operator::Or,
        (Binding::Comparison, Kind::Equal) => Operator::Equal,
        (Binding::Comparison, Kind::Unequal) => Operator::Unequal,
        (Binding::Comparison, Kind::Greater) => Operator::Greater,
        (Binding::Comparison, Kind::Less) => Operator::Less,
        (Binding::Sum, Kind::Plus) => Operator::Add,
        (Binding::Sum, Kind::Minus) => Operator::Subtract,
        (Binding::Product, Kind::Times) => Operator::Multiply,
        (Binding::Product, Kind::Divide) => Operator::Divide,
        (Binding::Product, Kind::Remainder) => Operator::Remainder,
        _ => return None,
    })
}
