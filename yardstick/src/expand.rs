//! 000's call by name: each call gives way to "the body with each formal replaced by the actual, as if in parentheses".
//!
//! "A call that is expanded is no statement and no place": the body's statements stand in the list where the call stood.

use crate::tree::{Branch, Case, Expr, Link, List, Point, Program, Statement, StatementKind, Target, Variable};
use crate::written::{self, ExprKind, Meaning, Name, Procedure};

/// The tree of a program that has passed the check.
pub fn expand(program: written::Program) -> Program {
    let written::Program { name, declarations, procedures, meanings, body, .. } = program;
    let mut expander = Expander { procedures: &procedures, meanings: &meanings, points: 0 };
    let body = expander.list(&body, None, 0);
    Program { name, declarations, body, end: expander.points }
}

struct Expander<'a> {
    procedures: &'a [Procedure],
    meanings: &'a [Meaning],
    /// How many statements and case tests have been met.
    points: Point,
}

/// A call that is being expanded: its actuals, and the call in whose body they stand.
struct Frame<'a> {
    actuals: &'a [written::Expr],
    caller: Option<&'a Frame<'a>>,
}

/// Statements of the body of `frame`, or of the program. `activity` is the first activity that they may use.
impl Expander<'_> {
    fn list(&mut self, list: &written::List, frame: Option<&Frame>, activity: usize) -> List {
        let mut expanded = List::new();
        self.append(&mut expanded, list, frame, activity);
        expanded
    }

    fn append(&mut self, to: &mut List, list: &written::List, frame: Option<&Frame>, activity: usize) {
        for statement in list {
            match &statement.kind {
                written::StatementKind::Call { procedure, actuals } => {
                    if let Meaning::Procedure(number) = self.meanings[*procedure] {
                        let body = &self.procedures[number].body;
                        self.append(to, body, Some(&Frame { actuals, caller: frame }), activity);
                    }
                }
                kind => to.push(self.statement(kind, frame, activity)),
            }
        }
    }

    fn point(&mut self) -> Point {
        self.points += 1;
        self.points - 1
    }

    fn statement(&mut self, kind: &written::StatementKind, frame: Option<&Frame>, activity: usize) -> Statement {
        let point = self.point();
        let kind = self.statement_kind(kind, frame, activity);
        let end = inner_activities_end(&kind).max(activity + 1);
        Statement { points: point..self.points, activities: activity..end, kind }
    }

    fn statement_kind(
        &mut self,
        kind: &written::StatementKind,
        frame: Option<&Frame>,
        activity: usize,
    ) -> StatementKind {
        match kind {
            written::StatementKind::Delay { clocks, .. } => StatementKind::Delay(*clocks),
            written::StatementKind::Exit => StatementKind::Exit,
            written::StatementKind::Break => StatementKind::Break,
            written::StatementKind::Change(change, target) => {
                StatementKind::Change(*change, self.target(target.name, target.bit, frame))
            }
            written::StatementKind::Assign(name, value) => {
                StatementKind::Assign(self.target(*name, None, frame).variable, self.expression(value, frame))
            }
            written::StatementKind::If { test, then, otherwise } => StatementKind::If {
                test: self.expression(test, frame),
                then: self.list(then, frame, activity),
                otherwise: self.list(otherwise, frame, activity),
            },
            written::StatementKind::Loop { test, body } => StatementKind::Loop {
                test: test.as_ref().map(|test| self.expression(test, frame)),
                body: self.list(body, frame, activity),
            },
            written::StatementKind::Switch { cases, default } => StatementKind::Switch {
                cases: cases.iter().map(|case| self.case(case, frame, activity)).collect(),
                default: self.list(default, frame, activity),
            },
            written::StatementKind::Parallel(branches) => self.parallel(branches, frame, activity),
            // A call is no statement.
            written::StatementKind::Skip | written::StatementKind::Call { .. } => StatementKind::Skip,
        }
    }

    fn case(&mut self, case: &written::Case, frame: Option<&Frame>, activity: usize) -> Case {
        let point = self.point();
        let test = self.expression(&case.test, frame);
        let body = self.list(&case.body, frame, activity);
        Case { points: point..self.points, test, body }
    }

    /// Each branch has activities of its own.
    fn parallel(&mut self, lists: &[written::List], frame: Option<&Frame>, activity: usize) -> StatementKind {
        let mut free = activity;
        let mut branches = Vec::new();
        for list in lists {
            let body = self.list(list, frame, free);
            let end = activities_end(&body);
            branches.push(Branch { activities: free..end, body });
            free = end;
        }
        StatementKind::Parallel(branches)
    }
}

/// Names and expressions.
impl Expander<'_> {
    /// "A changed or indexed formal is replaced bare": by a name, or by a bit.
    fn target(&self, name: Name, bit: Option<u32>, frame: Option<&Frame>) -> Target {
        match (name, frame) {
            (Name::Symbol(symbol), _) => match self.meanings[symbol] {
                Meaning::Variable(variable) => Target { variable, bit },
                _ => Target { variable: Variable::Unknown, bit },
            },
            (Name::Formal(formal), Some(frame)) => match &frame.actuals[formal].kind {
                ExprKind::Name(name) => self.target(*name, bit, frame.caller),
                ExprKind::Bit(name, bit) => self.target(*name, Some(*bit), frame.caller),
                _ => Target { variable: Variable::Unknown, bit },
            },
            (Name::Formal(_), None) => Target { variable: Variable::Unknown, bit },
        }
    }

    fn expression(&self, expression: &written::Expr, frame: Option<&Frame>) -> Expr {
        match &expression.kind {
            ExprKind::Number(value) => Expr::Number(*value),
            ExprKind::Truth(value) => Expr::Truth(*value),
            ExprKind::Name(name) => self.read(*name, frame),
            ExprKind::Bit(name, bit) => Expr::Bit(self.target(*name, Some(*bit), frame).variable, *bit),
            ExprKind::Int(operand) => Expr::Int(Box::new(self.expression(operand, frame))),
            ExprKind::Not(operand) => Expr::Not(Box::new(self.expression(operand, frame))),
            ExprKind::Row(first, links) => {
                let link = |link: &written::Link| Link {
                    operator: link.operator,
                    operand: self.expression(&link.operand, frame),
                };
                Expr::Row(Box::new(self.expression(first, frame)), links.iter().map(link).collect())
            }
        }
    }

    fn read(&self, name: Name, frame: Option<&Frame>) -> Expr {
        match (name, frame) {
            (Name::Formal(formal), Some(frame)) => self.expression(&frame.actuals[formal], frame.caller),
            _ => Expr::Name(self.target(name, None, frame).variable),
        }
    }
}

/// "A parallel sums its branches, other statements and lists take the largest part": where the inner parts end.
fn inner_activities_end(kind: &StatementKind) -> usize {
    match kind {
        StatementKind::If { then, otherwise, .. } => activities_end(then).max(activities_end(otherwise)),
        StatementKind::Loop { body, .. } => activities_end(body),
        StatementKind::Switch { cases, default } => {
            cases.iter().map(|case| activities_end(&case.body)).fold(activities_end(default), usize::max)
        }
        StatementKind::Parallel(branches) => branches.last().map_or(0, |branch| branch.activities.end),
        _ => 0,
    }
}

/// "Other statements and lists take the largest part."
fn activities_end(list: &List) -> usize {
    list.iter().map(|statement| statement.activities.end).max().unwrap_or(0)
}
