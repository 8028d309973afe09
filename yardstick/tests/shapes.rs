//! What the stream with procedures holds: each way to use a procedure, in the records that the proved compiler is tried on.

use std::collections::HashMap;

use yardstick::written::{Expr, ExprKind, List, Meaning, Name, Program, StatementKind};
use yardstick::{gen, parse, words};

/// As many as the proved compiler is tried on, and how often each shape must occur among them.
const RECORDS: usize = 5_000;
const OFTEN: usize = 100;

const SHAPES: [&str; 8] = [
    "a call inside a body",
    "a formal handed on",
    "a formal in a larger actual",
    "a changed formal",
    "an indexed formal",
    "a dropped actual",
    "a body that calls one procedure twice",
    "a chain of ten calls",
];

/// What is met in one list and all lists inside it.
#[derive(Default)]
struct Met {
    /// Each call with its actuals.
    calls: Vec<(usize, Vec<Actual>)>,
    formals: Vec<usize>,
    changed: bool,
    indexed: bool,
}

/// How an actual uses the formals of the body that it stands in.
#[derive(PartialEq, Eq)]
enum Actual {
    Formal,
    WithFormal,
    Other,
}

impl Met {
    fn of(list: &List) -> Met {
        let mut met = Met::default();
        met.list(list);
        met
    }

    fn list(&mut self, list: &List) {
        for statement in list {
            self.statement(&statement.kind);
        }
    }

    fn statement(&mut self, kind: &StatementKind) {
        match kind {
            StatementKind::Change(_, target) => self.target(target.name, target.bit.is_some()),
            StatementKind::Assign(name, value) => {
                self.target(*name, false);
                self.expression(value);
            }
            StatementKind::If { test, then, otherwise } => {
                self.expression(test);
                self.list(then);
                self.list(otherwise);
            }
            StatementKind::Loop { test, body } => {
                test.iter().for_each(|test| self.expression(test));
                self.list(body);
            }
            StatementKind::Switch { cases, default } => {
                for case in cases {
                    self.expression(&case.test);
                    self.list(&case.body);
                }
                self.list(default);
            }
            StatementKind::Parallel(branches) => branches.iter().for_each(|branch| self.list(branch)),
            StatementKind::Call { procedure, actuals } => {
                let actuals = actuals.iter().map(|actual| self.actual(actual)).collect();
                self.calls.push((*procedure, actuals));
            }
            StatementKind::Skip | StatementKind::Delay { .. } | StatementKind::Exit | StatementKind::Break => {}
        }
    }

    fn target(&mut self, name: Name, has_bit: bool) {
        if let Name::Formal(formal) = name {
            self.formals.push(formal);
            self.changed |= !has_bit;
            self.indexed |= has_bit;
        }
    }

    fn actual(&mut self, actual: &Expr) -> Actual {
        let before = self.formals.len();
        self.expression(actual);
        match actual.kind {
            ExprKind::Name(Name::Formal(_)) => Actual::Formal,
            _ if self.formals.len() > before => Actual::WithFormal,
            _ => Actual::Other,
        }
    }

    fn expression(&mut self, expression: &Expr) {
        match &expression.kind {
            ExprKind::Name(Name::Formal(formal)) => self.formals.push(*formal),
            ExprKind::Bit(name, _) => self.target(*name, true),
            ExprKind::Int(operand) | ExprKind::Not(operand) => self.expression(operand),
            ExprKind::Row(first, links) => {
                self.expression(first);
                links.iter().for_each(|link| self.expression(&link.operand));
            }
            ExprKind::Number(_) | ExprKind::Truth(_) | ExprKind::Name(_) => {}
        }
    }

    /// Is there a call with such an actual?
    fn hands_on(&self, kind: Actual) -> bool {
        self.calls.iter().any(|(_, actuals)| actuals.contains(&kind))
    }

    fn calls_twice(&self) -> bool {
        (1..self.calls.len()).any(|at| self.calls[..at].iter().any(|(called, _)| *called == self.calls[at].0))
    }
}

/// Which of the shapes a program has.
fn shapes(program: &Program) -> [bool; 8] {
    let bodies: Vec<Met> = program.procedures.iter().map(|procedure| Met::of(&procedure.body)).collect();
    let any = |has: &dyn Fn(&Met) -> bool| bodies.iter().any(has);
    let number = |symbol: usize| match program.meanings[symbol] {
        Meaning::Procedure(number) => Some(number),
        _ => None,
    };
    let main = Met::of(&program.body);
    let dropped = bodies.iter().chain([&main]).flat_map(|met| &met.calls).any(|(symbol, actuals)| {
        number(*symbol).is_some_and(|number| (0..actuals.len()).any(|formal| !bodies[number].formals.contains(&formal)))
    });
    [
        any(&|met| !met.calls.is_empty()),
        any(&|met| met.hands_on(Actual::Formal)),
        any(&|met| met.hands_on(Actual::WithFormal)),
        any(&|met| met.changed),
        any(&|met| met.indexed),
        dropped,
        any(&Met::calls_twice),
        longest_chain(&bodies, number) >= 10,
    ]
}

/// How many calls stand one inside the other at most; a body calls procedures before its own alone.
fn longest_chain(bodies: &[Met], number: impl Fn(usize) -> Option<usize>) -> usize {
    let mut lengths: Vec<usize> = Vec::new();
    for (own, met) in bodies.iter().enumerate() {
        let called = met.calls.iter().filter_map(|(symbol, _)| number(*symbol)).filter(|&called| called < own);
        lengths.push(1 + called.map(|called| lengths[called]).max().unwrap_or(0));
    }
    lengths.into_iter().max().unwrap_or(0)
}

#[test]
fn every_use_of_a_procedure_occurs() {
    for seed in [2026, 2027] {
        let mut counts: HashMap<&str, usize> = HashMap::new();
        for record in gen::records_with_procedures(seed).take(RECORDS) {
            let words = words::words(&record.source).ok();
            let program = words.and_then(|words| parse::parse(&record.source, &words).ok());
            for (shape, has) in SHAPES.into_iter().zip(program.map_or([false; 8], |program| shapes(&program))) {
                *counts.entry(shape).or_default() += usize::from(has);
            }
        }
        for shape in SHAPES {
            assert!(counts[shape] >= OFTEN, "{shape}, seed {seed}: {counts:?}");
        }
    }
}
