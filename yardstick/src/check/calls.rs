//! Calls: what an expansion comes to, found from the body and the actuals without writing it out.
//!
//! "A body is checked for names, kinds, jumps and sizes as expanded, with the outermost call as the place": so of all the
//! faults in an expansion only their numbers matter, and of an actual only what `Actual` keeps. Equal calls have equal
//! effects, so procedures that double and double again take no longer than others.

use std::collections::HashMap;

use super::reader::{Actual, Bare, Numbers, Reader};
use super::{Checker, PARTS, STATEMENTS};
use crate::parse::LEVELS;
use crate::state::ACTIVITIES;
use crate::written::{Expr, ExprKind, List, Meaning, Name, Need, Program, Statement, StatementKind, Symbol};

/// What the expansion of a call comes to by itself. A size that is passed stands at one above its limit.
#[derive(Clone, Copy, Debug)]
pub struct Effect {
    /// Its faults; 9 says that it passes a size "by itself", "the expansion alone, its levels too, over every size".
    pub faults: Numbers,
    pub statements: u32,
    pub parts: u32,
    pub levels: usize,
    pub activities: usize,
    /// Whether an `exit` or a `break` leaves it.
    pub exits: bool,
    pub breaks: bool,
}

impl Effect {
    /// Of a body that is one refused call.
    const REFUSED: Effect = Effect {
        faults: Numbers::NONE.with(6),
        statements: 1,
        parts: 0,
        levels: 0,
        activities: 1,
        exits: false,
        breaks: false,
    };
}

/// The procedures and the effects of their calls.
pub struct Calls<'a> {
    program: &'a Program,
    known: HashMap<(usize, Vec<Actual>), Effect>,
    /// The activities that each procedure can have.
    activities: Vec<usize>,
    /// Those procedures that only call another one.
    links: Vec<Option<Link>>,
}

/// A body that is one call with nothing but formals as actuals: a chain of such bodies is looked at once.
struct Link {
    /// The procedure at the end of the chain.
    to: usize,
    actuals: Vec<Handed>,
}

/// A formal handed on.
#[derive(Clone, Copy)]
struct Handed {
    formal: usize,
    /// The levels that this adds where the formal is read.
    levels: usize,
    /// Whether no parentheses stand around it, so that it stays the name that it stands for.
    bare: bool,
}

impl<'a> Calls<'a> {
    pub fn new(program: &'a Program) -> Self {
        let mut calls = Calls { program, known: HashMap::new(), activities: Vec::new(), links: Vec::new() };
        for (number, procedure) in program.procedures.iter().enumerate() {
            let activities = calls.can_have(&procedure.body, number);
            calls.activities.push(activities);
            let link = calls.link(&procedure.body, number);
            calls.links.push(link);
        }
        calls
    }

    fn link(&self, list: &List, body: usize) -> Option<Link> {
        let [Statement { kind: StatementKind::Call { procedure, actuals }, .. }] = &list[..] else {
            return None;
        };
        let to = self.called(*procedure, actuals.len(), Some(body))?;
        let actuals = actuals.iter().map(handed).collect::<Option<Vec<Handed>>>()?;
        let Some(next) = &self.links[to] else {
            return Some(Link { to, actuals });
        };
        let further = |after: &Handed| {
            let before = actuals[after.formal];
            Handed { levels: before.levels + after.levels, bare: before.bare && after.bare, ..before }
        };
        Some(Link { to: next.to, actuals: next.actuals.iter().map(further).collect() })
    }

    /// The procedure that is called, if the call sees it and has the right count of actuals: "In a body a call sees the
    /// procedures declared before that body's own, in the main text all."
    pub fn called(&self, name: Symbol, actuals: usize, inside: Option<usize>) -> Option<usize> {
        let Meaning::Procedure(number) = self.program.meanings[name] else {
            return None;
        };
        let seen = inside.is_none_or(|body| number < body);
        (seen && self.program.procedures[number].formals.len() == actuals).then_some(number)
    }

    /// "An actual, where one is changed or indexed, that isn't a name (or a bit, if raised, lowered or inverted)."
    pub fn takes(&self, number: usize, actuals: &[Actual]) -> bool {
        let formals = &self.program.procedures[number].formals;
        formals.iter().zip(actuals).all(|(need, actual)| match actual.bare {
            Bare::Name(_) => true,
            Bare::Bit(..) => *need != Need::Name,
            Bare::Other => *need == Need::Anything,
        })
    }

    pub fn effect(&mut self, number: usize, actuals: Vec<Actual>) -> Effect {
        if let Some(Link { to, actuals: handed }) = &self.links[number] {
            let actuals = handed.iter().map(|handed| actuals[handed.formal].handed(handed.levels, handed.bare));
            let (to, actuals) = (*to, actuals.collect::<Vec<Actual>>());
            return if self.takes(to, &actuals) { self.effect(to, actuals) } else { Effect::REFUSED };
        }
        let call = (number, actuals);
        if let Some(effect) = self.known.get(&call) {
            return *effect;
        }
        let effect = self.fresh_effect(number, &call.1);
        self.known.insert(call, effect);
        effect
    }

    fn fresh_effect(&mut self, number: usize, actuals: &[Actual]) -> Effect {
        let program = self.program;
        let mut checker = Checker::new(Reader::new(program, actuals), self, Some(number));
        let activities = checker.list(&program.procedures[number].body);
        let too_large = checker.is_too_large();
        let Checker { reader, statements, exits, breaks, .. } = checker;
        let faults = reader.faults.numbers();
        Effect {
            faults: if reader.deepest > LEVELS { faults.with(9) } else { faults },
            statements: statements.min(STATEMENTS + 1),
            parts: reader.parts.min(PARTS + 1),
            levels: reader.deepest.min(LEVELS + 1),
            // Its expansion's, or if that is too large to be looked at to its end, those that its procedure can have.
            activities: if too_large { self.activities[number] } else { activities.min(ACTIVITIES + 1) },
            exits,
            breaks,
        }
    }
}

/// The activities that a procedure can have: each call inside has those of its own procedure, whatever its actuals are.
impl Calls<'_> {
    fn can_have(&self, list: &List, body: usize) -> usize {
        let activities = list.iter().map(|statement| self.statement_can_have(&statement.kind, body));
        activities.max().unwrap_or(1).min(ACTIVITIES + 1)
    }

    fn statement_can_have(&self, kind: &StatementKind, body: usize) -> usize {
        match kind {
            StatementKind::If { then, otherwise, .. } => self.can_have(then, body).max(self.can_have(otherwise, body)),
            StatementKind::Loop { body: list, .. } => self.can_have(list, body),
            StatementKind::Switch { cases, default } => {
                let cases = cases.iter().map(|case| self.can_have(&case.body, body));
                cases.fold(self.can_have(default, body), usize::max)
            }
            StatementKind::Parallel(branches) => branches.iter().map(|branch| self.can_have(branch, body)).sum(),
            StatementKind::Call { procedure, actuals } => {
                self.called(*procedure, actuals.len(), Some(body)).map_or(1, |number| self.activities[number])
            }
            _ => 1,
        }
    }
}

fn handed(actual: &Expr) -> Option<Handed> {
    match actual.kind {
        ExprKind::Name(Name::Formal(formal)) => {
            Some(Handed { formal, levels: 1 + actual.parentheses, bare: actual.parentheses == 0 })
        }
        _ => None,
    }
}
