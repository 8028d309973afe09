//! Statements and their lists.

use super::{Parsed, Parser};
use crate::tree::Change;
use crate::words::Kind;
use crate::written::{Case, List, Need, Statement, StatementKind, Target};

/// Statements.
impl Parser<'_> {
    /// "One or more statements parted by `;`, with one spare `;` allowed at its end (house)."
    pub(super) fn list(&mut self) -> Parsed<List> {
        let mut list = vec![self.statement()?];
        while self.take(Kind::Semicolon) && self.peek().is_some_and(starts_statement) {
            list.push(self.statement()?);
        }
        Ok(list)
    }

    fn statement(&mut self) -> Parsed<Statement> {
        let place = self.place();
        let kind = self.statement_kind()?;
        Ok(Statement { place, kind })
    }

    fn statement_kind(&mut self) -> Parsed<StatementKind> {
        match self.peek() {
            Some(Kind::Skip) => self.single(StatementKind::Skip),
            Some(Kind::Exit) => self.single(StatementKind::Exit),
            Some(Kind::Break) => self.single(StatementKind::Break),
            Some(Kind::Delay) => self.delay(),
            Some(Kind::Raise) => self.change(Change::Raise),
            Some(Kind::Lower) => self.change(Change::Lower),
            Some(Kind::Invert) => self.change(Change::Invert),
            Some(Kind::Name) => self.assignment_or_call(),
            Some(Kind::If) => self.if_statement(),
            Some(Kind::While) => self.while_statement(),
            Some(Kind::Loop) => self.loop_statement(),
            Some(Kind::Switch) => self.switch(),
            Some(Kind::Parallel) => self.parallel(),
            _ => self.fail(),
        }
    }

    fn single(&mut self, kind: StatementKind) -> Parsed<StatementKind> {
        self.at += 1;
        Ok(kind)
    }

    fn delay(&mut self) -> Parsed<StatementKind> {
        self.expect(Kind::Delay)?;
        let place = self.place();
        let clocks = self.number()?;
        Ok(StatementKind::Delay { clocks, place })
    }

    /// "`raise`, `lower`, `invert` of a boolean or an integer's bit."
    fn change(&mut self, change: Change) -> Parsed<StatementKind> {
        self.at += 1;
        self.open(Kind::Open)?;
        let place = self.place();
        let name = self.used()?;
        let bit = if self.peek() == Some(Kind::OpenIndex) { Some(u32::from(self.index()?)) } else { None };
        self.needs(name, if bit.is_some() { Need::Name } else { Need::NameOrBit });
        self.close(Kind::Close)?;
        Ok(StatementKind::Change(change, Target { place, name, bit }))
    }

    fn assignment_or_call(&mut self) -> Parsed<StatementKind> {
        match self.words.get(self.at + 1) {
            Some(word) if word.kind == Kind::Open => self.call(),
            _ => self.assignment(),
        }
    }

    /// "`:=` to a plain name."
    fn assignment(&mut self) -> Parsed<StatementKind> {
        let name = self.used()?;
        self.expect(Kind::Assign)?;
        self.needs(name, Need::Name);
        Ok(StatementKind::Assign(name, self.expression()?))
    }

    /// 000: "A procedure call of the form: identifier (expression list)." What is called is never a formal.
    fn call(&mut self) -> Parsed<StatementKind> {
        let name = self.name()?;
        let procedure = self.symbol(name);
        self.open(Kind::Open)?;
        self.in_actual = true;
        let mut actuals = Vec::new();
        if self.peek() != Some(Kind::Close) {
            actuals.push(self.expression()?);
            while self.take(Kind::Comma) {
                actuals.push(self.expression()?);
            }
        }
        self.in_actual = false;
        self.close(Kind::Close)?;
        Ok(StatementKind::Call { procedure, actuals })
    }

    fn if_statement(&mut self) -> Parsed<StatementKind> {
        self.open(Kind::If)?;
        let test = self.expression()?;
        self.expect(Kind::Then)?;
        let then = self.list()?;
        let otherwise = if self.take(Kind::Else) { self.list()? } else { List::new() };
        self.close(Kind::EndIf)?;
        Ok(StatementKind::If { test, then, otherwise })
    }

    /// `while E do loop .. endloop` is one statement and one level, open from the word `while`.
    fn while_statement(&mut self) -> Parsed<StatementKind> {
        self.open(Kind::While)?;
        let test = self.expression()?;
        self.expect(Kind::Do)?;
        self.expect(Kind::Loop)?;
        let body = self.list()?;
        self.close(Kind::EndLoop)?;
        Ok(StatementKind::Loop { test: Some(test), body })
    }

    fn loop_statement(&mut self) -> Parsed<StatementKind> {
        self.open(Kind::Loop)?;
        let body = self.list()?;
        self.close(Kind::EndLoop)?;
        Ok(StatementKind::Loop { test: None, body })
    }

    /// "`switch` with one or more cases and a last, required `default`, a list each."
    fn switch(&mut self) -> Parsed<StatementKind> {
        self.open(Kind::Switch)?;
        let mut cases = vec![self.case()?];
        while self.peek() == Some(Kind::Case) {
            cases.push(self.case()?);
        }
        self.expect(Kind::Default)?;
        self.expect(Kind::Colon)?;
        let default = self.list()?;
        self.close(Kind::EndSwitch)?;
        Ok(StatementKind::Switch { cases, default })
    }

    fn case(&mut self) -> Parsed<Case> {
        let place = self.place();
        self.expect(Kind::Case)?;
        let test = self.expression()?;
        self.expect(Kind::Colon)?;
        let body = self.list()?;
        Ok(Case { place, test, body })
    }

    /// "`parallel` with two or more branches."
    fn parallel(&mut self) -> Parsed<StatementKind> {
        self.open(Kind::Parallel)?;
        let mut branches = vec![self.list()?];
        self.expect(Kind::Bars)?;
        branches.push(self.list()?);
        while self.take(Kind::Bars) {
            branches.push(self.list()?);
        }
        self.close(Kind::EndParallel)?;
        Ok(StatementKind::Parallel(branches))
    }
}

fn starts_statement(kind: Kind) -> bool {
    matches!(
        kind,
        Kind::Skip
            | Kind::Exit
            | Kind::Break
            | Kind::Delay
            | Kind::Raise
            | Kind::Lower
            | Kind::Invert
            | Kind::Name
            | Kind::If
            | Kind::While
            | Kind::Loop
            | Kind::Switch
            | Kind::Parallel
    )
}
