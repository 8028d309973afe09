//! One clock: where each activity stands, what it tries, where it stands next.

use crate::state::{Activity, Stand, State, ACTIVITIES};
use crate::tree::{Branch, Case, Change, Expr, List, Point, Program, Statement, StatementKind, Target, Variable};
use crate::value::{low_bits, Reads};

/// "Each statement, run from where it stands, finishes in no time, jumps, or waits with a set of tried bits."
enum Outcome {
    Finishes,
    Jumps(Jump),
    Waits(Tries, After),
}

#[derive(Clone, Copy, PartialEq, Eq)]
enum Jump {
    Exit,
    Break,
}

/// Where a statement is when its wait ends.
enum After {
    /// At its end: "ends of lists, ifs, switches and all-finished parallels are run through when the wait ends".
    Ended,
    /// Somewhere inside, as noted in the next state's activities.
    Inside,
}

/// The bits tried, by the value tried.
#[derive(Clone, Copy)]
struct Tries {
    ones: u32,
    zeros: u32,
}

impl Tries {
    const NONE: Tries = Tries { ones: 0, zeros: 0 };

    /// The bits of `mask` tried with the values they have in `value`.
    fn of(mask: u32, value: u32) -> Tries {
        Tries { ones: mask & value, zeros: mask & !value }
    }

    fn and(self, other: Tries) -> Tries {
        Tries { ones: self.ones | other.ones, zeros: self.zeros | other.zeros }
    }

    /// "A bit tried by one branch, or by several with one value, takes it; on disagreement it is untried."
    fn agreed(self) -> Tries {
        Tries { ones: self.ones & !self.zeros, zeros: self.zeros & !self.ones }
    }
}

/// The state after one clock with this input.
pub fn next(program: &Program, state: &State, input: u32) -> State {
    let mut clock =
        Clock { state, reads: Reads { word: state.word, input }, activities: [Activity::Unused; ACTIVITIES] };
    let tries = match clock.list(&program.body, state.standing(0..ACTIVITIES)) {
        Outcome::Waits(tries, After::Inside) => tries,
        // "After the last statement the machine stands at the end for ever."
        Outcome::Waits(tries, After::Ended) => {
            clock.stand(0, program.end, 0);
            tries
        }
        Outcome::Finishes | Outcome::Jumps(_) => {
            clock.stand(0, program.end, 0);
            Tries::NONE
        }
    };
    State { activities: clock.activities, word: (state.word | tries.ones) & !tries.zeros }
}

struct Clock<'a> {
    state: &'a State,
    reads: Reads,
    /// The next state's activities as far as they are known.
    activities: [Activity; ACTIVITIES],
}

/// Statements. `from` says where inside itself a statement that has begun stands; without it the statement starts.
impl Clock<'_> {
    fn stand(&mut self, activity: usize, point: Point, left: u8) {
        self.activities[activity] = Activity::Stands(Stand { point, left });
    }

    /// Waits one clock and stands at the head of `statement`.
    fn wait_at(&mut self, tries: Tries, statement: &Statement) -> Outcome {
        self.stand(statement.activities.start, statement.points.start, 0);
        Outcome::Waits(tries, After::Inside)
    }

    /// 000: "After the first statement has finished executing, the second one starts executing immediately."
    fn list(&mut self, list: &List, mut from: Option<Stand>) -> Outcome {
        let first = from.map_or(0, |stand| list.partition_point(|statement| statement.points.end <= stand.point));
        for (at, statement) in list.iter().enumerate().skip(first) {
            match self.statement(statement, from.take()) {
                Outcome::Finishes => {}
                Outcome::Waits(tries, After::Ended) if at + 1 < list.len() => {
                    return self.wait_at(tries, &list[at + 1])
                }
                outcome => return outcome,
            }
        }
        Outcome::Finishes
    }

    fn statement(&mut self, statement: &Statement, from: Option<Stand>) -> Outcome {
        // Standing at its own head, a statement has not begun, unless a delay has clocks left.
        let from = from.filter(|stand| stand.point != statement.points.start || stand.left > 0);
        match &statement.kind {
            StatementKind::Skip => Outcome::Waits(Tries::NONE, After::Ended),
            StatementKind::Delay(clocks) => self.delay(statement, from.map_or(*clocks, |stand| u16::from(stand.left))),
            StatementKind::Change(change, target) => Outcome::Waits(self.change(*change, target), After::Ended),
            StatementKind::Assign(variable, value) => Outcome::Waits(self.assign(*variable, value), After::Ended),
            StatementKind::If { test, then, otherwise } => self.if_statement(test, then, otherwise, from),
            StatementKind::Loop { test, body } => self.loop_statement(statement, test.as_ref(), body, from),
            StatementKind::Switch { cases, default } => self.switch(cases, default, from),
            StatementKind::Parallel(branches) => self.parallel(statement, branches, from.is_some()),
            StatementKind::Exit => Outcome::Jumps(Jump::Exit),
            StatementKind::Break => Outcome::Jumps(Jump::Break),
        }
    }

    /// "`delay n` waits n; `delay 0` finishes at once."
    fn delay(&mut self, statement: &Statement, clocks: u16) -> Outcome {
        match clocks {
            0 => Outcome::Finishes,
            1 => Outcome::Waits(Tries::NONE, After::Ended),
            _ => {
                self.stand(statement.activities.start, statement.points.start, (clocks - 1) as u8);
                Outcome::Waits(Tries::NONE, After::Inside)
            }
        }
    }

    /// "Setting a bit to the value it has is a try."
    fn change(&self, change: Change, target: &Target) -> Tries {
        let bit = match (target.variable, target.bit) {
            (Variable::Integer { low, .. }, Some(bit)) => 1 << (low + bit),
            (Variable::Boolean(bit), _) => 1 << bit,
            _ => 0,
        };
        match change {
            Change::Raise => Tries::of(bit, bit),
            Change::Lower => Tries::of(bit, 0),
            Change::Invert => Tries::of(bit, !self.reads.word),
        }
    }

    /// "`:=` tries every bit", with "the low bits of the two's complement form".
    fn assign(&self, variable: Variable, value: &Expr) -> Tries {
        match variable {
            Variable::Integer { low, width } => {
                Tries::of(low_bits(width) << low, (self.reads.value(value) as u32) << low)
            }
            _ => Tries::NONE,
        }
    }

    fn if_statement(&mut self, test: &Expr, then: &List, otherwise: &List, from: Option<Stand>) -> Outcome {
        let in_then = match from {
            Some(stand) => then.last().is_some_and(|last| stand.point < last.points.end),
            None => self.reads.truth(test),
        };
        self.list(if in_then { then } else { otherwise }, from)
    }

    /// "A loop whose body finished in no time since its last start waits one clock and stands at itself. A body that
    /// finished after some wait restarts at once."
    fn loop_statement(
        &mut self,
        statement: &Statement,
        test: Option<&Expr>,
        body: &List,
        from: Option<Stand>,
    ) -> Outcome {
        if from.is_some() {
            match self.list(body, from) {
                Outcome::Finishes => {}
                outcome => return self.after_body(statement, outcome),
            }
        }
        if test.is_some_and(|test| !self.reads.truth(test)) {
            return Outcome::Finishes;
        }
        match self.list(body, None) {
            Outcome::Finishes => self.wait_at(Tries::NONE, statement),
            outcome => self.after_body(statement, outcome),
        }
    }

    /// "`exit` leaves the smallest loop." "The end of a loop's body stands at its loop."
    fn after_body(&mut self, statement: &Statement, outcome: Outcome) -> Outcome {
        match outcome {
            Outcome::Jumps(Jump::Exit) => Outcome::Finishes,
            Outcome::Waits(tries, After::Ended) => self.wait_at(tries, statement),
            outcome => outcome,
        }
    }

    /// "Each test is made when it is reached, perhaps clocks later; without `break` the default always runs." "`break`
    /// [leaves] the smallest switch or parallel."
    fn switch(&mut self, cases: &[Case], default: &List, mut from: Option<Stand>) -> Outcome {
        let first = from.map_or(0, |stand| cases.partition_point(|case| case.points.end <= stand.point));
        for (at, case) in cases.iter().enumerate().skip(first) {
            match self.case(case, from.take()) {
                Outcome::Finishes => {}
                Outcome::Jumps(Jump::Break) => return Outcome::Finishes,
                Outcome::Waits(tries, After::Ended) => return self.wait_after_case(tries, cases.get(at + 1), default),
                outcome => return outcome,
            }
        }
        match self.list(default, from) {
            Outcome::Jumps(Jump::Break) => Outcome::Finishes,
            outcome => outcome,
        }
    }

    fn case(&mut self, case: &Case, from: Option<Stand>) -> Outcome {
        match from {
            Some(stand) if stand.point != case.points.start => self.list(&case.body, from),
            _ if self.reads.truth(&case.test) => self.list(&case.body, None),
            _ => Outcome::Finishes,
        }
    }

    /// "The end of a case [stands] at the next test or the default's first statement."
    fn wait_after_case(&mut self, tries: Tries, next: Option<&Case>, default: &List) -> Outcome {
        if let Some(case) = next {
            self.stand(default[0].activities.start, case.points.start, 0);
            return Outcome::Waits(tries, After::Inside);
        }
        self.wait_at(tries, &default[0])
    }

    /// "If any branch jumps, the first such branch in the text decides, all tries are dropped, and the jump goes on in
    /// the same clock. If all have finished it has finished. Otherwise it waits."
    fn parallel(&mut self, statement: &Statement, branches: &[Branch], begun: bool) -> Outcome {
        let mut tries = Tries::NONE;
        let (mut waits, mut inside) = (false, false);
        for branch in branches {
            match self.branch(branch, begun) {
                Outcome::Jumps(jump) => return self.leave_parallel(statement, jump),
                Outcome::Waits(more, After::Inside) => {
                    tries = tries.and(more);
                    (waits, inside) = (true, true);
                }
                Outcome::Waits(more, After::Ended) => {
                    tries = tries.and(more);
                    waits = true;
                    self.activities[branch.activities.start] = Activity::Finished;
                }
                Outcome::Finishes => self.activities[branch.activities.start] = Activity::Finished,
            }
        }
        if inside {
            return Outcome::Waits(tries.agreed(), After::Inside);
        }
        self.activities[statement.activities.clone()].fill(Activity::Unused);
        if waits {
            Outcome::Waits(tries.agreed(), After::Ended)
        } else {
            Outcome::Finishes
        }
    }

    /// Of a branch that has finished only that is kept, so it finishes again.
    fn branch(&mut self, branch: &Branch, begun: bool) -> Outcome {
        if !begun {
            return self.list(&branch.body, None);
        }
        match self.state.standing(branch.activities.clone()) {
            Some(stand) => self.list(&branch.body, Some(stand)),
            None => Outcome::Finishes,
        }
    }

    fn leave_parallel(&mut self, statement: &Statement, jump: Jump) -> Outcome {
        self.activities[statement.activities.clone()].fill(Activity::Unused);
        match jump {
            Jump::Exit => Outcome::Jumps(Jump::Exit),
            Jump::Break => Outcome::Finishes,
        }
    }
}
