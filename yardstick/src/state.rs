//! "What counts as one state."

use std::ops::Range;

use crate::tree::{Point, Program, Variable};
use crate::value::low_bits;

/// "Activities 8."
pub const ACTIVITIES: usize = 8;

/// "A state holds eight activity places and one value word." "Two states are one exactly when all of this is equal."
#[derive(Clone, Copy, PartialEq, Eq, Hash, Debug)]
pub struct State {
    /// The activities; those of a branch stand together.
    pub activities: [Activity; ACTIVITIES],
    /// "Every non-input bit", first declared lowest.
    pub word: u32,
}

/// One activity of a state.
#[derive(Clone, Copy, PartialEq, Eq, Hash, Debug)]
pub enum Activity {
    /// No branch that runs now has this activity.
    Unused,
    /// "Or that its branch has finished."
    Finished,
    /// "The statement or case test that it starts with next clock, with any delay clocks left."
    Stands(Stand),
}

/// Where an activity stands.
#[derive(Clone, Copy, PartialEq, Eq, Hash, Debug)]
pub struct Stand {
    /// The statement or case test.
    pub point: Point,
    /// The delay clocks left, 0 where no delay has begun.
    pub left: u8,
}

impl State {
    /// "The start is the first statement with the initial values."
    pub fn start(program: &Program) -> State {
        let mut word = 0;
        for declaration in &program.declarations {
            let initial = u32::from(declaration.initial);
            match declaration.variable {
                Variable::Boolean(bit) => word |= initial << bit,
                // "`:=` and initialisers keep the low bits of the two's complement form."
                Variable::Integer { low, width } => word |= (initial & low_bits(width)) << low,
                Variable::Input(_) | Variable::Unknown => {}
            }
        }
        let mut activities = [Activity::Unused; ACTIVITIES];
        activities[0] = Activity::Stands(Stand { point: 0, left: 0 });
        State { activities, word }
    }

    /// The first of the activities that stands somewhere; those before it are finished branches.
    pub fn standing(&self, activities: Range<usize>) -> Option<Stand> {
        self.activities[activities].iter().find_map(|activity| match activity {
            Activity::Stands(stand) => Some(*stand),
            _ => None,
        })
    }
}
