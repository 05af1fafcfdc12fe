//! The kinds of input that two sides are compared on. Each is fixed, or made by seed.

use std::ops::ControlFlow;

use crate::question::Question;
use crate::random::Random;

mod files;
mod operators;
mod predicates;
mod seeded;
mod sizes;

pub use predicates::forms;

pub type Step = ControlFlow<()>;

/// Takes one question; Break ends the family.
pub type Ask<'a> = dyn FnMut(Question) -> Step + 'a;

pub struct Family {
    pub name: &'static str,
    pub what: &'static str,
    pub run: fn(&mut Random, usize, &mut Ask) -> Step,
    /// How many inputs a family by seed makes at a scale of 100; 0 where the family is fixed, but for
    /// rows and runs by seed within it.
    pub count: usize,
}

pub const FAMILIES: [Family; 18] = [
    Family { name: "bytes", what: "every file of up to two bytes", run: files::bytes, count: 0 },
    Family {
        name: "records",
        what: "every record kind, and every pair",
        run: files::records,
        count: 0,
    },
    Family { name: "clashes", what: "two faults in one record", run: files::clashes, count: 0 },
    Family {
        name: "cuts",
        what: "a file of every kind, cut everywhere",
        run: files::cuts,
        count: 0,
    },
    Family {
        name: "comparisons",
        what: "each over each pair of leaves",
        run: predicates::comparisons,
        count: 0,
    },
    Family {
        name: "sequences",
        what: "pairs of predicates in both orders",
        run: predicates::sequences,
        count: 0,
    },
    Family {
        name: "expressions",
        what: "all of up to four nodes",
        run: predicates::every_expression,
        count: 0,
    },
    Family {
        name: "operators",
        what: "each kind over each kind",
        run: operators::operators,
        count: 0,
    },
    Family {
        name: "residuals",
        what: "63, 64, 65, by each way there",
        run: operators::residuals,
        count: 0,
    },
    Family {
        name: "limits",
        what: "each size below, at and past it",
        run: sizes::limits,
        count: 0,
    },
    Family { name: "room", what: "the simplifier at each size", run: sizes::room, count: 0 },
    Family { name: "deep", what: "chains as deep as a plan holds", run: sizes::deep, count: 0 },
    Family {
        name: "shared",
        what: "one expression by many paths",
        run: predicates::shared,
        count: 0,
    },
    Family {
        name: "programs",
        what: "small expressions that share",
        run: predicates::programs,
        count: 20_000,
    },
    Family { name: "small", what: "small plans", run: seeded::small_plans, count: 25_000 },
    Family {
        name: "nicked",
        what: "damaged copies of small plans",
        run: seeded::nicked,
        count: 20_000,
    },
    Family { name: "random", what: "plans of every size", run: seeded::random_plans, count: 2000 },
    Family {
        name: "damaged",
        what: "damaged copies of such plans",
        run: seeded::damaged,
        count: 8000,
    },
];

fn derive(file: Vec<u8>, operator: u16) -> Question {
    Question::Derive { file, operator: Some(operator) }
}

fn facts(file: Vec<u8>) -> Question {
    Question::Derive { file, operator: None }
}
