//! The two sides of a comparison. A side answers questions by texts; two sides agree when their
//! texts are the same.

use crate::facts::Deriving;
use crate::listing;
use crate::plan::{self, Literal, Plan, Refusal};
use crate::question::{Question, plan_line, refused_line};
use crate::rows::{self, Truth};
use crate::simplify::{self, Answer};

/// One side. Every method takes the file's bytes; a file that is refused by the reader is answered
/// by `refused N P`, whatever is asked. Every line ends in a newline.
pub trait Subject {
    /// `plan` and the canonical bytes in hex.
    fn read(&mut self, file: &[u8]) -> String;

    /// The listing of an operator, of the last one where none is asked for; or `refused N P`.
    fn derive(&mut self, file: &[u8], operator: Option<u16>) -> String;

    /// The listing after all the predicates. Where the predicate at place K of the list is refused:
    /// `refused N K`, then the listing of the facts handed back.
    fn apply(&mut self, file: &[u8], operator: u16, predicates: &[u16]) -> String;

    /// `keep`, `replace N` or `refused N`, then the plan handed back as `read` writes it.
    fn simplify(&mut self, file: &[u8], operator: u16) -> String;

    /// `true`, `false`, `unknown` or `refused N`.
    fn evaluate(&mut self, file: &[u8], expr: u16, row: &[Literal]) -> String;

    fn answer(&mut self, question: &Question) -> String {
        match question {
            Question::Read { file } => self.read(file),
            Question::Derive { file, operator } => self.derive(file, *operator),
            Question::Apply { file, operator, predicates } => {
                self.apply(file, *operator, predicates)
            }
            Question::Simplify { file, operator } => self.simplify(file, *operator),
            Question::Evaluate { file, expr, row } => self.evaluate(file, *expr, row),
        }
    }
}

/// The Rust itself, with the reader and the evaluator written from the rules.
pub struct Oracle;

fn on_plan(file: &[u8], answer: impl FnOnce(&Plan) -> String) -> String {
    match plan::read(file) {
        Ok(plan) => answer(&plan),
        Err(refusal) => refused_line(refusal),
    }
}

impl Subject for Oracle {
    fn read(&mut self, file: &[u8]) -> String {
        on_plan(file, plan_line)
    }

    fn derive(&mut self, file: &[u8], operator: Option<u16>) -> String {
        on_plan(file, |plan| {
            let last = plan.operators.len().saturating_sub(1) as u16;
            let operator = operator.unwrap_or(last);
            match Deriving::new(plan).derive(operator) {
                Ok(facts) => listing::listing(operator, &facts),
                Err(refusal) => refused_line(refusal),
            }
        })
    }

    fn apply(&mut self, file: &[u8], operator: u16, predicates: &[u16]) -> String {
        on_plan(file, |plan| match Deriving::new(plan).apply(operator, predicates) {
            Err(refusal) => refused_line(refusal),
            Ok(applied) => {
                let listing = listing::listing(operator, &applied.facts);
                match applied.refused {
                    None => listing,
                    Some((number, place)) => refused_line(Refusal { number, place }) + &listing,
                }
            }
        })
    }

    fn simplify(&mut self, file: &[u8], operator: u16) -> String {
        on_plan(file, |plan| match simplify::simplify(plan, operator) {
            Ok((Answer::Keep, after)) => format!("keep\n{}", plan_line(&after)),
            Ok((Answer::Replace(by), after)) => format!("replace {by}\n{}", plan_line(&after)),
            Err(number) => format!("refused {number}\n{}", plan_line(plan)),
        })
    }

    fn evaluate(&mut self, file: &[u8], expr: u16, row: &[Literal]) -> String {
        on_plan(file, |plan| match rows::evaluate(plan, expr, row) {
            Ok(Truth::True) => "true\n".to_string(),
            Ok(Truth::False) => "false\n".to_string(),
            Ok(Truth::Unknown) => "unknown\n".to_string(),
            Err(number) => format!("refused {number}\n"),
        })
    }
}
