//! The proved library, as a side of the comparison.

use std::sync::mpsc::{Receiver, Sender, channel};
use std::thread;

use mossladder::{Refusal, Rewrite, STACK, Truth};
use mossladder_oracle::plan::{Kind, Literal, body_length};
use mossladder_oracle::question::{Question, hex};
use mossladder_oracle::subject::Subject;
use mossladder_oracle::write::one_nan;

/// Mossladder, through its safe Rust functions. It answers in a thread of its own, which has no more stack than
/// is promised to be enough.
pub struct Ours {
    questions: Sender<Question>,
    answers: Receiver<String>,
}

impl Ours {
    pub fn new() -> Ours {
        let (questions, asked) = channel::<Question>();
        let (answer, answers) = channel();
        let work = move || {
            for question in asked {
                if answer.send(Direct.answer(&question)).is_err() {
                    return;
                }
            }
        };
        thread::Builder::new().stack_size(STACK).spawn(work).expect("a thread can be started");
        Ours { questions, answers }
    }

    fn ask(&mut self, question: Question) -> String {
        self.questions.send(question).expect("the thread answers");
        self.answers.recv().expect("the thread answers")
    }
}

impl Subject for Ours {
    fn read(&mut self, file: &[u8]) -> String {
        self.ask(Question::Read { file: file.to_vec() })
    }

    fn derive(&mut self, file: &[u8], operator: Option<u16>) -> String {
        self.ask(Question::Derive { file: file.to_vec(), operator })
    }

    fn apply(&mut self, file: &[u8], operator: u16, predicates: &[u16]) -> String {
        let predicates = predicates.to_vec();
        self.ask(Question::Apply { file: file.to_vec(), operator, predicates })
    }

    fn simplify(&mut self, file: &[u8], operator: u16) -> String {
        self.ask(Question::Simplify { file: file.to_vec(), operator })
    }

    fn evaluate(&mut self, file: &[u8], expr: u16, row: &[Literal]) -> String {
        self.ask(Question::Evaluate { file: file.to_vec(), expr, row: row.to_vec() })
    }
}

/// The same in the caller's thread.
struct Direct;

impl Subject for Direct {
    fn read(&mut self, file: &[u8]) -> String {
        mossladder::read(file).map_or_else(refused, plan_line)
    }

    fn derive(&mut self, file: &[u8], operator: Option<u16>) -> String {
        let listing = match operator {
            Some(operator) => mossladder::derive(file, operator),
            None => mossladder::facts(file),
        };
        listing.unwrap_or_else(refused)
    }

    fn apply(&mut self, file: &[u8], operator: u16, predicates: &[u16]) -> String {
        match mossladder::apply(file, operator, predicates) {
            Ok(applied) => applied.refused.map_or_else(String::new, refused) + &applied.listing,
            Err(refusal) => refused(refusal),
        }
    }

    fn simplify(&mut self, file: &[u8], operator: u16) -> String {
        let simplified = match mossladder::simplify(file, operator) {
            Ok(simplified) => simplified,
            Err(refusal) => return refused(refusal),
        };
        let rewrite = match simplified.rewrite {
            Rewrite::Keep => "keep\n".to_string(),
            Rewrite::Replace(by) => format!("replace {by}\n"),
            Rewrite::Refused(refusal) => format!("refused {}\n", refusal.number),
        };
        rewrite + &plan_line(simplified.plan)
    }

    fn evaluate(&mut self, file: &[u8], expr: u16, row: &[Literal]) -> String {
        let row: Vec<mossladder::Literal> = row.iter().map(|value| literal(*value)).collect();
        match mossladder::evaluate(file, expr, &row) {
            Ok(Truth::True) => "true\n".to_string(),
            Ok(Truth::False) => "false\n".to_string(),
            Ok(Truth::Unknown) => "unknown\n".to_string(),
            // the reader's refusals have a place, the evaluator's none
            Err(refusal) if refusal.number <= 5 => refused(refusal),
            Err(refusal) => format!("refused {}\n", refusal.number),
        }
    }
}

fn refused(refusal: Refusal) -> String {
    format!("refused {} {}\n", refusal.number, refusal.place)
}

/// A plan's bytes as they are, but for the payload of a NaN, which is not compared.
fn plan_line(mut plan: Vec<u8>) -> String {
    let mut at = 0;
    while let Some(length) = plan.get(at).and_then(|kind| body_length(*kind)) {
        let (float, body) = (plan[at] == 0x14, at + 1..at + 1 + length);
        if float && let Some(Ok(bits)) = plan.get(body.clone()).map(<[u8; 8]>::try_from) {
            let one = one_nan(u64::from_be_bytes(bits));
            plan[body].copy_from_slice(&one.to_be_bytes());
        }
        at += 1 + length;
    }
    format!("plan {}\n", hex(&plan))
}

fn kind(kind: Kind) -> mossladder::Kind {
    match kind {
        Kind::Boolean => mossladder::Kind::Boolean,
        Kind::Int32 => mossladder::Kind::Int32,
        Kind::Int64 => mossladder::Kind::Int64,
        Kind::Float64 => mossladder::Kind::Float64,
        Kind::Date32 => mossladder::Kind::Date32,
    }
}

fn literal(value: Literal) -> mossladder::Literal {
    match value {
        Literal::Null(of) => mossladder::Literal::Null(kind(of)),
        Literal::Boolean(value) => mossladder::Literal::Boolean(value),
        Literal::Int32(value) => mossladder::Literal::Int32(value),
        Literal::Int64(value) => mossladder::Literal::Int64(value),
        Literal::Float64(bits) => mossladder::Literal::Float64(f64::from_bits(bits)),
        Literal::Date32(value) => mossladder::Literal::Date32(value),
    }
}
