//! What either side is asked, and the text of its answer.

use crate::plan::{self, Literal, Plan, Refusal};
use crate::write::{Writer, canonical};

/// One question. Its file is a plan file, damaged or not; what a side answers is the text that
/// `oracle::Oracle` gives.
#[derive(Debug, Clone, PartialEq, Eq)]
pub enum Question {
    Read {
        file: Vec<u8>,
    },
    /// The listing of an operator, or of the last one.
    Derive {
        file: Vec<u8>,
        operator: Option<u16>,
    },
    /// Predicates applied one after another to the facts of an operator.
    Apply {
        file: Vec<u8>,
        operator: u16,
        predicates: Vec<u16>,
    },
    Simplify {
        file: Vec<u8>,
        operator: u16,
    },
    Evaluate {
        file: Vec<u8>,
        expr: u16,
        row: Vec<Literal>,
    },
}

impl Question {
    /// The first word of a line in the fixed list.
    pub fn operation(&self) -> &'static str {
        match self {
            Question::Read { .. } => "read",
            Question::Derive { operator: None, .. } => "facts",
            Question::Derive { .. } => "derive",
            Question::Apply { .. } => "apply",
            Question::Simplify { .. } => "simplify",
            Question::Evaluate { .. } => "eval",
        }
    }

    pub fn file(&self) -> &[u8] {
        match self {
            Question::Read { file }
            | Question::Derive { file, .. }
            | Question::Apply { file, .. }
            | Question::Simplify { file, .. }
            | Question::Evaluate { file, .. } => file,
        }
    }

    pub fn with_file(&self, file: Vec<u8>) -> Question {
        let mut question = self.clone();
        match &mut question {
            Question::Read { file: old }
            | Question::Derive { file: old, .. }
            | Question::Apply { file: old, .. }
            | Question::Simplify { file: old, .. }
            | Question::Evaluate { file: old, .. } => *old = file,
        }
        question
    }

    /// What is asked beside the file, as bytes: numbers of two bytes, a row as a count and that many
    /// literal records.
    pub fn arguments(&self) -> Vec<u8> {
        let mut writer = Writer::default();
        match self {
            Question::Read { .. } | Question::Derive { operator: None, .. } => {}
            Question::Derive { operator: Some(operator), .. }
            | Question::Simplify { operator, .. } => {
                writer.number(*operator);
            }
            Question::Apply { operator, predicates, .. } => {
                writer.number(*operator).number(predicates.len() as u16);
                for predicate in predicates {
                    writer.number(*predicate);
                }
            }
            Question::Evaluate { expr, row, .. } => {
                writer.number(*expr).number(row.len() as u16);
                for value in row {
                    writer.literal(*value);
                }
            }
        }
        writer.bytes
    }

    /// The operation's input in the fixed list: the arguments, then the file.
    pub fn input(&self) -> Vec<u8> {
        let mut bytes = self.arguments();
        bytes.extend(self.file());
        bytes
    }

    /// A question back from its operation and its input.
    pub fn parse(operation: &str, input: &[u8]) -> Option<Question> {
        let mut rest = input;
        Some(match operation {
            "read" => Question::Read { file: rest.to_vec() },
            "facts" => Question::Derive { file: rest.to_vec(), operator: None },
            "derive" => {
                let operator = Some(take_number(&mut rest)?);
                Question::Derive { file: rest.to_vec(), operator }
            }
            "simplify" => {
                let operator = take_number(&mut rest)?;
                Question::Simplify { file: rest.to_vec(), operator }
            }
            "apply" => {
                let operator = take_number(&mut rest)?;
                let count = take_number(&mut rest)?;
                let predicates =
                    (0..count).map(|_| take_number(&mut rest)).collect::<Option<_>>()?;
                Question::Apply { file: rest.to_vec(), operator, predicates }
            }
            "eval" => {
                let expr = take_number(&mut rest)?;
                let count = take_number(&mut rest)?;
                let row = (0..count).map(|_| take_literal(&mut rest)).collect::<Option<_>>()?;
                Question::Evaluate { file: rest.to_vec(), expr, row }
            }
            _ => return None,
        })
    }
}

fn take_number(rest: &mut &[u8]) -> Option<u16> {
    let (number, after) = rest.split_first_chunk::<2>()?;
    *rest = after;
    Some(u16::from_be_bytes(*number))
}

/// A literal record from the front of the bytes.
pub fn take_literal(rest: &mut &[u8]) -> Option<Literal> {
    let kind = *rest.first()?;
    let length = plan::body_length(kind)?;
    let body = rest.get(1..1 + length)?;
    let literal = plan::literal(kind, body, 0).ok()??;
    *rest = &rest[1 + length..];
    Some(literal)
}

/// A row written as literal records, to the bytes' end.
pub fn row(mut bytes: &[u8]) -> Option<Vec<Literal>> {
    let mut row = Vec::new();
    while !bytes.is_empty() {
        row.push(take_literal(&mut bytes)?);
    }
    Some(row)
}

pub fn hex(bytes: &[u8]) -> String {
    bytes.iter().map(|byte| format!("{byte:02x}")).collect()
}

/// Bytes from hex digits; blanks between them are passed over.
pub fn unhex(text: &str) -> Option<Vec<u8>> {
    let digits: Option<Vec<u32>> =
        text.chars().filter(|c| !c.is_whitespace()).map(|c| c.to_digit(16)).collect();
    let digits = digits?;
    digits
        .chunks(2)
        .map(|pair| match pair {
            [high, low] => Some((high * 16 + low) as u8),
            _ => None,
        })
        .collect()
}

/// `plan` and the bytes that plans are compared by.
pub fn plan_line(plan: &Plan) -> String {
    format!("plan {}\n", hex(&canonical(plan)))
}

pub fn refused_line(refusal: Refusal) -> String {
    crate::listing::refused(refusal)
}
