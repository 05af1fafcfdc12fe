//! The fixed list of answers: a line for each case, to be replayed where there is no Rust.
//!
//! A line is `OPERATION INPUT ANSWER`: the operation's name, its input in hex (`-` for none) as
//! `Question::input` writes it, and the answer's lines with `/` between them.

use std::ops::ControlFlow;

use crate::builder::Builder;
use crate::compare::askable;
use crate::facts::walk;
use crate::families::{FAMILIES, forms};
use crate::paths::expressions;
use crate::plan::{self, Node, Operator, Plan};
use crate::question::{Question, hex};
use crate::random::Random;
use crate::records::{Records, Sort, sort};
use crate::reduce::without;
use crate::rows::operands;
use crate::subject::{Oracle, Subject};

/// A family, the operation taken from it (every one where it is empty), about how many cases, and the
/// longest file among them.
const PARTS: [(&str, &str, usize, usize); 28] = [
    ("bytes", "", 120, 2),
    ("records", "", 500, 100),
    ("clashes", "", 350, 100),
    ("clashes", "", 100, 500),
    ("clashes", "", 8, 7000),
    ("cuts", "", 50, 2000),
    ("comparisons", "apply", 900, 200),
    ("comparisons", "eval", 500, 200),
    ("sequences", "", 500, 1000),
    ("expressions", "derive", 200, 200),
    ("expressions", "simplify", 500, 200),
    ("expressions", "eval", 300, 200),
    ("operators", "", 400, 1000),
    ("residuals", "", 60, 2000),
    ("limits", "read", 12, 7000),
    ("limits", "simplify", 4, 7000),
    ("room", "", 16, 7000),
    ("deep", "", 12, 7000),
    ("shared", "", 90, 1000),
    ("programs", "derive", 60, 400),
    ("programs", "simplify", 250, 400),
    ("programs", "eval", 100, 400),
    ("random", "derive", 150, 400),
    ("random", "apply", 100, 400),
    ("random", "simplify", 200, 400),
    ("random", "eval", 150, 400),
    ("damaged", "read", 350, 250),
    ("damaged", "facts", 150, 250),
];

/// Every line of the list.
pub fn lines() -> Vec<String> {
    let mut questions = single_forms();
    for (name, operation, count, longest) in PARTS {
        questions.extend(some_of(name, operation, count, longest));
    }
    let mut lines: Vec<String> = Vec::new();
    for line in questions.iter().map(line) {
        if !lines.contains(&line) {
            lines.push(line);
        }
    }
    lines
}

fn line(question: &Question) -> String {
    let input = question.input();
    let input = if input.is_empty() { "-".to_string() } else { hex(&input) };
    let answer = Oracle.answer(question);
    format!("{} {input} {}", question.operation(), answer.trim_end().replace('\n', "/"))
}

/// Every form of predicate, applied once and twice.
fn single_forms() -> Vec<Question> {
    let mut b = Builder::new();
    let forms = forms(&mut b);
    let file = b.file();
    let mut questions = Vec::new();
    for form in forms {
        for predicates in [vec![form], vec![form, form]] {
            let question = Question::Apply { file: file.clone(), operator: 0, predicates };
            questions.push(trimmed(&question));
        }
    }
    questions
}

/// About so many questions of a family, spread over it by seed.
fn some_of(name: &str, operation: &str, count: usize, longest: usize) -> Vec<Question> {
    let family = FAMILIES.iter().find(|family| family.name == name).expect("the family is listed");
    let many = family.count.min(1000);
    let fits = |question: &Question| {
        let wanted = operation.is_empty() || operation == question.operation();
        wanted && question.file().len() <= longest && askable(question)
    };
    let mut total = 0;
    let _ = (family.run)(&mut Random::new(1), many, &mut |question| {
        total += usize::from(fits(&question));
        ControlFlow::Continue(())
    });
    let mut chosen = Vec::new();
    let mut choice = Random::new(2);
    let _ = (family.run)(&mut Random::new(1), many, &mut |question| {
        if fits(&question) && choice.below(total) < count {
            chosen.push(trimmed(&question));
        }
        ControlFlow::Continue(())
    });
    chosen
}

/// The question without the records that it does not reach, where it asks about a plan that is there.
/// Reading and the last operator's facts are asked of the whole file.
fn trimmed(question: &Question) -> Question {
    let Ok(plan) = plan::read(question.file()) else {
        return question.clone();
    };
    let (operators, exprs) = match question {
        Question::Derive { operator: Some(operator), .. } | Question::Simplify { operator, .. } => {
            (vec![*operator], Vec::new())
        }
        Question::Apply { operator, predicates, .. } => (vec![*operator], predicates.clone()),
        Question::Evaluate { expr, .. } => (Vec::new(), vec![*expr]),
        _ => return question.clone(),
    };
    let there = operators.iter().all(|o| usize::from(*o) < plan.operators.len())
        && exprs.iter().all(|e| usize::from(*e) < plan.exprs.len());
    // At a size's limit every record counts.
    if !there || question.file().len() > 2000 {
        return question.clone();
    }
    let reached = Reached::of(&plan, &operators, &exprs);
    let mut next = [0; 3];
    let keeps: Vec<bool> = Records::of(question.file())
        .records
        .iter()
        .map(|record| match sort(record.kind) {
            None => true,
            Some(sort) => {
                next[sort as usize] += 1;
                reached.has(sort, next[sort as usize] - 1)
            }
        })
        .collect();
    without(question, |place| !keeps[place])
}

struct Reached {
    columns: Vec<bool>,
    exprs: Vec<bool>,
    operators: Vec<bool>,
}

impl Reached {
    fn of(plan: &Plan, operators: &[u16], exprs: &[u16]) -> Self {
        let mut reached = Self {
            columns: vec![false; plan.columns.len()],
            exprs: vec![false; plan.exprs.len()],
            operators: vec![false; plan.operators.len()],
        };
        for operator in operators.iter().flat_map(|operator| walk(plan, *operator)) {
            reached.operators[usize::from(operator)] = true;
            let operator = &plan.operators[usize::from(operator)];
            for expr in expressions(operator) {
                reached.exprs[usize::from(expr)] = true;
            }
            for column in columns(operator) {
                reached.columns[usize::from(column)] = true;
            }
        }
        for expr in exprs {
            reached.exprs[usize::from(*expr)] = true;
        }
        for number in (0..plan.exprs.len()).rev() {
            if !reached.exprs[number] {
                continue;
            }
            if let Node::Column(column) = &plan.exprs[number] {
                reached.columns[usize::from(*column)] = true;
            }
            for operand in operands(&plan.exprs[number]) {
                reached.exprs[usize::from(operand)] = true;
            }
        }
        reached
    }

    fn has(&self, sort: Sort, number: usize) -> bool {
        match sort {
            Sort::Column => self.columns[number],
            Sort::Expr => self.exprs[number],
            Sort::Operator => self.operators[number],
        }
    }
}

fn columns(operator: &Operator) -> Vec<u16> {
    match operator {
        Operator::Scan { columns, .. }
        | Operator::ConstScan { columns }
        | Operator::TableFunction { columns }
        | Operator::Projection { columns, .. } => columns.clone(),
        Operator::Rename { pairs, .. } => pairs.iter().flat_map(|(r, o)| [*r, *o]).collect(),
        Operator::Map { computations, .. } => computations.iter().map(|(c, _)| *c).collect(),
        Operator::Aggregation { aggregates, .. } => aggregates.clone(),
        Operator::LeftMark { marker, .. } => vec![*marker],
        _ => Vec::new(),
    }
}
