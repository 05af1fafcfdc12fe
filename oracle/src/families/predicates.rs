//! Predicates and expressions: applied, simplified and evaluated.

use crate::builder::Builder;
use crate::generate::{self, literals};
use crate::plan::{
    COMPARISONS, Comparison, KINDS, Kind, Literal, NARIES, Nary, Node, UNARIES, Unary,
};
use crate::question::Question;
use crate::random::Random;

use super::{Ask, Step, derive};

/// A side of a comparison: one of two columns of a kind that are scanned, one that is not, a literal.
#[derive(Debug, Clone, Copy, PartialEq, Eq)]
enum Leaf {
    Scanned(Kind, u8),
    Unscanned(Kind),
    Literal(Literal),
}

fn leaves() -> Vec<Leaf> {
    let mut found = Vec::new();
    for kind in KINDS {
        found.extend([Leaf::Scanned(kind, 0), Leaf::Scanned(kind, 1), Leaf::Unscanned(kind)]);
        found.extend(literals(kind).into_iter().map(Leaf::Literal));
    }
    found
}

/// The reference or literal; a column that both sides name is there once.
fn add_leaf(b: &mut Builder, leaf: Leaf, columns: &mut Vec<Leaf>) -> u16 {
    let kind = match leaf {
        Leaf::Literal(literal) => return b.literal(literal),
        Leaf::Scanned(kind, _) | Leaf::Unscanned(kind) => kind,
    };
    let column = match columns.iter().position(|known| *known == leaf) {
        Some(place) => place as u16,
        None => {
            columns.push(leaf);
            b.column(kind)
        }
    };
    b.reference(column)
}

pub fn comparisons(random: &mut Random, _: usize, ask: &mut Ask) -> Step {
    let leaves = leaves();
    for left in &leaves {
        for right in &leaves {
            let (mut b, mut columns) = (Builder::new(), Vec::new());
            let (l, r) =
                (add_leaf(&mut b, *left, &mut columns), add_leaf(&mut b, *right, &mut columns));
            let scanned: Vec<u16> = (0..columns.len() as u16)
                .filter(|c| matches!(columns[usize::from(*c)], Leaf::Scanned(..)))
                .collect();
            let operator = b.scan(0, &scanned);
            // The seven comparisons stand beside each other in one plan.
            let tests: Vec<u16> = COMPARISONS.iter().map(|op| b.compare(*op, l, r)).collect();
            let file = b.file();
            for test in tests {
                let predicates = vec![test];
                ask(Question::Apply { file: file.clone(), operator, predicates })?;
                let row = generate::row(random, &b.plan);
                ask(Question::Evaluate { file: file.clone(), expr: test, row })?;
            }
        }
    }
    Step::Continue(())
}

/// Predicates of every form that the facts tell apart, over x, y (Int32), z (Int64), f (Float64).
pub fn forms(b: &mut Builder) -> Vec<u16> {
    let columns = [Kind::Int32, Kind::Int32, Kind::Int64, Kind::Float64].map(|k| b.column(k));
    let without = b.column(Kind::Int32);
    b.scan(0, &columns);
    let [x, y, z, f] = columns.map(|column| b.reference(column));
    let lost = b.reference(without);
    let mut forms = Vec::new();
    let (five, seven) = (b.int32(5), b.int32(7));
    for op in COMPARISONS {
        forms.push(b.compare(op, x, five));
        forms.push(b.compare(op, five, x));
        forms.push(b.compare(op, x, y));
    }
    forms.push(b.compare(Comparison::Eq, y, x));
    for op in [Comparison::Eq, Comparison::LtEq, Comparison::Gt] {
        forms.push(b.compare(op, y, seven));
    }
    let wide = b.int64(5);
    let (exact, past) = (b.int64(1 << 53), b.int64((1 << 53) + 1));
    forms.push(b.compare(Comparison::Eq, z, wide));
    forms.push(b.compare(Comparison::Eq, z, five));
    forms.push(b.compare(Comparison::Lt, z, exact));
    forms.push(b.compare(Comparison::Lt, z, past));
    forms.push(b.compare(Comparison::Eq, z, past));
    forms.push(b.compare(Comparison::Eq, x, z));
    let floats = [0.0, -0.0, f64::NAN, f64::INFINITY, 5.0].map(|value| b.float64(value));
    for float in floats {
        forms.push(b.compare(Comparison::Eq, f, float));
        forms.push(b.compare(Comparison::GtEq, f, float));
    }
    forms.push(b.compare(Comparison::LtEq, f, floats[0]));
    forms.push(b.compare(Comparison::LtEq, f, floats[1]));
    forms.push(b.compare(Comparison::Eq, f, z));
    let null = b.null(Kind::Int32);
    forms.push(b.compare(Comparison::NotEq, null, x));
    forms.push(b.compare(Comparison::IsNotDistinctFrom, x, null));
    forms.push(b.compare(Comparison::Eq, x, x));
    forms.push(b.compare(Comparison::Eq, lost, five));
    forms.push(b.compare(Comparison::Eq, lost, x));
    forms.push(b.compare(Comparison::Eq, five, seven));
    forms.extend([b.boolean(true), b.boolean(false), null, x]);
    let negated = b.not(forms[0]);
    forms.push(negated);
    forms.push(b.or(&[forms[0], forms[1]]));
    forms.push(b.and(&[forms[3], negated]));
    forms.push(b.and(&[]));
    forms
}

pub fn sequences(random: &mut Random, _: usize, ask: &mut Ask) -> Step {
    let mut b = Builder::new();
    let forms = forms(&mut b);
    let file = b.file();
    for first in &forms {
        for second in &forms {
            let predicates = vec![*first, *second];
            ask(Question::Apply { file: file.clone(), operator: 0, predicates })?;
        }
    }
    for _ in 0..4000 {
        let predicates = (0..random.between(3, 9)).map(|_| random.pick(&forms)).collect();
        ask(Question::Apply { file: file.clone(), operator: 0, predicates })?;
    }
    Step::Continue(())
}

#[derive(Debug, Clone)]
enum Tree {
    Leaf(u16),
    Unary(Unary, Box<Tree>),
    Comparison(Comparison, Vec<Tree>),
    Nary(Nary, Vec<Tree>),
}

impl Tree {
    fn add(&self, b: &mut Builder) -> u16 {
        match self {
            Tree::Leaf(number) => *number,
            Tree::Unary(op, inner) => {
                let inner = inner.add(b);
                b.unary(*op, inner)
            }
            Tree::Comparison(op, sides) => {
                let (left, right) = (sides[0].add(b), sides[1].add(b));
                b.compare(*op, left, right)
            }
            Tree::Nary(op, operands) => {
                let operands: Vec<u16> = operands.iter().map(|operand| operand.add(b)).collect();
                b.nary(*op, &operands)
            }
        }
    }
}

/// Expressions as trees over six leaves, by how many nodes they have.
fn trees() -> Vec<Vec<Tree>> {
    let mut sizes: Vec<Vec<Tree>> = vec![Vec::new(); 5];
    sizes[1] = (0..6).map(Tree::Leaf).collect();
    sizes[1].extend(NARIES.map(|op| Tree::Nary(op, Vec::new())));
    for size in 2..=4 {
        let mut found = Vec::new();
        for inner in &sizes[size - 1] {
            found.extend(UNARIES.map(|op| Tree::Unary(op, Box::new(inner.clone()))));
            found.extend(NARIES.map(|op| Tree::Nary(op, vec![inner.clone()])));
        }
        for first in 1..size - 1 {
            for left in &sizes[first] {
                for right in &sizes[size - 1 - first] {
                    let pair = || vec![left.clone(), right.clone()];
                    found.extend(COMPARISONS.map(|op| Tree::Comparison(op, pair())));
                    found.extend(NARIES.map(|op| Tree::Nary(op, pair())));
                }
            }
        }
        if size == 4 {
            for a in &sizes[1] {
                for b in &sizes[1] {
                    for c in &sizes[1] {
                        let three = || vec![a.clone(), b.clone(), c.clone()];
                        found.extend(NARIES.map(|op| Tree::Nary(op, three())));
                    }
                }
            }
        }
        sizes[size] = found;
    }
    sizes
}

/// Leaves true, false, NULL, a Boolean column, an Int32 column and 5, over a Scan of both columns.
fn six_leaves() -> Builder {
    let mut b = Builder::new();
    let (p, x) = (b.column(Kind::Boolean), b.column(Kind::Int32));
    b.boolean(true);
    b.boolean(false);
    b.null(Kind::Boolean);
    b.reference(p);
    b.reference(x);
    b.int32(5);
    b.scan(0, &[p, x]);
    b
}

const ROWS: [[Literal; 2]; 4] = [
    [Literal::Boolean(true), Literal::Int32(5)],
    [Literal::Boolean(false), Literal::Null(Kind::Int32)],
    [Literal::Null(Kind::Boolean), Literal::Int32(-5)],
    [Literal::Int32(5), Literal::Int32(5)],
];

fn ask_expression(b: &Builder, expr: u16, ask: &mut Ask) -> Step {
    let mut b = b.clone();
    let asked = b.select(expr, 0);
    let file = b.file();
    ask(derive(file.clone(), asked))?;
    ask(Question::Simplify { file: file.clone(), operator: asked })?;
    for row in ROWS {
        ask(Question::Evaluate { file: file.clone(), expr, row: row.to_vec() })?;
    }
    Step::Continue(())
}

pub fn every_expression(_: &mut Random, _: usize, ask: &mut Ask) -> Step {
    let base = six_leaves();
    for tree in trees().iter().flatten() {
        let mut b = base.clone();
        let expr = tree.add(&mut b);
        ask_expression(&b, expr, ask)?;
    }
    Step::Continue(())
}

pub fn programs(random: &mut Random, count: usize, ask: &mut Ask) -> Step {
    for _ in 0..count {
        let mut b = six_leaves();
        let mut last = 5;
        for _ in 0..random.between(2, 6) {
            let some = |random: &mut Random| {
                if random.chance(1, 2) { last } else { random.between(0, last.into()) as u16 }
            };
            let node = match random.below(5) {
                0 => Node::Unary(random.pick(&UNARIES), some(random)),
                1 => Node::Comparison(random.pick(&COMPARISONS), some(random), some(random)),
                _ => {
                    let operands = (0..random.below(4)).map(|_| some(random)).collect();
                    Node::Nary(random.pick(&NARIES), operands)
                }
            };
            last = b.node(node);
        }
        ask_expression(&b, last, ask)?;
    }
    Step::Continue(())
}

/// e over e over e: the paths double or treble with every level, and past some level optd does not end.
pub fn shared(_: &mut Random, _: usize, ask: &mut Ask) -> Step {
    let mut base = Builder::new();
    let forms = forms(&mut base);
    for (number, form) in forms.iter().enumerate() {
        for kind in 0..4 {
            let mut b = base.clone();
            let mut last = *form;
            for depth in 1..=40 {
                last = match kind {
                    0 => b.and(&[last, last]),
                    1 => b.and(&[last, *form, last]),
                    2 => b.or(&[last, last]),
                    _ => b.compare(Comparison::Eq, last, last),
                };
                if depth > 3 && (number % 8 != 0 || depth % 6 != 0) {
                    continue;
                }
                let mut b = b.clone();
                let asked = b.select(last, 0);
                let file = b.file();
                ask(derive(file.clone(), asked))?;
                ask(Question::Simplify { file: file.clone(), operator: asked })?;
                ask(Question::Evaluate { file, expr: last, row: Vec::new() })?;
            }
        }
    }
    Step::Continue(())
}
