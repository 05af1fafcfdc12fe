//! Plans, rows and files by seed.

use crate::builder::Builder;
use crate::plan::{
    COMPARISONS, Column, Comparison, JOIN_TYPES, JoinType, KINDS, Kind, Literal, NARIES, Nary,
    Node, Operator, Plan, UNARIES, Unary,
};
use crate::random::Random;
use crate::rows::operands;
use crate::write::Writer;

const INT32: [i32; 9] = [0, 1, -1, 5, 7, i32::MIN, i32::MAX, i32::MIN + 1, i32::MAX - 1];

const EXACT: i64 = 1 << 53;
const INT64: [i64; 16] = [
    0,
    1,
    -1,
    5,
    7,
    EXACT - 1,
    EXACT,
    EXACT + 1,
    -EXACT + 1,
    -EXACT,
    -EXACT - 1,
    1 << 31,
    i64::MIN,
    i64::MIN + 1,
    i64::MAX,
    i64::MAX - 1,
];

/// Zeros, small numbers, infinities, NaNs of several payloads, subnormals, the ends of the range and
/// the neighbourhood of 2^53.
const FLOAT64: [u64; 26] = [
    0x0000_0000_0000_0000,
    0x8000_0000_0000_0000,
    0x3ff0_0000_0000_0000,
    0xbff0_0000_0000_0000,
    0x4014_0000_0000_0000,
    0x4014_0000_0000_0001,
    0x401c_0000_0000_0000,
    0x3fe0_0000_0000_0000,
    0x7ff0_0000_0000_0000,
    0xfff0_0000_0000_0000,
    0x7ff8_0000_0000_0000,
    0x7ff8_0000_0000_0001,
    0x7fff_ffff_ffff_ffff,
    0xfff8_0000_0000_0000,
    0x7ff0_0000_0000_0001,
    0x0000_0000_0000_0001,
    0x8000_0000_0000_0001,
    0x000f_ffff_ffff_ffff,
    0x0010_0000_0000_0000,
    0x7fef_ffff_ffff_ffff,
    0xffef_ffff_ffff_ffff,
    0x4340_0000_0000_0000,
    0x4340_0000_0000_0001,
    0x433f_ffff_ffff_ffff,
    0xc340_0000_0000_0000,
    0x43e0_0000_0000_0000,
];

/// Every literal that the families use of one kind, NULL last.
pub fn literals(kind: Kind) -> Vec<Literal> {
    let mut found: Vec<Literal> = match kind {
        Kind::Boolean => vec![Literal::Boolean(false), Literal::Boolean(true)],
        Kind::Int32 => INT32.map(Literal::Int32).to_vec(),
        Kind::Int64 => INT64.map(Literal::Int64).to_vec(),
        Kind::Float64 => FLOAT64.map(Literal::Float64).to_vec(),
        Kind::Date32 => INT32.map(Literal::Date32).to_vec(),
    };
    found.push(Literal::Null(kind));
    found
}

/// The number 5 or 7 of a kind: values that meet often.
fn common(random: &mut Random, kind: Kind) -> Literal {
    let value = random.pick(&[5, 7]);
    match kind {
        Kind::Boolean => Literal::Boolean(value == 5),
        Kind::Int32 => Literal::Int32(value),
        Kind::Int64 => Literal::Int64(value.into()),
        Kind::Float64 => Literal::Float64(f64::from(value).to_bits()),
        Kind::Date32 => Literal::Date32(value),
    }
}

pub fn literal(random: &mut Random, kind: Kind) -> Literal {
    match random.below(20) {
        0..=9 => common(random, kind),
        10..=17 => {
            let listed = literals(kind);
            random.pick(&listed[..listed.len() - 1])
        }
        18 => Literal::Null(kind),
        _ => match kind {
            Kind::Boolean => Literal::Boolean(random.chance(1, 2)),
            Kind::Int32 => Literal::Int32(random.bits() as i32),
            Kind::Int64 => Literal::Int64(random.bits() as i64),
            Kind::Float64 => Literal::Float64(random.bits()),
            Kind::Date32 => Literal::Date32(random.bits() as i32),
        },
    }
}

/// How large a plan may become, and how it leans.
#[derive(Debug, Clone, Copy)]
pub struct Shape {
    pub columns: usize,
    pub exprs: usize,
    pub operators: usize,
    pub items: usize,
    pub lean: Lean,
}

/// Which predicates a plan prefers.
#[derive(Debug, Clone, Copy, PartialEq, Eq)]
pub enum Lean {
    /// Those that become facts, so that large plans are derived.
    Plain,
    /// Those that stay residuals, so that their number comes near its limit.
    Residual,
    Any,
}

/// A shape of any size, small ones most often.
pub fn shape(random: &mut Random) -> Shape {
    let lean = random.pick(&[Lean::Plain, Lean::Plain, Lean::Any, Lean::Residual]);
    match random.below(20) {
        0..=3 => Shape { columns: 3, exprs: 6, operators: 3, items: 8, lean },
        4..=11 => Shape { columns: 6, exprs: 24, operators: 8, items: 40, lean },
        12..=17 => Shape { columns: 20, exprs: 200, operators: 40, items: 600, lean },
        _ => Shape { columns: 64, exprs: 1024, operators: 128, items: 2048, lean },
    }
}

/// A small shape: many such plans are asked in little time.
pub fn small_shape(random: &mut Random) -> Shape {
    let lean = random.pick(&[Lean::Plain, Lean::Any]);
    if random.chance(1, 2) {
        Shape { columns: 3, exprs: 6, operators: 3, items: 8, lean }
    } else {
        Shape { columns: 5, exprs: 16, operators: 6, items: 24, lean }
    }
}

/// A plan that keeps the rules, of some size within the shape.
pub fn plan(random: &mut Random, shape: &Shape) -> Plan {
    let mut made = Making {
        items: shape.items,
        lean: shape.lean,
        unscanned: Vec::new(),
        kinds: Vec::new(),
        references: Vec::new(),
        constants: Vec::new(),
        booleans: Vec::new(),
        truths: Vec::new(),
        residuals: Vec::new(),
        builder: Builder::new(),
    };
    let favourite = random.pick(&KINDS);
    for _ in 0..random.between(shape.columns / 6, shape.columns) {
        made.column(random, favourite);
    }
    let exprs = random.between(shape.exprs / 4, shape.exprs);
    for number in 0..exprs {
        made.expr(random, number < 2 + exprs / 4);
    }
    let operators = if random.chance(1, 20) { 0 } else { 1 + shape.operators / 4 };
    for _ in 0..random.between(operators.min(shape.operators), shape.operators) {
        made.operator(random);
    }
    made.builder.plan
}

struct Making {
    builder: Builder,
    items: usize,
    lean: Lean,
    unscanned: Vec<u16>,
    /// The kind of each expression.
    kinds: Vec<Kind>,
    references: Vec<u16>,
    constants: Vec<u16>,
    booleans: Vec<u16>,
    /// The literals true and false.
    truths: Vec<u16>,
    /// Nodes that are residuals as predicates.
    residuals: Vec<u16>,
}

impl Making {
    fn columns(&self) -> usize {
        self.builder.plan.columns.len()
    }

    fn exprs(&self) -> usize {
        self.kinds.len()
    }

    fn operators(&self) -> usize {
        self.builder.plan.operators.len()
    }

    fn column(&mut self, random: &mut Random, favourite: Kind) {
        let kind = if random.chance(2, 3) { favourite } else { random.pick(&KINDS) };
        let name = match random.below(4) {
            0 => random.bits() as u16,
            1 => random.below(3) as u16,
            _ => self.columns() as u16,
        };
        self.unscanned.push(self.columns() as u16);
        self.builder.plan.columns.push(Column { name, kind });
    }

    fn expr(&mut self, random: &mut Random, leaf: bool) {
        let node = match random.below(100) {
            _ if self.exprs() == 0 => self.constant(random),
            0..=19 => self.reference(random),
            20..=39 => self.constant(random),
            _ if leaf => self.reference(random),
            40..=49 => self.unary(random),
            50..=84 => self.comparison(random),
            _ => self.nary(random),
        };
        let number = self.exprs() as u16;
        let kind = match &node {
            Node::Literal(literal) => {
                self.constants.push(number);
                if matches!(literal, Literal::Boolean(_)) {
                    self.truths.push(number);
                }
                literal.kind()
            }
            Node::Column(column) => {
                self.references.push(number);
                self.builder.plan.columns[usize::from(*column)].kind
            }
            Node::Unary(..) | Node::Nary(Nary::Or, _) => {
                self.residuals.push(number);
                Kind::Boolean
            }
            _ => Kind::Boolean,
        };
        if kind == Kind::Boolean {
            self.booleans.push(number);
        }
        self.kinds.push(kind);
        self.builder.node(node);
    }

    fn constant(&self, random: &mut Random) -> Node {
        if random.chance(1, 6) {
            return Node::Literal(Literal::Boolean(random.chance(1, 2)));
        }
        // A kind that some column has gives more to compare.
        let kind = if self.columns() > 0 && random.chance(4, 5) {
            self.builder.plan.columns[random.below(self.columns())].kind
        } else {
            random.pick(&KINDS)
        };
        Node::Literal(literal(random, kind))
    }

    fn reference(&self, random: &mut Random) -> Node {
        match self.columns() {
            0 => self.constant(random),
            columns => Node::Column(random.below(columns) as u16),
        }
    }

    fn any(&self, random: &mut Random) -> u16 {
        random.below(self.exprs()) as u16
    }

    /// One of these expressions, or any where there is none.
    fn of(&self, random: &mut Random, from: &[u16]) -> u16 {
        if from.is_empty() { self.any(random) } else { random.pick(from) }
    }

    fn boolean(&self, random: &mut Random) -> u16 {
        match random.below(40) {
            0 => self.any(random),
            1..=5 if !self.truths.is_empty() => random.pick(&self.truths),
            6..=25 if self.lean == Lean::Residual => self.of(random, &self.residuals),
            _ => self.of(random, &self.booleans),
        }
    }

    fn unary(&self, random: &mut Random) -> Node {
        let op = if random.chance(1, 20) { Unary::Negate } else { random.pick(&UNARIES[..3]) };
        match op {
            Unary::Not => Node::Unary(op, self.boolean(random)),
            _ => Node::Unary(op, self.any(random)),
        }
    }

    fn comparison(&self, random: &mut Random) -> Node {
        let op = random.pick(&COMPARISONS);
        let op = match op {
            Comparison::NotEq if self.lean == Lean::Plain => Comparison::LtEq,
            other => other,
        };
        let (left, right) = match random.below(20) {
            0..=9 => (self.of(random, &self.references), self.of(random, &self.constants)),
            10..=12 => (self.of(random, &self.constants), self.of(random, &self.references)),
            13..=16 => (self.of(random, &self.references), self.of(random, &self.references)),
            17 => (self.of(random, &self.constants), self.of(random, &self.constants)),
            _ => (self.any(random), self.any(random)),
        };
        Node::Comparison(op, left, right)
    }

    fn nary(&mut self, random: &mut Random) -> Node {
        let op = if random.chance(2, 3) { Nary::And } else { random.pick(&NARIES) };
        let long = if self.lean == Lean::Residual { 3 } else { 12 };
        let most = if random.chance(1, long) { random.between(20, 60) } else { 4 };
        let count = self.count(random, most);
        Node::Nary(op, (0..count).map(|_| self.boolean(random)).collect())
    }

    /// A number of items, taken out of what is left of them.
    fn count(&mut self, random: &mut Random, most: usize) -> usize {
        let count = random.between(0, most.min(self.items));
        self.items -= count;
        count
    }

    fn some_columns(&mut self, random: &mut Random) -> Vec<u16> {
        if self.columns() == 0 {
            return Vec::new();
        }
        let most = self.columns().min(12);
        (0..self.count(random, most)).map(|_| random.below(self.columns()) as u16).collect()
    }

    fn some_exprs(&mut self, random: &mut Random, from: fn(&Self, &mut Random) -> u16) -> Vec<u16> {
        if self.exprs() == 0 {
            return Vec::new();
        }
        (0..self.count(random, 4)).map(|_| from(self, random)).collect()
    }

    fn input(&self, random: &mut Random) -> u16 {
        let operators = self.operators();
        let back = if random.chance(3, 4) { operators.min(3) } else { operators };
        (operators - 1 - random.below(back)) as u16
    }

    /// A few tries for an expression of the preferred form.
    fn predicate(&self, random: &mut Random) -> u16 {
        let patience = if self.lean == Lean::Residual { 24 } else { 6 };
        let tries = if random.chance(1, 8) { 1 } else { patience };
        let mut expr = self.any(random);
        for _ in 1..tries {
            let node = &self.builder.plan.exprs[usize::from(expr)];
            let preferred = match (self.lean, node) {
                (Lean::Plain, Node::Comparison(..)) => {
                    operands(node).iter().all(|e| self.leaf_expr(*e))
                }
                (Lean::Plain, Node::Nary(Nary::And, list)) => list.len() < 3,
                (Lean::Residual, Node::Nary(Nary::And, list)) => list.len() > 4,
                (Lean::Any, _) => true,
                _ => false,
            };
            if preferred {
                return expr;
            }
            expr = self.any(random);
        }
        expr
    }

    fn leaf_expr(&self, expr: u16) -> bool {
        matches!(self.builder.plan.exprs[usize::from(expr)], Node::Literal(_) | Node::Column(_))
    }

    fn leaf(&mut self, random: &mut Random) -> Operator {
        match random.below(5) {
            0 => Operator::ConstScan { columns: self.some_columns(random) },
            1 => Operator::TableFunction { columns: self.some_columns(random) },
            _ => self.scan(random),
        }
    }

    /// Columns that no Scan has yet, now and then one of them twice.
    fn scan(&mut self, random: &mut Random) -> Operator {
        let mut columns = Vec::new();
        let most = self.unscanned.len();
        let count = if random.chance(1, 2) { most.min(self.items) } else { 0 };
        let wanted = if count > 0 { random.between(1, count) } else { most.min(1).min(self.items) };
        self.items -= wanted;
        for _ in 0..wanted {
            columns.push(self.unscanned.swap_remove(random.below(self.unscanned.len())));
        }
        if !columns.is_empty() && self.items > 0 && random.chance(1, 6) {
            self.items -= 1;
            columns.push(random.pick(&columns));
        }
        let table = if random.chance(3, 4) { random.below(3) as u16 } else { random.bits() as u16 };
        Operator::Scan { table, columns }
    }

    fn operator(&mut self, random: &mut Random) {
        let last = self.operators();
        let operator = if last == 0 || random.chance(1, 6) {
            self.leaf(random)
        } else if self.exprs() > 0 && random.chance(3, 5) {
            self.with_expressions(random)
        } else {
            self.without_expressions(random)
        };
        self.builder.operator(operator);
    }

    fn with_expressions(&mut self, random: &mut Random) -> Operator {
        let input = self.input(random);
        match random.below(20) {
            0..=8 => Operator::Selection { predicate: self.predicate(random), input },
            9..=14 => Operator::Join {
                join_type: match self.lean {
                    Lean::Residual if random.chance(2, 3) => JoinType::Inner,
                    _ => random.pick(&JOIN_TYPES),
                },
                on: self.predicate(random),
                outer: input,
                inner: self.input(random),
            },
            15 if self.columns() > 0 => Operator::LeftMark {
                on: self.predicate(random),
                outer: input,
                inner: self.input(random),
                marker: random.below(self.columns()) as u16,
            },
            16 => Operator::Sort { input, keys: self.some_exprs(random, Self::any) },
            17 => {
                let keys = if random.chance(9, 10) && !self.references.is_empty() {
                    self.some_exprs(random, |made, random| random.pick(&made.references))
                } else {
                    self.some_exprs(random, Self::any)
                };
                Operator::Aggregation { input, keys, aggregates: self.some_columns(random) }
            }
            _ => {
                let exprs = self.some_exprs(random, Self::any);
                let column = |e| (random.below(self.builder.plan.columns.len()) as u16, e);
                let computations = if self.columns() == 0 {
                    Vec::new()
                } else {
                    exprs.into_iter().map(column).collect()
                };
                Operator::Map { input, computations }
            }
        }
    }

    fn without_expressions(&mut self, random: &mut Random) -> Operator {
        let input = self.input(random);
        match random.below(12) {
            0..=2 => Operator::Projection { input, columns: self.some_columns(random) },
            3..=5 => {
                let renamed = self.some_columns(random);
                let pairs = renamed.into_iter().map(|r| (r, random.below(self.columns()) as u16));
                Operator::Rename { input, pairs: pairs.collect() }
            }
            6 => Operator::Limit { input },
            7 => Operator::Output { input },
            _ => Operator::CrossProduct { outer: input, inner: self.input(random) },
        }
    }
}

/// A row for a plan: values that the plan's literals have, NULLs, and in one row of twelve a value
/// of another kind than its column's.
pub fn row(random: &mut Random, plan: &Plan) -> Vec<Literal> {
    let constants: Vec<Literal> = plan
        .exprs
        .iter()
        .filter_map(|node| match node {
            Node::Literal(literal) => Some(*literal),
            _ => None,
        })
        .collect();
    let wrong = random.chance(1, 12);
    let mut row: Vec<Literal> = plan
        .columns
        .iter()
        .map(|column| {
            let same: Vec<Literal> =
                constants.iter().copied().filter(|l| l.kind() == column.kind).collect();
            match random.below(10) {
                0 | 1 => Literal::Null(random.pick(&KINDS)),
                2..=6 if !same.is_empty() => random.pick(&same),
                _ => literal(random, column.kind),
            }
        })
        .collect();
    if wrong && !row.is_empty() {
        let place = random.below(row.len());
        let kind = random.pick(&KINDS);
        row[place] = literal(random, kind);
    }
    row
}

/// The plan's records in some other order that its handles allow.
pub fn scattered(random: &mut Random, plan: &Plan) -> Vec<u8> {
    let mut writer = Writer::default();
    let (mut columns, mut exprs, mut operators) = (0, 0, 0);
    loop {
        let mut ready = Vec::new();
        if columns < plan.columns.len() {
            ready.push(0);
        }
        if plan.exprs.get(exprs).is_some_and(|node| columns_needed(node) <= columns) {
            ready.push(1);
        }
        if plan.operators.get(operators).is_some_and(|operator| {
            let (column, expr) = needs(operator);
            column <= columns && expr <= exprs
        }) {
            ready.push(2);
        }
        if ready.is_empty() {
            return writer.bytes;
        }
        match random.pick(&ready) {
            0 => {
                let column = plan.columns[columns];
                writer.byte(0x01).number(column.name).byte(column.kind.code());
                columns += 1;
            }
            1 => {
                writer.node(&plan.exprs[exprs]);
                exprs += 1;
            }
            _ => {
                writer.operator(&plan.operators[operators]);
                operators += 1;
            }
        }
    }
}

/// Only a column reference waits for a column; operands always stand earlier.
fn columns_needed(node: &Node) -> usize {
    match node {
        Node::Column(column) => usize::from(*column) + 1,
        _ => 0,
    }
}

/// How many columns and expressions an operator's handles need.
fn needs(operator: &Operator) -> (usize, usize) {
    let past = |handles: &[u16]| handles.iter().map(|h| usize::from(*h) + 1).max().unwrap_or(0);
    match operator {
        Operator::Scan { columns, .. }
        | Operator::ConstScan { columns }
        | Operator::TableFunction { columns }
        | Operator::Projection { columns, .. } => (past(columns), 0),
        Operator::Rename { pairs, .. } => {
            (pairs.iter().map(|(r, o)| past(&[*r, *o])).max().unwrap_or(0), 0)
        }
        Operator::Map { computations, .. } => (
            computations.iter().map(|(c, _)| past(&[*c])).max().unwrap_or(0),
            computations.iter().map(|(_, e)| past(&[*e])).max().unwrap_or(0),
        ),
        Operator::Aggregation { keys, aggregates, .. } => (past(aggregates), past(keys)),
        Operator::Sort { keys, .. } => (0, past(keys)),
        Operator::Selection { predicate, .. } => (0, past(&[*predicate])),
        Operator::Join { on, .. } => (0, past(&[*on])),
        Operator::LeftMark { on, marker, .. } => (past(&[*marker]), past(&[*on])),
        Operator::Limit { .. } | Operator::Output { .. } | Operator::CrossProduct { .. } => (0, 0),
    }
}
