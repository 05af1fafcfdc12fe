//! A plan back into bytes: columns, then expressions each with its operands, then operators each
//! with its items. Two readers agree on a file when they agree on these bytes.

use crate::plan::{Literal, Node, Operator, Plan};

/// The one NaN that a plan is compared by: what a NaN's payload was is not compared.
pub const NAN: u64 = 0x7ff8_0000_0000_0000;

pub fn one_nan(bits: u64) -> u64 {
    if f64::from_bits(bits).is_nan() { NAN } else { bits }
}

#[derive(Default)]
pub struct Writer {
    pub bytes: Vec<u8>,
}

impl Writer {
    pub fn byte(&mut self, byte: u8) -> &mut Self {
        self.bytes.push(byte);
        self
    }

    pub fn number(&mut self, number: u16) -> &mut Self {
        self.bytes.extend(number.to_be_bytes());
        self
    }

    pub fn literal(&mut self, literal: Literal) {
        match literal {
            Literal::Null(kind) => self.bytes.extend([0x10, kind.code()]),
            Literal::Boolean(value) => self.bytes.extend([0x11, u8::from(value)]),
            Literal::Int32(value) => {
                self.bytes.push(0x12);
                self.bytes.extend(value.to_be_bytes());
            }
            Literal::Int64(value) => {
                self.bytes.push(0x13);
                self.bytes.extend(value.to_be_bytes());
            }
            Literal::Float64(bits) => {
                self.bytes.push(0x14);
                self.bytes.extend(bits.to_be_bytes());
            }
            Literal::Date32(value) => {
                self.bytes.push(0x15);
                self.bytes.extend(value.to_be_bytes());
            }
        }
    }

    pub fn node(&mut self, node: &Node) {
        match node {
            Node::Literal(literal) => self.literal(*literal),
            Node::Column(column) => {
                self.byte(0x20).number(*column);
            }
            Node::Unary(op, inner) => {
                self.byte(0x21).byte(*op as u8).number(*inner);
            }
            Node::Comparison(op, left, right) => {
                self.byte(0x22).byte(*op as u8).number(*left).number(*right);
            }
            Node::Nary(op, operands) => {
                self.byte(0x23).byte(*op as u8).number(operands.len() as u16);
                self.items(0x24, operands);
            }
        }
    }

    pub fn operator(&mut self, operator: &Operator) {
        match operator {
            Operator::Scan { table, columns } => {
                self.byte(0x30).number(*table).number(columns.len() as u16);
                self.items(0x40, columns);
            }
            Operator::ConstScan { columns } => {
                self.byte(0x31).number(columns.len() as u16);
                self.items(0x40, columns);
            }
            Operator::TableFunction { columns } => {
                self.byte(0x32).number(columns.len() as u16);
                self.items(0x40, columns);
            }
            Operator::Selection { predicate, input } => {
                self.byte(0x33).number(*predicate).number(*input);
            }
            Operator::Projection { input, columns } => {
                self.byte(0x34).number(*input).number(columns.len() as u16);
                self.items(0x40, columns);
            }
            Operator::Rename { input, pairs } => {
                self.byte(0x35).number(*input).number(pairs.len() as u16);
                self.pairs(0x41, pairs);
            }
            Operator::Map { input, computations } => {
                self.byte(0x36).number(*input).number(computations.len() as u16);
                self.pairs(0x42, computations);
            }
            Operator::Aggregation { input, keys, aggregates } => {
                self.byte(0x37).number(*input);
                self.number(keys.len() as u16).number(aggregates.len() as u16);
                self.items(0x43, keys);
                self.items(0x40, aggregates);
            }
            Operator::Sort { input, keys } => {
                self.byte(0x38).number(*input).number(keys.len() as u16);
                self.items(0x43, keys);
            }
            Operator::Limit { input } => {
                self.byte(0x39).number(*input);
            }
            Operator::Output { input } => {
                self.byte(0x3a).number(*input);
            }
            Operator::CrossProduct { outer, inner } => {
                self.byte(0x3b).number(*outer).number(*inner);
            }
            Operator::Join { join_type, on, outer, inner } => {
                self.byte(0x3c).byte(*join_type as u8).number(*on);
                self.number(*outer).number(*inner);
            }
            Operator::LeftMark { on, outer, inner, marker } => {
                self.byte(0x3d).number(*on).number(*outer);
                self.number(*inner).number(*marker);
            }
        }
    }

    pub fn items(&mut self, kind: u8, handles: &[u16]) {
        for handle in handles {
            self.byte(kind).number(*handle);
        }
    }

    pub fn pairs(&mut self, kind: u8, pairs: &[(u16, u16)]) {
        for (first, second) in pairs {
            self.byte(kind).number(*first).number(*second);
        }
    }

    pub fn plan(&mut self, plan: &Plan) {
        for column in &plan.columns {
            self.byte(0x01).number(column.name).byte(column.kind.code());
        }
        for node in &plan.exprs {
            self.node(node);
        }
        for operator in &plan.operators {
            self.operator(operator);
        }
    }
}

/// The plan's bytes as it stands, payloads of NaN included. A plan that breaks the rules is written
/// too: the generators make files that a reader has to refuse.
pub fn raw(plan: &Plan) -> Vec<u8> {
    let mut writer = Writer::default();
    writer.plan(plan);
    writer.bytes
}

/// The bytes that plans are compared by: every NaN is the one NaN.
pub fn canonical(plan: &Plan) -> Vec<u8> {
    let mut plan = plan.clone();
    for node in &mut plan.exprs {
        if let Node::Literal(Literal::Float64(bits)) = node {
            *bits = one_nan(*bits);
        }
    }
    raw(&plan)
}
