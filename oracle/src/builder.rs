//! Plans put together record by record, for tests and for the families of inputs.

use crate::plan::{Column, Comparison, JoinType, Kind, Literal, Nary, Node, Operator, Plan, Unary};
use crate::write::raw;

#[derive(Default, Clone)]
pub struct Builder {
    pub plan: Plan,
}

impl Builder {
    pub fn new() -> Self {
        Self::default()
    }

    /// A column whose name is its number.
    pub fn column(&mut self, kind: Kind) -> u16 {
        let number = self.plan.columns.len() as u16;
        self.plan.columns.push(Column { name: number, kind });
        number
    }

    pub fn node(&mut self, node: Node) -> u16 {
        self.plan.exprs.push(node);
        (self.plan.exprs.len() - 1) as u16
    }

    pub fn literal(&mut self, literal: Literal) -> u16 {
        self.node(Node::Literal(literal))
    }

    pub fn boolean(&mut self, value: bool) -> u16 {
        self.literal(Literal::Boolean(value))
    }

    pub fn int32(&mut self, value: i32) -> u16 {
        self.literal(Literal::Int32(value))
    }

    pub fn int64(&mut self, value: i64) -> u16 {
        self.literal(Literal::Int64(value))
    }

    pub fn float64(&mut self, value: f64) -> u16 {
        self.literal(Literal::Float64(value.to_bits()))
    }

    pub fn null(&mut self, kind: Kind) -> u16 {
        self.literal(Literal::Null(kind))
    }

    pub fn reference(&mut self, column: u16) -> u16 {
        self.node(Node::Column(column))
    }

    pub fn unary(&mut self, op: Unary, inner: u16) -> u16 {
        self.node(Node::Unary(op, inner))
    }

    pub fn not(&mut self, inner: u16) -> u16 {
        self.unary(Unary::Not, inner)
    }

    pub fn compare(&mut self, op: Comparison, left: u16, right: u16) -> u16 {
        self.node(Node::Comparison(op, left, right))
    }

    pub fn nary(&mut self, op: Nary, operands: &[u16]) -> u16 {
        self.node(Node::Nary(op, operands.to_vec()))
    }

    pub fn and(&mut self, operands: &[u16]) -> u16 {
        self.nary(Nary::And, operands)
    }

    pub fn or(&mut self, operands: &[u16]) -> u16 {
        self.nary(Nary::Or, operands)
    }

    pub fn operator(&mut self, operator: Operator) -> u16 {
        self.plan.operators.push(operator);
        (self.plan.operators.len() - 1) as u16
    }

    pub fn scan(&mut self, table: u16, columns: &[u16]) -> u16 {
        self.operator(Operator::Scan { table, columns: columns.to_vec() })
    }

    pub fn const_scan(&mut self, columns: &[u16]) -> u16 {
        self.operator(Operator::ConstScan { columns: columns.to_vec() })
    }

    pub fn select(&mut self, predicate: u16, input: u16) -> u16 {
        self.operator(Operator::Selection { predicate, input })
    }

    pub fn join(&mut self, join_type: JoinType, on: u16, outer: u16, inner: u16) -> u16 {
        self.operator(Operator::Join { join_type, on, outer, inner })
    }

    pub fn file(&self) -> Vec<u8> {
        raw(&self.plan)
    }
}
