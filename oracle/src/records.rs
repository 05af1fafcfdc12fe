//! A file as a row of records, taken apart by their kinds alone: what the generators damage and what
//! the reducer drops.

use crate::plan::{body_length, is_item};

#[derive(Debug, Clone, Copy, PartialEq, Eq)]
pub enum Sort {
    Column,
    Expr,
    Operator,
}

/// A field of a body, by its offset there.
#[derive(Debug, Clone, Copy, PartialEq, Eq)]
pub enum Field {
    /// One byte.
    Code(usize),
    /// Two bytes each, from here on.
    Handle(Sort, usize),
    Count(usize),
    Number(usize),
}

use Field::{Code, Count, Handle, Number};
use Sort::{Column, Expr, Operator};

pub fn fields(kind: u8) -> &'static [Field] {
    match kind {
        0x01 => &[Number(0), Code(2)],
        0x10 | 0x11 => &[Code(0)],
        0x20 | 0x40 => &[Handle(Column, 0)],
        0x21 => &[Code(0), Handle(Expr, 1)],
        0x22 => &[Code(0), Handle(Expr, 1), Handle(Expr, 3)],
        0x23 => &[Code(0), Count(1)],
        0x24 | 0x43 => &[Handle(Expr, 0)],
        0x30 => &[Number(0), Count(2)],
        0x31 | 0x32 => &[Count(0)],
        0x33 => &[Handle(Expr, 0), Handle(Operator, 2)],
        0x34..=0x36 | 0x38 => &[Handle(Operator, 0), Count(2)],
        0x37 => &[Handle(Operator, 0), Count(2), Count(4)],
        0x39 | 0x3a => &[Handle(Operator, 0)],
        0x3b => &[Handle(Operator, 0), Handle(Operator, 2)],
        0x3c => &[Code(0), Handle(Expr, 1), Handle(Operator, 3), Handle(Operator, 5)],
        0x3d => &[Handle(Expr, 0), Handle(Operator, 2), Handle(Operator, 4), Handle(Column, 6)],
        0x41 => &[Handle(Column, 0), Handle(Column, 2)],
        0x42 => &[Handle(Column, 0), Handle(Expr, 2)],
        _ => &[],
    }
}

/// The sort of handle that a record takes.
pub fn sort(kind: u8) -> Option<Sort> {
    match kind {
        0x01 => Some(Column),
        0x10..=0x15 | 0x20..=0x23 => Some(Expr),
        0x30..=0x3d => Some(Operator),
        _ => None,
    }
}

/// The kind of the items that a counting field counts.
pub fn item_kind(kind: u8, count: Field) -> u8 {
    match (kind, count) {
        (0x23, _) => 0x24,
        (0x35, _) => 0x41,
        (0x36, _) => 0x42,
        (0x37, Count(2)) | (0x38, _) => 0x43,
        _ => 0x40,
    }
}

#[derive(Debug, Clone, PartialEq, Eq)]
pub struct Record {
    pub kind: u8,
    pub body: Vec<u8>,
}

impl Record {
    pub fn number(&self, at: usize) -> u16 {
        u16::from_be_bytes([self.body[at], self.body[at + 1]])
    }

    pub fn set(&mut self, at: usize, number: u16) {
        self.body[at..at + 2].copy_from_slice(&number.to_be_bytes());
    }

    pub fn is_item(&self) -> bool {
        is_item(self.kind)
    }
}

/// Whole records from the front, then the bytes that are none.
#[derive(Debug, Clone, PartialEq, Eq)]
pub struct Records {
    pub records: Vec<Record>,
    pub tail: Vec<u8>,
}

impl Records {
    pub fn of(file: &[u8]) -> Self {
        let mut records = Vec::new();
        let mut rest = file;
        while let Some(kind) = rest.first()
            && let Some(length) = body_length(*kind)
            && let Some(body) = rest.get(1..1 + length)
        {
            records.push(Record { kind: *kind, body: body.to_vec() });
            rest = &rest[1 + length..];
        }
        Self { records, tail: rest.to_vec() }
    }

    pub fn bytes(&self) -> Vec<u8> {
        let mut bytes = Vec::new();
        for record in &self.records {
            bytes.push(record.kind);
            bytes.extend(&record.body);
        }
        bytes.extend(&self.tail);
        bytes
    }
}
