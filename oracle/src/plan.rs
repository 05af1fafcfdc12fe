//! The plan file: what a plan holds, and a reader from bytes to a plan or a refusal.

pub const COLUMNS: usize = 64;
pub const EXPRESSIONS: usize = 1024;
pub const OPERATORS: usize = 128;
pub const ITEMS: usize = 2048;
pub const RESIDUALS: usize = 64;

/// A refusal by its number, with the place that a listing prints: a file offset for 1 to 5,
/// otherwise an operator.
#[derive(Debug, Clone, Copy, PartialEq, Eq)]
pub struct Refusal {
    pub number: u8,
    pub place: usize,
}

pub const SHORT: u8 = 1;
pub const UNKNOWN: u8 = 2;
pub const ROOM: u8 = 3;
pub const HANDLE: u8 = 4;
pub const SCANNED_TWICE: u8 = 5;
pub const UNSUPPORTED_KEY: u8 = 6;
pub const RESIDUAL: u8 = 7;
pub const NO_SUCH: u8 = 8;
pub const UNTYPED: u8 = 9;
pub const BAD_ROW: u8 = 10;

#[derive(Debug, Clone, Copy, PartialEq, Eq)]
pub enum Kind {
    Boolean,
    Int32,
    Int64,
    Float64,
    Date32,
}

pub const KINDS: [Kind; 5] = [Kind::Boolean, Kind::Int32, Kind::Int64, Kind::Float64, Kind::Date32];

impl Kind {
    pub fn code(self) -> u8 {
        self as u8 + 1
    }
}

/// A literal, or a row's value. A float is held by its bits, so that a NaN keeps its payload here.
#[derive(Debug, Clone, Copy, PartialEq, Eq)]
pub enum Literal {
    Null(Kind),
    Boolean(bool),
    Int32(i32),
    Int64(i64),
    Float64(u64),
    Date32(i32),
}

impl Literal {
    pub fn kind(self) -> Kind {
        match self {
            Literal::Null(kind) => kind,
            Literal::Boolean(_) => Kind::Boolean,
            Literal::Int32(_) => Kind::Int32,
            Literal::Int64(_) => Kind::Int64,
            Literal::Float64(_) => Kind::Float64,
            Literal::Date32(_) => Kind::Date32,
        }
    }
}

#[derive(Debug, Clone, Copy, PartialEq, Eq)]
pub enum Unary {
    Not,
    IsNull,
    IsNotNull,
    Negate,
}

pub const UNARIES: [Unary; 4] = [Unary::Not, Unary::IsNull, Unary::IsNotNull, Unary::Negate];

#[derive(Debug, Clone, Copy, PartialEq, Eq)]
pub enum Comparison {
    Eq,
    NotEq,
    Lt,
    LtEq,
    Gt,
    GtEq,
    IsNotDistinctFrom,
}

pub const COMPARISONS: [Comparison; 7] = [
    Comparison::Eq,
    Comparison::NotEq,
    Comparison::Lt,
    Comparison::LtEq,
    Comparison::Gt,
    Comparison::GtEq,
    Comparison::IsNotDistinctFrom,
];

#[derive(Debug, Clone, Copy, PartialEq, Eq)]
pub enum Nary {
    And,
    Or,
}

pub const NARIES: [Nary; 2] = [Nary::And, Nary::Or];

#[derive(Debug, Clone, Copy, PartialEq, Eq)]
pub enum JoinType {
    Inner,
    LeftSemi,
    LeftAnti,
    LeftOuter,
    Single,
    RightOuter,
    FullOuter,
}

pub const JOIN_TYPES: [JoinType; 7] = [
    JoinType::Inner,
    JoinType::LeftSemi,
    JoinType::LeftAnti,
    JoinType::LeftOuter,
    JoinType::Single,
    JoinType::RightOuter,
    JoinType::FullOuter,
];

#[derive(Debug, Clone, Copy, PartialEq, Eq)]
pub struct Column {
    pub name: u16,
    pub kind: Kind,
}

#[derive(Debug, Clone, PartialEq, Eq)]
pub enum Node {
    Literal(Literal),
    Column(u16),
    Unary(Unary, u16),
    Comparison(Comparison, u16, u16),
    Nary(Nary, Vec<u16>),
}

#[derive(Debug, Clone, PartialEq, Eq)]
pub enum Operator {
    Scan {
        table: u16,
        columns: Vec<u16>,
    },
    ConstScan {
        columns: Vec<u16>,
    },
    TableFunction {
        columns: Vec<u16>,
    },
    Selection {
        predicate: u16,
        input: u16,
    },
    Projection {
        input: u16,
        columns: Vec<u16>,
    },
    /// Pairs of renamed and original.
    Rename {
        input: u16,
        pairs: Vec<(u16, u16)>,
    },
    /// Pairs of column and expression.
    Map {
        input: u16,
        computations: Vec<(u16, u16)>,
    },
    Aggregation {
        input: u16,
        keys: Vec<u16>,
        aggregates: Vec<u16>,
    },
    Sort {
        input: u16,
        keys: Vec<u16>,
    },
    Limit {
        input: u16,
    },
    Output {
        input: u16,
    },
    CrossProduct {
        outer: u16,
        inner: u16,
    },
    Join {
        join_type: JoinType,
        on: u16,
        outer: u16,
        inner: u16,
    },
    LeftMark {
        on: u16,
        outer: u16,
        inner: u16,
        marker: u16,
    },
}

impl Operator {
    /// The operators that this one reads, outer before inner.
    pub fn inputs(&self) -> Vec<u16> {
        match self {
            Operator::Scan { .. } | Operator::ConstScan { .. } | Operator::TableFunction { .. } => {
                Vec::new()
            }
            Operator::Selection { input, .. }
            | Operator::Projection { input, .. }
            | Operator::Rename { input, .. }
            | Operator::Map { input, .. }
            | Operator::Aggregation { input, .. }
            | Operator::Sort { input, .. }
            | Operator::Limit { input }
            | Operator::Output { input } => vec![*input],
            Operator::CrossProduct { outer, inner }
            | Operator::Join { outer, inner, .. }
            | Operator::LeftMark { outer, inner, .. } => vec![*outer, *inner],
        }
    }

    pub fn items(&self) -> usize {
        match self {
            Operator::Scan { columns, .. }
            | Operator::ConstScan { columns }
            | Operator::TableFunction { columns }
            | Operator::Projection { columns, .. } => columns.len(),
            Operator::Rename { pairs, .. } => pairs.len(),
            Operator::Map { computations, .. } => computations.len(),
            Operator::Aggregation { keys, aggregates, .. } => keys.len() + aggregates.len(),
            Operator::Sort { keys, .. } => keys.len(),
            _ => 0,
        }
    }
}

#[derive(Debug, Clone, Default, PartialEq, Eq)]
pub struct Plan {
    pub columns: Vec<Column>,
    pub exprs: Vec<Node>,
    pub operators: Vec<Operator>,
}

impl Plan {
    /// List items of every kind together.
    pub fn items(&self) -> usize {
        let operands = self.exprs.iter().map(|node| match node {
            Node::Nary(_, operands) => operands.len(),
            _ => 0,
        });
        operands.sum::<usize>() + self.operators.iter().map(Operator::items).sum::<usize>()
    }

    /// Whether some size of the rules is passed.
    pub fn past_room(&self) -> bool {
        self.columns.len() > COLUMNS
            || self.exprs.len() > EXPRESSIONS
            || self.operators.len() > OPERATORS
            || self.items() > ITEMS
    }
}

/// The length of a body by its record's kind; None for a kind that is not listed.
pub fn body_length(kind: u8) -> Option<usize> {
    Some(match kind {
        0x10 | 0x11 => 1,
        0x20 | 0x24 | 0x31 | 0x32 | 0x39 | 0x3a | 0x40 | 0x43 => 2,
        0x01 | 0x21 | 0x23 => 3,
        0x12 | 0x15 | 0x30 | 0x33..=0x36 | 0x38 | 0x3b | 0x41 | 0x42 => 4,
        0x22 => 5,
        0x37 => 6,
        0x3c => 7,
        0x13 | 0x14 | 0x3d => 8,
        _ => return None,
    })
}

/// 24 and 40 to 43 stand only in a counted list.
pub fn is_item(kind: u8) -> bool {
    matches!(kind, 0x24 | 0x40..=0x43)
}

pub fn read(bytes: &[u8]) -> Result<Plan, Refusal> {
    let mut reader =
        Reader { bytes, at: 0, plan: Plan::default(), items: 0, scanned: [None; COLUMNS] };
    while reader.at < bytes.len() {
        reader.record()?;
    }
    Ok(reader.plan)
}

struct Reader<'a> {
    bytes: &'a [u8],
    at: usize,
    plan: Plan,
    items: usize,
    /// The Scan operator that a column stands in.
    scanned: [Option<usize>; COLUMNS],
}

fn refuse<T>(number: u8, place: usize) -> Result<T, Refusal> {
    Err(Refusal { number, place })
}

fn number(body: &[u8], at: usize) -> u16 {
    u16::from_be_bytes([body[at], body[at + 1]])
}

fn code<T: Copy>(listed: &[T], code: u8, start: usize) -> Result<T, Refusal> {
    match listed.get(usize::from(code)) {
        Some(found) => Ok(*found),
        None => refuse(UNKNOWN, start),
    }
}

fn kind_of(code: u8, start: usize) -> Result<Kind, Refusal> {
    match code {
        1..=5 => Ok(KINDS[usize::from(code) - 1]),
        _ => refuse(UNKNOWN, start),
    }
}

/// A handle stands at `at` of the body and must be among the first `defined`.
fn handle(body: &[u8], at: usize, defined: usize, start: usize) -> Result<u16, Refusal> {
    let found = number(body, at);
    if usize::from(found) < defined { Ok(found) } else { refuse(HANDLE, start) }
}

/// A literal by its record; None for a kind that is no literal's.
pub fn literal(kind: u8, body: &[u8], start: usize) -> Result<Option<Literal>, Refusal> {
    Ok(Some(match kind {
        0x10 => Literal::Null(kind_of(body[0], start)?),
        0x11 => Literal::Boolean(code(&[false, true], body[0], start)?),
        0x12 => Literal::Int32(i32::from_be_bytes(body.try_into().unwrap())),
        0x13 => Literal::Int64(i64::from_be_bytes(body.try_into().unwrap())),
        0x14 => Literal::Float64(u64::from_be_bytes(body.try_into().unwrap())),
        0x15 => Literal::Date32(i32::from_be_bytes(body.try_into().unwrap())),
        _ => return Ok(None),
    }))
}

impl<'a> Reader<'a> {
    fn record(&mut self) -> Result<(), Refusal> {
        let start = self.at;
        let kind = self.bytes[start];
        if is_item(kind) {
            return refuse(UNKNOWN, start);
        }
        let body = self.body(kind)?;
        match kind {
            0x01 => self.column(start, body),
            0x10..=0x23 => self.expression(start, kind, body),
            _ => self.operator(start, kind, body),
        }
    }

    /// Passes over the kind byte and the body that the kind fixes.
    fn body(&mut self, kind: u8) -> Result<&'a [u8], Refusal> {
        let start = self.at;
        let Some(length) = body_length(kind) else {
            return refuse(UNKNOWN, start);
        };
        match self.bytes.get(start + 1..start + 1 + length) {
            Some(body) => {
                self.at = start + 1 + length;
                Ok(body)
            }
            None => refuse(SHORT, start),
        }
    }

    fn column(&mut self, start: usize, body: &[u8]) -> Result<(), Refusal> {
        let name = number(body, 0);
        let kind = kind_of(body[2], start)?;
        if self.plan.columns.len() == COLUMNS {
            return refuse(ROOM, start);
        }
        self.plan.columns.push(Column { name, kind });
        Ok(())
    }

    fn expression(&mut self, start: usize, kind: u8, body: &[u8]) -> Result<(), Refusal> {
        let own = self.plan.exprs.len();
        let node = if let Some(literal) = literal(kind, body, start)? {
            Node::Literal(literal)
        } else {
            match kind {
                0x20 => Node::Column(handle(body, 0, self.plan.columns.len(), start)?),
                0x21 => {
                    let op = code(&UNARIES, body[0], start)?;
                    Node::Unary(op, handle(body, 1, own, start)?)
                }
                0x22 => {
                    let op = code(&COMPARISONS, body[0], start)?;
                    let left = handle(body, 1, own, start)?;
                    Node::Comparison(op, left, handle(body, 3, own, start)?)
                }
                _ => Node::Nary(code(&NARIES, body[0], start)?, Vec::new()),
            }
        };
        if own == EXPRESSIONS {
            return refuse(ROOM, start);
        }
        self.plan.exprs.push(node);
        if kind == 0x23 {
            // An operand is earlier than its nary, so the nary itself is no operand.
            let operands = self.handles(0x24, number(body, 1), |_| own)?;
            let Node::Nary(_, list) = &mut self.plan.exprs[own] else {
                unreachable!("a nary was pushed")
            };
            *list = operands;
        }
        Ok(())
    }

    fn operator(&mut self, start: usize, kind: u8, body: &[u8]) -> Result<(), Refusal> {
        let own = self.plan.operators.len();
        let exprs = self.plan.exprs.len();
        let columns = self.plan.columns.len();
        let input = |at| handle(body, at, own, start);
        let mut operator = match kind {
            0x30 => Operator::Scan { table: number(body, 0), columns: Vec::new() },
            0x31 => Operator::ConstScan { columns: Vec::new() },
            0x32 => Operator::TableFunction { columns: Vec::new() },
            0x33 => {
                Operator::Selection { predicate: handle(body, 0, exprs, start)?, input: input(2)? }
            }
            0x34 => Operator::Projection { input: input(0)?, columns: Vec::new() },
            0x35 => Operator::Rename { input: input(0)?, pairs: Vec::new() },
            0x36 => Operator::Map { input: input(0)?, computations: Vec::new() },
            0x37 => {
                Operator::Aggregation { input: input(0)?, keys: Vec::new(), aggregates: Vec::new() }
            }
            0x38 => Operator::Sort { input: input(0)?, keys: Vec::new() },
            0x39 => Operator::Limit { input: input(0)? },
            0x3a => Operator::Output { input: input(0)? },
            0x3b => Operator::CrossProduct { outer: input(0)?, inner: input(2)? },
            0x3c => Operator::Join {
                join_type: code(&JOIN_TYPES, body[0], start)?,
                on: handle(body, 1, exprs, start)?,
                outer: input(3)?,
                inner: input(5)?,
            },
            _ => Operator::LeftMark {
                on: handle(body, 0, exprs, start)?,
                outer: input(2)?,
                inner: input(4)?,
                marker: handle(body, 6, columns, start)?,
            },
        };
        if own == OPERATORS {
            return refuse(ROOM, start);
        }
        self.lists(own, body, &mut operator)?;
        self.plan.operators.push(operator);
        Ok(())
    }

    fn lists(&mut self, own: usize, body: &[u8], operator: &mut Operator) -> Result<(), Refusal> {
        match operator {
            Operator::Scan { columns, .. } => {
                *columns = self.scanned_columns(own, number(body, 2))?;
            }
            Operator::ConstScan { columns } | Operator::TableFunction { columns } => {
                *columns = self.handles(0x40, number(body, 0), Self::columns)?;
            }
            Operator::Projection { columns, .. } => {
                *columns = self.handles(0x40, number(body, 2), Self::columns)?;
            }
            Operator::Rename { pairs, .. } => {
                *pairs = self.pairs(0x41, number(body, 2), Self::columns)?;
            }
            Operator::Map { computations, .. } => {
                *computations = self.pairs(0x42, number(body, 2), Self::exprs)?;
            }
            Operator::Aggregation { keys, aggregates, .. } => {
                *keys = self.handles(0x43, number(body, 2), Self::exprs)?;
                *aggregates = self.handles(0x40, number(body, 4), Self::columns)?;
            }
            Operator::Sort { keys, .. } => {
                *keys = self.handles(0x43, number(body, 2), Self::exprs)?;
            }
            _ => {}
        }
        Ok(())
    }

    fn columns(&self) -> usize {
        self.plan.columns.len()
    }

    fn exprs(&self) -> usize {
        self.plan.exprs.len()
    }

    /// The next item's start and body, where an item of this kind is wanted.
    fn item(&mut self, wanted: u8) -> Result<(usize, &'a [u8]), Refusal> {
        let start = self.at;
        match self.bytes.get(start) {
            None => refuse(SHORT, start),
            Some(kind) if *kind != wanted => refuse(UNKNOWN, start),
            Some(kind) => Ok((start, self.body(*kind)?)),
        }
    }

    /// Room for one more item, tested last of all that is tested at an item.
    fn room(&mut self, start: usize) -> Result<(), Refusal> {
        if self.items == ITEMS {
            return refuse(ROOM, start);
        }
        self.items += 1;
        Ok(())
    }

    fn handles(
        &mut self,
        wanted: u8,
        count: u16,
        defined: impl Fn(&Self) -> usize,
    ) -> Result<Vec<u16>, Refusal> {
        let mut found = Vec::new();
        for _ in 0..count {
            let (start, body) = self.item(wanted)?;
            found.push(handle(body, 0, defined(self), start)?);
            self.room(start)?;
        }
        Ok(found)
    }

    /// Items of a column and a second handle.
    fn pairs(
        &mut self,
        wanted: u8,
        count: u16,
        defined: impl Fn(&Self) -> usize,
    ) -> Result<Vec<(u16, u16)>, Refusal> {
        let mut found = Vec::new();
        for _ in 0..count {
            let (start, body) = self.item(wanted)?;
            let first = handle(body, 0, self.columns(), start)?;
            found.push((first, handle(body, 2, defined(self), start)?));
            self.room(start)?;
        }
        Ok(found)
    }

    fn scanned_columns(&mut self, own: usize, count: u16) -> Result<Vec<u16>, Refusal> {
        let mut found = Vec::new();
        for _ in 0..count {
            let (start, body) = self.item(0x40)?;
            let column = handle(body, 0, self.columns(), start)?;
            let place = &mut self.scanned[usize::from(column)];
            if place.is_some_and(|scan| scan != own) {
                return refuse(SCANNED_TWICE, start);
            }
            *place = Some(own);
            found.push(column);
            self.room(start)?;
        }
        Ok(found)
    }
}
