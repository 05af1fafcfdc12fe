//! What must hold of the rows of a query plan: safe functions over Mossladder's proved library.
//!
//! A plan comes as the bytes of a plan file (`docs/FORMAT.md` of the repository). Every function takes any bytes and any
//! numbers: what cannot be answered is a [`Refusal`]. No call keeps anything from another, so all of them can be made
//! from many threads.
//!
//! What the library answers is proved to equal a definition on every input; this crate only carries bytes to it and
//! back, and is tested, not proved. The memory that a call needs beside its reply lies on the stack: see [`STACK`].
//!
//! ```
//! // two Int32 columns x and y of one table, and a Selection on x = y AND y < 7
//! let plan = [
//!     &[0x01, 0, 0, 2][..], &[0x01, 0, 1, 2],                          // columns 0 and 1
//!     &[0x20, 0, 0], &[0x20, 0, 1], &[0x22, 0, 0, 0, 0, 1],            // e0 x, e1 y, e2 x = y
//!     &[0x12, 0, 0, 0, 7], &[0x22, 2, 0, 1, 0, 3],                     // e3 7, e4 y < 7
//!     &[0x23, 0, 0, 2, 0x24, 0, 2, 0x24, 0, 4],                        // e5 e2 AND e4
//!     &[0x30, 0, 0, 0, 2, 0x40, 0, 0, 0x40, 0, 1],                     // operator 0: Scan
//!     &[0x33, 0, 5, 0, 0],                                             // operator 1: Selection
//! ]
//! .concat();
//! assert_eq!(
//!     mossladder::facts(&plan).unwrap(),
//!     "facts 1 0\ncolumn 0 b0\ncolumn 1 b1\nclass b0 b1\nnonnull b0\nrange b0 - 401c000000000000x\n"
//! );
//! ```

mod raw;

use std::fmt;

/// No plan has more bytes than these (64 columns, 1,024 expressions, 128 operators and 2,048 items of the longest
/// kinds), and no listing has more than 16,157.
pub const MOST_BYTES: usize = 20_856;

/// Stack enough for every call: as much as Rust gives a thread unless it is told otherwise. The deepest and the largest
/// plans are tested in it; no proof speaks of the stack.
pub const STACK: usize = 2 << 20;

/// Why there is no answer.
#[derive(Debug, Clone, Copy, PartialEq, Eq, Hash)]
pub struct Refusal {
    /// 1 to 10; [`Refusal::name`] says what it stands for.
    pub number: u8,
    /// For 1 to 5 of the reader, where in the file the faulty record starts (the file's length if a list item is
    /// wanted there). For deriving, the operator that refused. For a refused predicate, its place among those that
    /// were asked for. Otherwise 0.
    pub place: u64,
}

impl Refusal {
    /// The refusal's name.
    ///
    /// ```
    /// let refusal = mossladder::read(&[0x01]).unwrap_err();
    /// assert_eq!((refusal.number, refusal.place, refusal.name()), (1, 0, "Short"));
    /// ```
    pub fn name(&self) -> &'static str {
        match self.number {
            1 => "Short",
            2 => "Unknown",
            3 => "Room",
            4 => "Handle",
            5 => "ScannedTwice",
            6 => "UnsupportedKey",
            7 => "Residuals",
            8 => "NoSuch",
            9 => "Untyped",
            10 => "BadRow",
            _ => "no refusal",
        }
    }

    /// What the refusal is given for.
    pub fn reason(&self) -> &'static str {
        match self.number {
            1 => "the file ends inside a record or a counted list",
            2 => "a kind or code is not listed, or an item is out of place or missing",
            3 => "a size would be passed",
            4 => "a handle is not defined earlier",
            5 => "a column is in a second Scan",
            6 => "an aggregation key is no column reference",
            7 => "there would be a 65th residual predicate",
            8 => "the plan has no such operator or expression",
            9 => "the expression is not Boolean throughout, or negates",
            10 => "a value of the row is not of its column's kind",
            _ => "nothing",
        }
    }
}

impl fmt::Display for Refusal {
    fn fmt(&self, f: &mut fmt::Formatter<'_>) -> fmt::Result {
        write!(f, "refused {} {} ({}: {})", self.number, self.place, self.name(), self.reason())
    }
}

impl std::error::Error for Refusal {}

/// Reads a plan file, and gives the plan back as bytes: columns first, then expressions each with its operands, then
/// operators each with its items. These bytes are a plan file again, of the same plan.
///
/// # Errors
///
/// 1 to 5, with the place in the file.
///
/// ```
/// // a column after the expression that does not use it
/// let file = [0x11, 1, 0x01, 0, 9, 3];
/// assert_eq!(mossladder::read(&file).unwrap(), [0x01, 0, 9, 3, 0x11, 1]);
/// assert_eq!(mossladder::read(&[0x11, 1, 0x11, 2]).unwrap_err().to_string(),
///     "refused 2 2 (Unknown: a kind or code is not listed, or an item is out of place or missing)");
/// ```
pub fn read(file: &[u8]) -> Result<Vec<u8>, Refusal> {
    Ok(raw::read(file).accepted()?.rest)
}

/// The listing of what holds of every row of an operator.
///
/// # Errors
///
/// 1 to 5 by the reader; 8 where the plan has no such operator; 6 or 7 with the operator that refused.
///
/// ```
/// let scan = [&[0x01, 0, 0, 2][..], &[0x30, 0, 0, 0, 1, 0x40, 0, 0]].concat();
/// assert_eq!(mossladder::derive(&scan, 0).unwrap(), "facts 0 0\ncolumn 0 b0\n");
/// assert_eq!(mossladder::derive(&scan, 1).unwrap_err().name(), "NoSuch");
/// ```
pub fn derive(file: &[u8], operator: u16) -> Result<String, Refusal> {
    Ok(raw::derive(file, operator).accepted()?.text())
}

/// The listing of the last operator.
///
/// # Errors
///
/// As [`derive`]; 8 at 0 for a plan without operators.
///
/// ```
/// assert_eq!(mossladder::facts(&[]).unwrap_err(), mossladder::Refusal { number: 8, place: 0 });
/// ```
pub fn facts(file: &[u8]) -> Result<String, Refusal> {
    Ok(raw::facts(file).accepted()?.text())
}

/// What applying predicates came to.
#[derive(Debug, Clone, PartialEq, Eq)]
pub struct Applied {
    /// What is known after the predicates that were accepted.
    pub listing: String,
    /// The first predicate that was refused, by its place among those asked for, and the refusal: 7 or 8. None where
    /// all were accepted. Those behind it are not applied, and of a refused And not one operand is.
    pub refused: Option<Refusal>,
}

/// Applies predicates, one after the other, to the facts of an operator.
///
/// # Errors
///
/// As [`derive`], where there are no facts of the operator to start from. A predicate that is refused is no error:
/// what was known before it is handed back, see [`Applied`].
///
/// ```
/// // x, an Int32 column; e0 x, e1 7, e2 x < 7, e3 x = 7
/// let plan = [
///     &[0x01, 0, 0, 2][..],
///     &[0x20, 0, 0], &[0x12, 0, 0, 0, 7], &[0x22, 2, 0, 0, 0, 1], &[0x22, 0, 0, 0, 0, 1],
///     &[0x30, 0, 0, 0, 1, 0x40, 0, 0],
/// ]
/// .concat();
/// let both = mossladder::apply(&plan, 0, &[2, 3]).unwrap();
/// assert!(both.listing.starts_with("facts 0 1\n"), "x < 7 and x = 7 contradict each other");
/// let refused = mossladder::apply(&plan, 0, &[2, 9]).unwrap();
/// assert_eq!(refused.listing, mossladder::apply(&plan, 0, &[2]).unwrap().listing);
/// assert_eq!(refused.refused, Some(mossladder::Refusal { number: 8, place: 1 }));
/// ```
pub fn apply(file: &[u8], operator: u16, predicates: &[u16]) -> Result<Applied, Refusal> {
    let reply = raw::apply(file, operator, predicates);
    let refused = (reply.number != 0).then(|| reply.refusal());
    match refused {
        Some(refusal) if reply.rest.is_empty() => Err(refusal),
        refused => Ok(Applied { listing: reply.text(), refused }),
    }
}

/// What an operator is replaced by.
#[derive(Debug, Clone, Copy, PartialEq, Eq)]
pub enum Rewrite {
    /// It stays as it is, and nothing was appended.
    Keep,
    /// By this operator: one that was appended, or an input of the asked one.
    Replace(u16),
    /// It was refused, by 3 or 8.
    Refused(Refusal),
}

/// What simplifying an operator came to.
#[derive(Debug, Clone, PartialEq, Eq)]
pub struct Simplified {
    pub rewrite: Rewrite,
    /// The plan in the bytes of [`read`], with what was appended; where simplifying was refused, the plan as it was.
    pub plan: Vec<u8>,
}

/// Simplifies the expressions of one operator.
///
/// # Errors
///
/// 1 to 5 by the reader. Where simplifying itself is refused the plan is handed back, see [`Rewrite::Refused`].
///
/// ```
/// use mossladder::{Rewrite, simplify};
/// // e0 true, e1 And[true, true]; operator 0 a Scan of nothing, operator 1 a Selection on e1
/// let plan = [
///     &[0x11, 1][..], &[0x23, 0, 0, 2, 0x24, 0, 0, 0x24, 0, 0],
///     &[0x30, 0, 0, 0, 0], &[0x33, 0, 1, 0, 0],
/// ]
/// .concat();
/// assert_eq!(simplify(&plan, 1).unwrap().rewrite, Rewrite::Replace(0));
/// assert_eq!(simplify(&plan, 0).unwrap().rewrite, Rewrite::Keep);
/// let refused = simplify(&plan, 2).unwrap();
/// assert!(matches!(refused.rewrite, Rewrite::Refused(refusal) if refusal.name() == "NoSuch"));
/// assert_eq!(refused.plan, plan);
/// ```
pub fn simplify(file: &[u8], operator: u16) -> Result<Simplified, Refusal> {
    let reply = raw::simplify(file, operator);
    // the reader refuses by 1 to 5 and hands back nothing; a plan that the simplifier has no room in is not empty
    if matches!(reply.number, 1..=5) && reply.rest.is_empty() {
        return Err(reply.refusal());
    }
    let rewrite = match (reply.number, reply.place) {
        (0, 0) => Rewrite::Keep,
        (0, one_more) => Rewrite::Replace(u16::try_from(one_more - 1).expect("an operator has 16 bits")),
        _ => Rewrite::Refused(reply.refusal()),
    };
    Ok(Simplified { rewrite, plan: reply.rest })
}

/// The kind of a column's values.
#[derive(Debug, Clone, Copy, PartialEq, Eq, Hash)]
pub enum Kind {
    Boolean = 1,
    Int32 = 2,
    Int64 = 3,
    Float64 = 4,
    Date32 = 5,
}

/// A value of a row.
#[derive(Debug, Clone, Copy, PartialEq)]
pub enum Literal {
    /// NULL, which a column of any kind may have.
    Null(Kind),
    Boolean(bool),
    Int32(i32),
    Int64(i64),
    Float64(f64),
    /// Days.
    Date32(i32),
}

impl Literal {
    /// A literal's record in numbers: its kind, the code in it, and its payload.
    fn numbers(self) -> (u8, u8, u64) {
        match self {
            Literal::Null(kind) => (0x10, kind as u8, 0),
            Literal::Boolean(value) => (0x11, u8::from(value), 0),
            Literal::Int32(value) => (0x12, 0, u64::from(value.cast_unsigned())),
            Literal::Int64(value) => (0x13, 0, value.cast_unsigned()),
            Literal::Float64(value) => (0x14, 0, value.to_bits()),
            Literal::Date32(value) => (0x15, 0, u64::from(value.cast_unsigned())),
        }
    }
}

/// SQL's three truth values.
#[derive(Debug, Clone, Copy, PartialEq, Eq, PartialOrd, Ord, Hash)]
pub enum Truth {
    False,
    Unknown,
    True,
}

/// The truth value of an expression on a row: a value for each column, in order. Columns past the row's end are NULL,
/// values past the plan's last column are not looked at.
///
/// # Errors
///
/// 1 to 5 by the reader; 8 where the plan has no such expression; 9 where it is untyped; 10 where any value of the row
/// is neither NULL nor of its column's kind.
///
/// ```
/// use mossladder::{Literal, Truth, evaluate};
/// // x, an Int32 column; e0 x, e1 7, e2 x < 7
/// let plan = [&[0x01, 0, 0, 2][..], &[0x20, 0, 0], &[0x12, 0, 0, 0, 7], &[0x22, 2, 0, 0, 0, 1]].concat();
/// assert_eq!(evaluate(&plan, 2, &[Literal::Int32(-3)]), Ok(Truth::True));
/// assert_eq!(evaluate(&plan, 2, &[Literal::Int32(7)]), Ok(Truth::False));
/// assert_eq!(evaluate(&plan, 2, &[]), Ok(Truth::Unknown));
/// assert_eq!(evaluate(&plan, 2, &[Literal::Int64(7)]).unwrap_err().name(), "BadRow");
/// assert_eq!(evaluate(&plan, 0, &[]).unwrap_err().name(), "Untyped");
/// ```
pub fn evaluate(file: &[u8], expr: u16, row: &[Literal]) -> Result<Truth, Refusal> {
    let mut cells = raw::Cells { case: [0x10; 64], code: [1; 64], bits: [0; 64] };
    for (column, value) in row.iter().take(64).enumerate() {
        (cells.case[column], cells.code[column], cells.bits[column]) = value.numbers();
    }
    let reply = raw::evaluate(file, expr, &cells).accepted()?;
    Ok(match reply.place {
        0 => Truth::False,
        1 => Truth::Unknown,
        2 => Truth::True,
        other => unreachable!("{other} is no truth value"),
    })
}
