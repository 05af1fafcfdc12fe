//! Files, accepted or not, that the readers are compared on.

use crate::builder::Builder;
use crate::generate::{literals, scattered};
use crate::plan::{
    COLUMNS, COMPARISONS, EXPRESSIONS, ITEMS, JOIN_TYPES, KINDS, Kind, OPERATORS, Operator, Plan,
    UNARIES, body_length,
};
use crate::question::Question;
use crate::random::Random;
use crate::records::{Field, fields, item_kind};
use crate::write::raw;

use super::{Ask, Step, facts};

pub fn bytes(_: &mut Random, _: usize, ask: &mut Ask) -> Step {
    ask(Question::Read { file: Vec::new() })?;
    ask(facts(Vec::new()))?;
    for first in 0..=255u8 {
        ask(Question::Read { file: vec![first] })?;
        for second in 0..=255u8 {
            ask(Question::Read { file: vec![first, second] })?;
        }
    }
    Step::Continue(())
}

/// A record of every kind with every code, its handles and counts 0 or 1.
fn atoms() -> Vec<Vec<u8>> {
    let mut atoms = Vec::new();
    for kind in 0..=255u8 {
        let Some(length) = body_length(kind) else {
            continue;
        };
        let mut zero = vec![kind];
        zero.extend(vec![0; length]);
        atoms.push(zero.clone());
        for place in 1..=length {
            let mut one = zero.clone();
            one[place] = 1;
            atoms.push(one);
        }
        for code in 2..=8u8 {
            if matches!(kind, 0x10 | 0x11 | 0x21..=0x23 | 0x3c) {
                let mut coded = zero.clone();
                coded[1] = code;
                atoms.push(coded);
            }
        }
    }
    for kind in KINDS {
        atoms.push(vec![0x01, 0, 0, kind.code()]);
    }
    atoms.push(vec![0x01, 0, 0, 6]);
    atoms
}

pub fn records(_: &mut Random, _: usize, ask: &mut Ask) -> Step {
    // What an atom can stand on: nothing; a column; and an expression and an operator as well.
    let bases: [&[u8]; 3] =
        [&[], &[0x01, 0, 0, 2], &[0x01, 0, 0, 2, 0x11, 1, 0x30, 0, 0, 0, 1, 0x40, 0, 0]];
    let atoms = atoms();
    for base in bases {
        for first in &atoms {
            let alone = [base, first].concat();
            ask(Question::Read { file: alone.clone() })?;
            ask(facts(alone.clone()))?;
            for second in &atoms {
                ask(Question::Read { file: [&alone[..], second].concat() })?;
            }
        }
    }
    Step::Continue(())
}

/// Every atom after a plan with room, and after one without room for its sort or for items; where it
/// counts an item: none follows, a good one, one of another kind, one with a bad handle, one cut.
pub fn clashes(_: &mut Random, _: usize, ask: &mut Ask) -> Step {
    for full in 0..5 {
        let base = raw(&nearly_full(full));
        for atom in atoms() {
            let alone = [&base[..], &atom].concat();
            for end in [alone.len(), alone.len() - 1] {
                ask(Question::Read { file: alone[..end].to_vec() })?;
            }
            let counts = fields(atom[0]).iter().filter(|field| match field {
                Field::Count(at) => atom[at + 2] == 1,
                _ => false,
            });
            for field in counts {
                let kind = item_kind(atom[0], *field);
                let pair = matches!(kind, 0x41 | 0x42);
                for item in items(kind, if pair { 4 } else { 2 }) {
                    ask(Question::Read { file: [&alone[..], &item].concat() })?;
                }
            }
        }
    }
    Step::Continue(())
}

/// Items with handles 0, 1 and beyond any, of another kind, and cut short.
fn items(kind: u8, length: usize) -> Vec<Vec<u8>> {
    let with = |kind: u8, body: &[u8]| [&[kind], body].concat();
    let mut found = vec![
        with(kind, &[0; 4][..length]),
        with(kind, &[0, 1, 0, 1][..length]),
        with(kind, &[0xff; 4][..length]),
        with(kind ^ 1, &[0; 4]),
        with(kind, &[0]),
        with(kind, &[0xff]),
    ];
    if length == 4 {
        found.extend([with(kind, &[0, 0, 0xff, 0xff]), with(kind, &[0xff, 0xff, 0, 0])]);
    }
    found
}

/// Two columns, one of them scanned, an expression and two operators; then nothing more, or columns,
/// expressions, operators or items to their size.
fn nearly_full(full: usize) -> Plan {
    let mut b = Builder::new();
    let column = b.column(Kind::Boolean);
    b.column(Kind::Int32);
    b.boolean(true);
    b.scan(0, &[column]);
    b.const_scan(&[]);
    match full {
        1 => b.plan.columns.resize(COLUMNS, b.plan.columns[0]),
        2 => b.plan.exprs.resize(EXPRESSIONS, b.plan.exprs[0].clone()),
        3 => b.plan.operators.resize(OPERATORS, b.plan.operators[1].clone()),
        4 => {
            b.operator(Operator::TableFunction { columns: vec![column; ITEMS - 1] });
        }
        _ => {}
    }
    b.plan
}

/// A plan with every kind of column, literal, node and operator, all of them accepted.
fn everything() -> Plan {
    let mut b = Builder::new();
    for kind in KINDS {
        b.column(kind);
    }
    let marker = b.column(Kind::Boolean);
    for kind in KINDS {
        for literal in literals(kind) {
            b.literal(literal);
        }
    }
    let refs: Vec<u16> = (0..6).map(|column| b.reference(column)).collect();
    let five = b.int32(5);
    let unaries: Vec<u16> = UNARIES.iter().map(|op| b.unary(*op, refs[0])).collect();
    let compared: Vec<u16> = COMPARISONS.iter().map(|op| b.compare(*op, refs[1], five)).collect();
    let both = b.and(&compared[2..4]);
    let either = b.or(&[unaries[0], both]);
    let scan = b.scan(1, &[0, 1, 2]);
    let other = b.scan(0, &[3, 4]);
    let constant = b.const_scan(&[marker]);
    b.operator(Operator::TableFunction { columns: vec![marker, marker] });
    let filtered = b.select(both, scan);
    b.operator(Operator::Projection { input: filtered, columns: vec![1, 0] });
    b.operator(Operator::Rename { input: filtered, pairs: vec![(5, 1), (0, 0)] });
    b.operator(Operator::Map { input: filtered, computations: vec![(5, refs[1]), (2, either)] });
    let keys = vec![refs[1], refs[0]];
    b.operator(Operator::Aggregation { input: filtered, keys, aggregates: vec![marker] });
    b.operator(Operator::Sort { input: filtered, keys: vec![either, refs[1]] });
    b.operator(Operator::Limit { input: filtered });
    b.operator(Operator::Output { input: filtered });
    b.operator(Operator::CrossProduct { outer: other, inner: constant });
    for join_type in JOIN_TYPES {
        b.join(join_type, both, filtered, other);
    }
    b.operator(Operator::LeftMark { on: either, outer: filtered, inner: other, marker });
    b.plan
}

pub fn cuts(random: &mut Random, _: usize, ask: &mut Ask) -> Step {
    let plan = everything();
    for file in [raw(&plan), scattered(random, &plan)] {
        for end in 0..=file.len() {
            ask(Question::Read { file: file[..end].to_vec() })?;
        }
        // Every byte one higher and one bit lower.
        for place in 0..file.len() {
            for changed in [file[place].wrapping_add(1), file[place] & 0x7f, file[place] ^ 0x40] {
                let mut file = file.clone();
                file[place] = changed;
                ask(Question::Read { file: file.clone() })?;
                ask(facts(file))?;
            }
        }
    }
    Step::Continue(())
}
