//! Plans at the sizes of the rules: files to be read, room for the simplifier, chains.

use crate::builder::Builder;
use crate::generate::{self, scattered};
use crate::paths::expressions;
use crate::plan::{
    COLUMNS, Comparison, EXPRESSIONS, ITEMS, JoinType, KINDS, Kind, Literal, Node, OPERATORS,
    Operator, Plan, Unary,
};
use crate::question::Question;
use crate::random::Random;
use crate::write::raw;

use super::{Ask, Step, derive, facts};

pub fn limits(random: &mut Random, _: usize, ask: &mut Ask) -> Step {
    for past in [-1, 0, 1, 2] {
        for plan in [many_columns(past), many_exprs(past), many_operators(past)] {
            ask_limit(random, &plan, ask)?;
        }
        for kind in 0..8 {
            ask_limit(random, &many_items(past, kind), ask)?;
        }
        ask_limit(random, &many_items_mixed(past), ask)?;
    }
    // Several sizes at once, and the longest file that can be accepted.
    for past in [0, 1] {
        let mut plan = longest();
        ask_limit(random, &plan, ask)?;
        plan.exprs.extend((0..past).map(|_| Node::Literal(Literal::Int64(-1))));
        ask_limit(random, &plan, ask)?;
    }
    Step::Continue(())
}

fn ask_limit(random: &mut Random, plan: &Plan, ask: &mut Ask) -> Step {
    let file = raw(plan);
    let last = plan.operators.len().saturating_sub(1) as u16;
    ask(Question::Read { file: file.clone() })?;
    ask(facts(file.clone()))?;
    ask(Question::Simplify { file: file.clone(), operator: last })?;
    ask(Question::Read { file: scattered(random, plan) })?;
    ask(Question::Read { file: file[..file.len() - 1].to_vec() })?;
    let mut longer = file;
    longer.push(0x40);
    ask(Question::Read { file: longer })
}

fn size(limit: usize, past: isize) -> usize {
    limit.strict_add_signed(past)
}

fn many_columns(past: isize) -> Plan {
    let mut b = Builder::new();
    let columns: Vec<u16> =
        (0..size(COLUMNS, past)).map(|number| b.column(KINDS[number % 5])).collect();
    b.scan(0, &columns);
    b.plan
}

fn many_exprs(past: isize) -> Plan {
    let mut b = Builder::new();
    for number in 0..size(EXPRESSIONS, past) {
        b.boolean(number % 2 == 0);
    }
    b.const_scan(&[]);
    b.plan
}

fn many_operators(past: isize) -> Plan {
    let mut b = Builder::new();
    let column = b.column(Kind::Int32);
    let yes = b.boolean(true);
    let mut last = b.scan(0, &[column]);
    for _ in 1..size(OPERATORS, past) {
        last = b.select(yes, last);
    }
    b.plan
}

/// All items in the lists of one kind of record.
fn many_items(past: isize, kind: usize) -> Plan {
    let mut b = Builder::new();
    let column = b.column(Kind::Boolean);
    let key = b.reference(column);
    let count = size(ITEMS, past);
    let scan = b.const_scan(&[]);
    if kind == 0 {
        b.and(&vec![key; count]);
        return b.plan;
    }
    b.operator(match kind {
        1 => Operator::Scan { table: 0, columns: vec![column; count] },
        2 => Operator::TableFunction { columns: vec![column; count] },
        3 => Operator::Projection { input: scan, columns: vec![column; count] },
        4 => Operator::Rename { input: scan, pairs: vec![(column, column); count] },
        5 => Operator::Map { input: scan, computations: vec![(column, key); count] },
        6 => Operator::Aggregation {
            input: scan,
            keys: vec![key; 1000],
            aggregates: vec![column; count - 1000],
        },
        _ => Operator::Sort { input: scan, keys: vec![key; count] },
    });
    b.plan
}

/// Items of several kinds, which count together.
fn many_items_mixed(past: isize) -> Plan {
    let mut b = Builder::new();
    let columns: Vec<u16> = (0..COLUMNS).map(|_| b.column(Kind::Boolean)).collect();
    let key = b.reference(0);
    let scan = b.scan(3, &columns);
    for _ in 0..10 {
        b.or(&[key; 100]);
    }
    b.operator(Operator::Sort { input: scan, keys: vec![key; 900] });
    let left = size(ITEMS, past) - COLUMNS - 1000 - 900;
    b.operator(Operator::Rename { input: scan, pairs: vec![(1, 0); left] });
    b.plan
}

/// Every size at its limit, by the records with the longest bodies.
fn longest() -> Plan {
    let mut b = Builder::new();
    let column = (0..COLUMNS).map(|_| b.column(Kind::Int64)).max().unwrap_or(0);
    for number in 0..EXPRESSIONS {
        b.int64(number as i64);
    }
    let scan = b.const_scan(&[]);
    let renamed = vec![(column, column); ITEMS];
    let mut last = b.operator(Operator::Rename { input: scan, pairs: renamed });
    while b.plan.operators.len() < OPERATORS {
        let mark = Operator::LeftMark { on: 1023, outer: last, inner: scan, marker: column };
        last = b.operator(mark);
    }
    b.plan
}

/// Plans that leave the simplifier just enough room, or one too little: of expressions, of operators,
/// of items for an And, and of items for an operator that is written anew.
pub fn room(_: &mut Random, _: usize, ask: &mut Ask) -> Step {
    for left in 0..=4 {
        for plan in [
            room_for_exprs(left),
            room_for_operators(left),
            room_for_operands(left),
            room_for_operator_items(left, 0),
            room_for_operator_items(left, 1),
            room_for_operator_items(left, 2),
        ] {
            let asked = plan.operators.len() as u16;
            for operator in 0..asked {
                if !expressions(&plan.operators[usize::from(operator)]).is_empty() {
                    ask(Question::Simplify { file: raw(&plan), operator })?;
                }
            }
        }
    }
    Step::Continue(())
}

/// Not Not Not b and And[true, b, b]: two appended nodes at most.
fn to_simplify(b: &mut Builder) -> (u16, u16, u16) {
    let column = b.column(Kind::Boolean);
    let (p, yes) = (b.reference(column), b.boolean(true));
    let no = b.not(yes);
    let back = b.not(no);
    let both = b.and(&[back, p, p]);
    (p, both, column)
}

fn room_for_exprs(left: usize) -> Plan {
    let mut b = Builder::new();
    let (p, both, column) = to_simplify(&mut b);
    let outer = b.not(both);
    let twice = b.not(outer);
    let compared = b.compare(Comparison::Eq, both, p);
    while b.plan.exprs.len() < EXPRESSIONS - left {
        b.boolean(false);
    }
    let scan = b.scan(0, &[column]);
    for predicate in [both, outer, twice, compared] {
        b.select(predicate, scan);
    }
    b.operator(Operator::Map { input: scan, computations: vec![(0, both), (0, compared)] });
    b.plan
}

fn room_for_operators(left: usize) -> Plan {
    let mut b = Builder::new();
    let (p, both, column) = to_simplify(&mut b);
    let yes = b.and(&[1, 1]);
    let scan = b.scan(0, &[column]);
    for predicate in [both, yes, p] {
        b.select(predicate, scan);
    }
    b.join(JoinType::Single, both, scan, scan);
    while b.plan.operators.len() < OPERATORS - left {
        b.operator(Operator::Limit { input: scan });
    }
    b.plan
}

fn room_for_operands(left: usize) -> Plan {
    let mut b = Builder::new();
    let (p, both, column) = to_simplify(&mut b);
    let deep = b.or(&[both, p]);
    let scan = b.scan(0, &[column]);
    for predicate in [both, deep] {
        b.select(predicate, scan);
    }
    let spare = ITEMS - left - b.plan.items();
    b.operator(Operator::Projection { input: scan, columns: vec![column; spare] });
    b.plan
}

/// A Map, Sort or Aggregation with so many items that there is room to write it once more, or not.
fn room_for_operator_items(left: usize, kind: usize) -> Plan {
    let mut b = Builder::new();
    let column = b.column(Kind::Boolean);
    let p = b.reference(column);
    let once = b.not(p);
    let twice = b.not(once);
    let scan = b.scan(0, &[column]);
    let items = 500;
    let mut keys = vec![p; items];
    keys[items - 1] = twice;
    b.operator(match kind {
        0 => {
            let computations = keys.iter().map(|e| (column, *e)).collect();
            Operator::Map { input: scan, computations }
        }
        1 => Operator::Sort { input: scan, keys },
        _ => Operator::Aggregation {
            input: scan,
            keys: keys[items - 200..].to_vec(),
            aggregates: vec![column; items - 200],
        },
    });
    // The operator's own items once more, and `left` less than 2 more or fewer.
    let spare = ITEMS + 2 - left - 2 * items - 1;
    b.operator(Operator::Projection { input: scan, columns: vec![column; spare] });
    b.plan
}

pub fn deep(random: &mut Random, _: usize, ask: &mut Ask) -> Step {
    for bottom in 0..3 {
        for kind in 0..7 {
            for depth in [EXPRESSIONS - 1, EXPRESSIONS - 2, 512, 511] {
                let Some((b, last)) = chain(bottom, kind, depth) else {
                    continue;
                };
                let mut b = b;
                let scan = b.scan(0, &[0]);
                let asked = b.select(last, scan);
                let file = b.file();
                ask(Question::Read { file: file.clone() })?;
                ask(derive(file.clone(), asked))?;
                ask(Question::Simplify { file: file.clone(), operator: asked })?;
                for _ in 0..2 {
                    let row = generate::row(random, &b.plan);
                    ask(Question::Evaluate { file: file.clone(), expr: last, row })?;
                }
            }
        }
    }
    ask_operator_chains(ask)
}

/// A chain of one kind over a column, a literal true or a double negation.
fn chain(bottom: usize, kind: usize, depth: usize) -> Option<(Builder, u16)> {
    let mut b = Builder::new();
    let column = b.column(Kind::Boolean);
    let mut last = match bottom {
        0 => b.reference(column),
        1 => b.boolean(true),
        _ => {
            let p = b.reference(column);
            let once = b.not(p);
            b.not(once)
        }
    };
    let side = if matches!(kind, 2 | 4 | 5 | 6) { Some(b.reference(column)) } else { None };
    while b.plan.exprs.len() <= depth {
        last = match (kind, side) {
            (0, _) => b.not(last),
            (1, _) => b.and(&[last]),
            (2, Some(side)) => b.and(&[side, last]),
            (3, _) => b.unary(Unary::IsNull, last),
            (4, Some(side)) => b.or(&[last, side]),
            (5, Some(side)) => b.compare(Comparison::Eq, last, side),
            (6, Some(side)) if last % 2 == 0 => b.and(&[last, side]),
            _ => b.not(last),
        };
    }
    (b.plan.items() <= ITEMS && b.plan.exprs.len() <= EXPRESSIONS).then_some((b, last))
}

/// 127 operators above each other, each adding a fact, and a comb of joins.
fn ask_operator_chains(ask: &mut Ask) -> Step {
    for kind in 0..6 {
        let mut b = Builder::new();
        for _ in 0..COLUMNS {
            b.column(Kind::Int32);
        }
        let refs: Vec<u16> = (0..COLUMNS as u16).map(|column| b.reference(column)).collect();
        let columns: Vec<u16> = (0..COLUMNS as u16).collect();
        let five = b.int32(5);
        let scan = b.scan(0, &columns);
        let mut last = scan;
        for step in 0..OPERATORS - 1 {
            let (this, next) = (refs[step % 64], refs[(step + 1) % 64]);
            last = match kind {
                0 => {
                    let equal = b.compare(Comparison::Eq, this, next);
                    b.select(equal, last)
                }
                1 => {
                    let bound = b.int32(1000 - step as i32);
                    let below = b.compare(Comparison::Lt, this, bound);
                    b.select(below, last)
                }
                2 => {
                    let equal = b.compare(Comparison::Eq, this, five);
                    b.join(JoinType::Inner, equal, last, scan)
                }
                3 => b.operator(Operator::CrossProduct { outer: last, inner: last }),
                4 => {
                    // The highest pairs first, so that every union finds a smaller root.
                    let back = (126 - step) % 63;
                    let equal = b.compare(Comparison::Eq, refs[back + 1], refs[back]);
                    b.select(equal, last)
                }
                _ => {
                    let computations = vec![((step % 64) as u16, next), (0, five)];
                    b.operator(Operator::Map { input: last, computations })
                }
            };
        }
        let file = b.file();
        for operator in [last, last / 2] {
            ask(derive(file.clone(), operator))?;
            ask(Question::Simplify { file: file.clone(), operator })?;
        }
    }
    Step::Continue(())
}
