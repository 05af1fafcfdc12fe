//! Operators over each other, and residuals that come near their limit by each way there.

use crate::builder::Builder;
use crate::plan::{Comparison, JOIN_TYPES, Kind, Operator};
use crate::question::Question;
use crate::random::Random;

use super::{Ask, Step, derive};

/// One operator of every kind over these two inputs. Column 6 is in no Scan.
fn each_operator(b: &mut Builder, first: u16, second: u16, tests: &[u16]) -> Vec<Operator> {
    let refs: Vec<u16> = (0..8).map(|column| b.reference(column)).collect();
    let (test, other) = (tests[0], tests[1]);
    let mut found = vec![
        Operator::ConstScan { columns: vec![6, 0] },
        Operator::TableFunction { columns: vec![7] },
        Operator::Selection { predicate: test, input: first },
        Operator::Projection { input: first, columns: vec![2, 0, 7] },
        Operator::Rename { input: first, pairs: vec![(6, 0), (0, 1), (1, 7)] },
        Operator::Map {
            input: first,
            computations: vec![(6, refs[0]), (7, test), (0, refs[6]), (1, refs[7])],
        },
        Operator::Aggregation {
            input: first,
            keys: vec![refs[0], refs[7], refs[1]],
            aggregates: vec![6, 1],
        },
        Operator::Aggregation { input: first, keys: vec![refs[0], test], aggregates: vec![] },
        Operator::Sort { input: first, keys: vec![test, other] },
        Operator::Limit { input: first },
        Operator::Output { input: first },
        Operator::CrossProduct { outer: first, inner: second },
        Operator::LeftMark { on: test, outer: first, inner: second, marker: 0 },
    ];
    for join_type in JOIN_TYPES {
        found.push(Operator::Join { join_type, on: other, outer: first, inner: second });
    }
    found
}

pub fn operators(_: &mut Random, _: usize, ask: &mut Ask) -> Step {
    let mut base = Builder::new();
    for kind in [Kind::Int32, Kind::Int32, Kind::Int64, Kind::Int32, Kind::Int64, Kind::Float64] {
        base.column(kind);
    }
    base.column(Kind::Int32);
    base.column(Kind::Boolean);
    let refs: Vec<u16> = (0..8).map(|column| base.reference(column)).collect();
    let (five, seven) = (base.int32(5), base.int32(7));
    let yes = base.boolean(true);
    let pair = base.compare(Comparison::Eq, refs[0], refs[3]);
    let bound = base.compare(Comparison::Lt, refs[1], seven);
    let fixed = base.compare(Comparison::Eq, refs[3], five);
    let odd = base.compare(Comparison::NotEq, refs[0], five);
    let across = base.and(&[pair, yes, bound, odd]);
    let (left, right) = (base.scan(1, &[0, 1, 2]), base.scan(0, &[3, 4, 5]));
    let (left, right) = (base.select(bound, left), base.select(fixed, right));
    let (left, right) = (base.select(odd, left), base.select(bound, right));
    let low = each_operator(&mut base, left, right, &[across, pair]);
    for (number, lower) in low.iter().enumerate() {
        let mut b = base.clone();
        let lower = b.operator(lower.clone());
        for higher in each_operator(&mut b, lower, left, &[across, fixed]) {
            let mut b = b.clone();
            let asked = b.operator(higher.clone());
            let swapped = b.operator(exchanged(&higher));
            let file = b.file();
            for operator in [asked, swapped] {
                ask(derive(file.clone(), operator))?;
            }
            if number == 0 {
                ask(Question::Simplify { file: file.clone(), operator: asked })?;
            }
        }
        let file = b.file();
        let past = b.plan.operators.len() as u16;
        for operator in [lower, past, past + 1, 0xffff] {
            ask(derive(file.clone(), operator))?;
            ask(Question::Simplify { file: file.clone(), operator })?;
            ask(Question::Apply { file: file.clone(), operator, predicates: vec![pair] })?;
        }
        let last = b.plan.exprs.len() as u16;
        for expr in [last - 1, last, 0xffff] {
            let predicates = vec![pair, expr, fixed];
            ask(Question::Apply { file: file.clone(), operator: lower, predicates })?;
            ask(Question::Evaluate { file: file.clone(), expr, row: Vec::new() })?;
        }
    }
    Step::Continue(())
}

/// An operator of two inputs with them the other way round.
fn exchanged(operator: &Operator) -> Operator {
    let mut operator = operator.clone();
    match &mut operator {
        Operator::CrossProduct { outer, inner }
        | Operator::Join { outer, inner, .. }
        | Operator::LeftMark { outer, inner, .. } => std::mem::swap(outer, inner),
        _ => {}
    }
    operator
}

/// A plan with `count` residual tests of x and as many of y, and a Scan of each.
fn residual_tests(count: usize) -> (Builder, Vec<u16>, Vec<u16>) {
    let mut b = Builder::new();
    let (x, y) = (b.column(Kind::Boolean), b.column(Kind::Boolean));
    let (rx, ry) = (b.reference(x), b.reference(y));
    let of_x = (0..count).map(|_| b.not(rx)).collect();
    let of_y = (0..count).map(|_| b.not(ry)).collect();
    b.scan(0, &[x]);
    b.scan(0, &[y]);
    (b, of_x, of_y)
}

pub fn residuals(_: &mut Random, _: usize, ask: &mut Ask) -> Step {
    for total in 62..=66 {
        one_operator_fills(total, ask)?;
        for shared in [0, 1, 30] {
            two_sides_fill(total, shared, ask)?;
        }
        unreached_or_dropped(total, ask)?;
    }
    Step::Continue(())
}

/// And of so many, a chain of Selections, the same predicate again, and applying one by one.
fn one_operator_fills(total: usize, ask: &mut Ask) -> Step {
    let (mut b, tests, _) = residual_tests(70);
    let all = b.and(&tests[..total]);
    let yes = b.boolean(true);
    let half = b.and(&tests[..total / 2]);
    let once = b.select(all, 0);
    let again = b.select(all, once);
    let after = b.select(yes, again);
    let mut chain = b.select(half, 0);
    for test in &tests[..total] {
        chain = b.select(*test, chain);
    }
    let file = b.file();
    for operator in [once, again, after, chain] {
        ask(derive(file.clone(), operator))?;
    }
    let mut predicates = tests[..total].to_vec();
    predicates.push(tests[0]);
    ask(Question::Apply { file: file.clone(), operator: 0, predicates })?;
    ask(Question::Apply { file, operator: 0, predicates: vec![half, all, yes] })
}

/// Two inputs whose residuals together are `total`, some of them shared, under every kind of join;
/// `on` then brings one more, or one that is there.
fn two_sides_fill(total: usize, shared: usize, ask: &mut Ask) -> Step {
    let (base, of_x, of_y) = residual_tests(70);
    for (on_new, join_type) in [true, false].into_iter().flat_map(|n| JOIN_TYPES.map(|j| (n, j))) {
        let mut b = base.clone();
        let left = b.and(&of_x[..40]);
        let mut right: Vec<u16> = of_x[..shared].to_vec();
        right.extend(&of_y[..total - 40]);
        let right = b.and(&right);
        let (outer, inner) = (b.select(left, 0), b.select(right, 1));
        let on = if on_new { of_y[69] } else { of_x[0] };
        let asked = b.join(join_type, on, outer, inner);
        let product = b.operator(Operator::CrossProduct { outer, inner });
        let mark = b.operator(Operator::LeftMark { on, outer, inner, marker: 0 });
        let file = b.file();
        for operator in [asked, product, mark] {
            ask(derive(file.clone(), operator))?;
        }
    }
    Step::Continue(())
}

/// An input that refuses although its constraints would be dropped; one that nobody reaches; and two
/// that refuse, of which the first on the walk counts.
fn unreached_or_dropped(total: usize, ask: &mut Ask) -> Step {
    let (mut b, of_x, of_y) = residual_tests(70);
    let (left, right) = (b.and(&of_x[..total]), b.and(&of_y[..total]));
    let yes = b.boolean(true);
    let key = b.reference(0);
    let full = b.select(left, 0);
    let also = b.select(right, 1);
    let bad = Operator::Aggregation { input: 0, keys: vec![yes], aggregates: vec![] };
    let bad = b.operator(bad);
    let late = Operator::Aggregation { input: full, keys: vec![yes, key], aggregates: vec![] };
    let mut asked = vec![b.operator(late)];
    asked.push(b.operator(Operator::Limit { input: 1 }));
    asked.push(b.operator(Operator::Aggregation {
        input: full,
        keys: vec![key],
        aggregates: vec![1],
    }));
    for (outer, inner) in
        [(full, 1), (1, full), (full, also), (also, full), (bad, full), (full, bad)]
    {
        for join_type in JOIN_TYPES {
            asked.push(b.join(join_type, yes, outer, inner));
        }
        asked.push(b.operator(Operator::CrossProduct { outer, inner }));
    }
    let file = b.file();
    for operator in asked {
        ask(derive(file.clone(), operator))?;
    }
    Step::Continue(())
}
