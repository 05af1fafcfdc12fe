//! Whether a row meets facts, written from the rules' 'Rows and truth'.

use std::cmp::Ordering;

use optd_core::door;
use optd_core::{LogicalFacts, ValueId, ValueRange};

use crate::context::literal_of;
use crate::plan::{Literal, Plan};
use crate::rows::{Truth, evaluate};

/// A row that gives every identity the value of the column it is named after. It is consistent with
/// a lineage in which each column has that identity or one whose column has the same value.
pub fn meets(plan: &Plan, facts: &LogicalFacts, row: &[Literal]) -> bool {
    let constraints = &facts.constraints;
    let value = |identity: &ValueId| row[column_of(identity)];
    !constraints.contradictory
        && constraints.equivalence_classes.classes().iter().all(|class| {
            class.iter().all(|a| class.iter().all(|b| a == b || same(value(a), value(b))))
        })
        && constraints.non_null_values.iter().all(|identity| !is_null(value(identity)))
        && constraints
            .literal_equalities
            .iter()
            .all(|(identity, literal)| equal(value(identity), literal_of(literal)))
        && constraints.ranges.iter().all(|(identity, range)| within(value(identity), range))
        && constraints
            .residual_predicates
            .iter()
            .all(|e| evaluate(plan, door::expr_number(*e) as u16, row) == Ok(Truth::True))
}

fn column_of(identity: &ValueId) -> usize {
    match identity {
        ValueId::Base(base) => door::column_number(base.source),
        ValueId::Derived(column) => door::column_number(*column),
    }
}

fn is_null(value: Literal) -> bool {
    matches!(value, Literal::Null(_))
}

/// Scalar equality: kind and payload, floats as floats.
fn equal(left: Literal, right: Literal) -> bool {
    match (left, right) {
        (Literal::Float64(a), Literal::Float64(b)) => f64::from_bits(a) == f64::from_bits(b),
        _ => left == right && !is_null(left),
    }
}

/// Members of a class have the same value, NULL with NULL.
fn same(left: Literal, right: Literal) -> bool {
    equal(left, right) || (is_null(left) && is_null(right))
}

fn within(value: Literal, range: &ValueRange) -> bool {
    let side = |end: Option<(f64, bool)>, beyond: Ordering| match end {
        None => true,
        Some((bound, inclusive)) => match order(value, bound) {
            None => false,
            Some(Ordering::Equal) => inclusive,
            Some(order) => order == beyond,
        },
    };
    side(range.lower, Ordering::Greater) && side(range.upper, Ordering::Less)
}

/// A value against a finite bound by exact value; NULL, a Boolean and a NaN have none.
fn order(value: Literal, bound: f64) -> Option<Ordering> {
    match value {
        Literal::Null(_) | Literal::Boolean(_) => None,
        Literal::Float64(bits) => f64::from_bits(bits).partial_cmp(&bound),
        Literal::Int32(value) | Literal::Date32(value) => f64::from(value).partial_cmp(&bound),
        Literal::Int64(value) => Some(whole_order(value, bound)),
    }
}

/// A bound's whole part decides, then whether it has a fraction. A cast to i128 holds every f64 of a
/// magnitude near an i64's, and stops at its ends beyond.
fn whole_order(value: i64, bound: f64) -> Ordering {
    let floor = bound.floor();
    match i128::from(value).cmp(&(floor as i128)) {
        Ordering::Equal if bound > floor => Ordering::Less,
        order => order,
    }
}
