//! The bytes of a listing.

use std::fmt::Write;

use optd_core::door;
use optd_core::{LogicalFacts, ScalarValue, ValueId};

use crate::plan::Refusal;
use crate::write::one_nan;

pub fn refused(refusal: Refusal) -> String {
    format!("refused {} {}\n", refusal.number, refusal.place)
}

pub fn listing(operator: u16, facts: &LogicalFacts) -> String {
    let mut out = String::new();
    let constraints = &facts.constraints;
    line(&mut out, format_args!("facts {operator} {}", u8::from(constraints.contradictory)));
    for (column, value) in &facts.lineage {
        line(&mut out, format_args!("column {} {}", door::column_number(*column), name(value)));
    }
    for (column, expr) in &facts.definitions {
        let (column, expr) = (door::column_number(*column), door::expr_number(*expr));
        line(&mut out, format_args!("define {column} e{expr}"));
    }
    for class in constraints.equivalence_classes.classes() {
        let members: Vec<String> = class.iter().map(name).collect();
        line(&mut out, format_args!("class {}", members.join(" ")));
    }
    for value in &constraints.non_null_values {
        line(&mut out, format_args!("nonnull {}", name(value)));
    }
    for (value, literal) in &constraints.literal_equalities {
        line(&mut out, format_args!("literal {} {}", name(value), scalar(literal)));
    }
    for (value, range) in &constraints.ranges {
        let (lower, upper) = (bound(range.lower), bound(range.upper));
        line(&mut out, format_args!("range {} {lower} {upper}", name(value)));
    }
    for expr in &constraints.residual_predicates {
        line(&mut out, format_args!("residual e{}", door::expr_number(*expr)));
    }
    out
}

fn line(out: &mut String, text: std::fmt::Arguments) {
    writeln!(out, "{text}").expect("a string takes every write");
}

fn name(value: &ValueId) -> String {
    match value {
        ValueId::Base(base) => format!("b{}", door::column_number(base.source)),
        ValueId::Derived(column) => format!("d{}", door::column_number(*column)),
    }
}

fn scalar(literal: &ScalarValue) -> String {
    match literal {
        ScalarValue::Boolean(value) => format!("bool {}", u8::from(*value)),
        ScalarValue::Int32(value) => format!("i32 {value}"),
        ScalarValue::Int64(value) => format!("i64 {value}"),
        ScalarValue::Float64(value) => format!("f64 {:016x}", one_nan(value.to_bits())),
        ScalarValue::Date32(value) => format!("date {value}"),
        other => unreachable!("{other:?} is never stored as a literal"),
    }
}

fn bound(end: Option<(f64, bool)>) -> String {
    match end {
        None => "-".to_string(),
        Some((value, inclusive)) => {
            format!("{:016x}{}", value.to_bits(), if inclusive { 'i' } else { 'x' })
        }
    }
}
