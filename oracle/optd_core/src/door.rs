//! The way in for the oracle: optd keeps handles' numbers, `apply_predicate` and the cache's entry to
//! its own crate, so they are opened here, in a module of that crate.

use std::sync::Arc;

use crate::analysis::{AnalysisContext, AnalysisResult, LogicalFacts, LogicalFactsAnalysis};
use crate::{Column, Expr, MemoryCatalog, Operator, OptimizerContext, QueryContext};

pub use arrow_schema::DataType;

pub fn column(number: usize) -> Column {
    Column(number)
}

pub fn expr(number: usize) -> Expr {
    Expr(number)
}

pub fn operator(number: usize) -> Operator {
    Operator(number)
}

pub fn column_number(column: Column) -> usize {
    column.0
}

pub fn expr_number(expr: Expr) -> usize {
    expr.0
}

pub fn operator_number(operator: Operator) -> usize {
    operator.0
}

/// Analyses over a catalogue that knows no table: facts never ask it.
pub fn analyses() -> AnalysisContext {
    AnalysisContext::new(Arc::new(MemoryCatalog))
}

pub fn optimizer(query: QueryContext) -> OptimizerContext {
    OptimizerContext::new(query, Arc::new(MemoryCatalog))
}

/// `derive_logical_facts` behind optd's own cache, so that each operator is derived once.
pub fn facts(
    ctx: &QueryContext,
    analyses: &mut AnalysisContext,
    operator: Operator,
) -> AnalysisResult<Arc<LogicalFacts>> {
    LogicalFactsAnalysis::get_shared(ctx, analyses, operator)
}

pub fn apply_predicate(facts: &mut LogicalFacts, predicate: Expr, ctx: &QueryContext) {
    facts.apply_predicate(predicate, ctx);
}
