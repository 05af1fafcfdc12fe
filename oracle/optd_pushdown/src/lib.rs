//! predicate_pushdown.rs, unchanged, over the columns that request T-05 gives it: an operator's
//! columns are its lineage's columns, and an expression uses every column referred to in it. Its
//! crate root has to say so, hence a crate of its own beside optd_core.

use optd_core::door;
use optd_core::{AnalysisContext, AnalysisResult, Analyzable, Column};

// What predicate_pushdown.rs asks of its crate root, from optd's own text.
pub use optd_core::{
    CrossProduct, Expr, ExprData, Join, JoinType, NaryOp, Operator, OperatorData, OptimizerContext,
    QueryContext, ScalarValue, Selection, expr_used_columns,
};

pub mod optimize {
    pub use optd_core::optimize::{Direction, OperatorRewrite, OptimizeResult, Pass, Rewrite};
}

/// The columns of an operator's lineage.
pub struct AvailableColumns;

impl Analyzable for AvailableColumns {
    type Value = Vec<Column>;

    fn get(
        ctx: &QueryContext,
        analyses: &mut AnalysisContext,
        op: Operator,
    ) -> AnalysisResult<Vec<Column>> {
        Ok(door::facts(ctx, analyses, op)?.lineage.keys().copied().collect())
    }
}

include!(concat!(env!("OUT_DIR"), "/pushdown.rs"));
