//! Simplifying by optd's own `ExprSimplify`, with the refusals that the rules add.

use optd_core::door;
use optd_core::optimize::{ExprSimplify, OperatorRewrite, Rewrite};
use optd_core::{OptimizerContext, QueryContext};

use crate::context;
use crate::plan::{EXPRESSIONS, NO_SUCH, OPERATORS, Plan, ROOM};

#[derive(Debug, Clone, Copy, PartialEq, Eq)]
pub enum Answer {
    Keep,
    Replace(u16),
}

/// The answer and the plan with the appended nodes, or the number of a refusal.
pub fn simplify(plan: &Plan, operator: u16) -> Result<(Answer, Plan), u8> {
    if usize::from(operator) >= plan.operators.len() {
        return Err(NO_SUCH);
    }
    rewritten(plan, operator, |asked, optimizer| {
        ExprSimplify.rewrite(asked, optimizer).expect("the pass has no error of its own")
    })
}

/// Runs one of optd's passes at one operator. A pass appends without end and never takes a node back,
/// so the sizes are held against what it leaves.
pub(crate) fn rewritten(
    plan: &Plan,
    operator: u16,
    pass: impl FnOnce(optd_core::Operator, &mut OptimizerContext) -> Rewrite,
) -> Result<(Answer, Plan), u8> {
    let mut optimizer = door::optimizer(context::build(plan));
    let answer = match pass(door::operator(operator.into()), &mut optimizer) {
        Rewrite::Keep => Answer::Keep,
        Rewrite::Replace(by) => Answer::Replace(door::operator_number(by) as u16),
    };
    let query: QueryContext = optimizer.into_query();
    // Handles past 65,535 have no number in a plan file: they are refused before one is written.
    if query.expr_count() > EXPRESSIONS || query.operator_count() > OPERATORS {
        return Err(ROOM);
    }
    let after = context::plan_of(&query);
    if after.past_room() { Err(ROOM) } else { Ok((answer, after)) }
}
