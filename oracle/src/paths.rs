//! How many steps optd takes. It walks a shared expression once for each path that leads to it, so a
//! small plan can keep it busy for ever: such questions are left out of a comparison, and counted.

use crate::facts::walk;
use crate::plan::{JoinType, Nary, Node, Operator, Plan, Unary};
use crate::question::Question;
use crate::rows::operands;

/// A question that takes more steps than this is not asked.
pub const STEPS: u64 = 50_000;

/// The steps that a question takes, counted as far as a u64 goes.
pub fn steps(plan: &Plan, question: &Question) -> u64 {
    let last = plan.operators.len().saturating_sub(1) as u16;
    match question {
        Question::Read { .. } => 0,
        Question::Derive { operator, .. } => deriving(plan, operator.unwrap_or(last)),
        Question::Apply { operator, predicates, .. } => {
            let applied = entered(plan, conjuncts);
            sum(predicates.iter().map(|e| at(&applied, *e)))
                .saturating_add(deriving(plan, *operator))
        }
        Question::Simplify { operator, .. } => {
            let simplified = entered(plan, simplified_operands);
            match plan.operators.get(usize::from(*operator)) {
                Some(found) => sum(expressions(found).iter().map(|e| at(&simplified, *e))),
                None => 0,
            }
        }
        Question::Evaluate { expr, .. } => at(&entered(plan, operands), *expr),
    }
}

fn deriving(plan: &Plan, asked: u16) -> u64 {
    if usize::from(asked) >= plan.operators.len() {
        return 0;
    }
    let applied = entered(plan, conjuncts);
    sum(walk(plan, asked).iter().map(|operator| match &plan.operators[usize::from(*operator)] {
        Operator::Selection { predicate, .. } => at(&applied, *predicate),
        Operator::Join { join_type: JoinType::Inner, on, .. } => at(&applied, *on),
        _ => 1,
    }))
}

fn sum(steps: impl Iterator<Item = u64>) -> u64 {
    steps.fold(0, u64::saturating_add)
}

fn at(steps: &[u64], expr: u16) -> u64 {
    steps.get(usize::from(expr)).copied().unwrap_or(0)
}

/// For every expression the visits of a walk from it that goes on as `next` says.
fn entered(plan: &Plan, next: impl Fn(&Node) -> Vec<u16>) -> Vec<u64> {
    let mut visits: Vec<u64> = Vec::with_capacity(plan.exprs.len());
    for node in &plan.exprs {
        let below = sum(next(node).iter().map(|operand| at(&visits, *operand)));
        visits.push(below.saturating_add(1));
    }
    visits
}

fn conjuncts(node: &Node) -> Vec<u16> {
    match node {
        Node::Nary(Nary::And, operands) => operands.clone(),
        _ => Vec::new(),
    }
}

fn simplified_operands(node: &Node) -> Vec<u16> {
    match node {
        Node::Unary(op, _) if *op != Unary::Not => Vec::new(),
        _ => operands(node),
    }
}

/// The expressions of an operator that are simplified.
pub fn expressions(operator: &Operator) -> Vec<u16> {
    match operator {
        Operator::Selection { predicate, .. } => vec![*predicate],
        Operator::Join { on, .. } | Operator::LeftMark { on, .. } => vec![*on],
        Operator::Map { computations, .. } => computations.iter().map(|(_, e)| *e).collect(),
        Operator::Aggregation { keys, .. } | Operator::Sort { keys, .. } => keys.clone(),
        _ => Vec::new(),
    }
}
