//! Deriving by optd's own `derive_logical_facts`, with the refusals that the rules add.

use std::sync::Arc;

use optd_core::door;
use optd_core::{AnalysisContext, AnalysisError, LogicalFacts, QueryContext};

use crate::context;
use crate::plan::{NO_SUCH, Plan, RESIDUAL, RESIDUALS, Refusal, UNSUPPORTED_KEY};

/// The facts of one operator, or the refusal of the first operator that refuses on the walk 'inputs,
/// outer before inner, then the operator'.
pub fn derive(plan: &Plan, operator: u16) -> Result<Arc<LogicalFacts>, Refusal> {
    Deriving::new(plan).derive(operator)
}

/// A plan held as optd holds it, with optd's cache.
pub struct Deriving<'a> {
    plan: &'a Plan,
    ctx: QueryContext,
    analyses: AnalysisContext,
}

impl<'a> Deriving<'a> {
    pub fn new(plan: &'a Plan) -> Self {
        Self { plan, ctx: context::build(plan), analyses: door::analyses() }
    }

    /// Every operator is derived by its own call after its inputs' calls, so that each call does the
    /// work of that operator alone and its residual list can be watched. The list only grows while
    /// one operator is derived (`apply_predicate` and `merge_from` push and nothing removes), or it
    /// is an input's list, or empty: its last length is its largest.
    pub fn derive(&mut self, asked: u16) -> Result<Arc<LogicalFacts>, Refusal> {
        let place = usize::from(asked);
        if place >= self.plan.operators.len() {
            return Err(Refusal { number: NO_SUCH, place });
        }
        let mut last = None;
        for operator in walk(self.plan, asked) {
            last = Some(self.one(operator)?);
        }
        Ok(last.expect("a walk ends with the operator asked for"))
    }

    fn one(&mut self, operator: u16) -> Result<Arc<LogicalFacts>, Refusal> {
        let place = usize::from(operator);
        match door::facts(&self.ctx, &mut self.analyses, door::operator(place)) {
            Ok(facts) if facts.constraints.residual_predicates.len() > RESIDUALS => {
                Err(Refusal { number: RESIDUAL, place })
            }
            Ok(facts) => Ok(facts),
            Err(AnalysisError::UnsupportedAggregationKey { operator, .. }) => {
                assert_eq!(door::operator_number(operator), place);
                Err(Refusal { number: UNSUPPORTED_KEY, place })
            }
            Err(other) => unreachable!("no plan file leads to {other}"),
        }
    }

    /// Applies predicates one after another to the facts of an operator. A refused predicate hands
    /// back the facts from before it, with its place in the list.
    pub fn apply(&mut self, start: u16, predicates: &[u16]) -> Result<Applied, Refusal> {
        let mut facts = self.derive(start)?.as_ref().clone();
        for (index, predicate) in predicates.iter().enumerate() {
            if usize::from(*predicate) >= self.plan.exprs.len() {
                return Ok(Applied { facts, refused: Some((NO_SUCH, index)) });
            }
            let mut next = facts.clone();
            door::apply_predicate(&mut next, door::expr(usize::from(*predicate)), &self.ctx);
            if next.constraints.residual_predicates.len() > RESIDUALS {
                return Ok(Applied { facts, refused: Some((RESIDUAL, index)) });
            }
            facts = next;
        }
        Ok(Applied { facts, refused: None })
    }
}

pub struct Applied {
    pub facts: LogicalFacts,
    /// The refusal's number and the place in the list of the predicate that was refused.
    pub refused: Option<(u8, usize)>,
}

/// The operators that one reaches, each once, after its inputs, outer before inner.
pub fn walk(plan: &Plan, asked: u16) -> Vec<u16> {
    fn visit(plan: &Plan, operator: u16, seen: &mut [bool], order: &mut Vec<u16>) {
        if std::mem::replace(&mut seen[usize::from(operator)], true) {
            return;
        }
        for input in plan.operators[usize::from(operator)].inputs() {
            visit(plan, input, seen, order);
        }
        order.push(operator);
    }
    let mut order = Vec::new();
    visit(plan, asked, &mut vec![false; plan.operators.len()], &mut order);
    order
}
