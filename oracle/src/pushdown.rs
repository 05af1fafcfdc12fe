//! Moving filters below joins by optd's own `PredicatePushdown`, in the words of request T-05.

use optd_pushdown::optimize::OperatorRewrite;
use optd_pushdown::predicate_pushdown::PredicatePushdown;

use crate::facts::Deriving;
use crate::plan::{NO_SUCH, Operator, Plan, Refusal};
use crate::simplify::{Answer, rewritten};

/// The answer and the plan with the appended nodes, or a refusal: 8 first; then, for a Selection over
/// a join or product only, 6 or 7 from that operator's two inputs; then 3 at the operator asked for.
pub fn pushdown(plan: &Plan, operator: u16) -> Result<(Answer, Plan), Refusal> {
    let place = usize::from(operator);
    let Some(asked) = plan.operators.get(place) else {
        return Err(Refusal { number: NO_SUCH, place });
    };
    if let Operator::Selection { input, .. } = asked
        && let [outer, inner] = plan.operators[usize::from(*input)].inputs()[..]
    {
        let mut deriving = Deriving::new(plan);
        deriving.derive(outer)?;
        deriving.derive(inner)?;
    }
    rewritten(plan, operator, |asked, optimizer| {
        PredicatePushdown.rewrite(asked, optimizer).expect("the pass has no error of its own")
    })
    .map_err(|number| Refusal { number, place })
}
