//! Plans by seed, whole and damaged.

use crate::damage::damage;
use crate::generate::{self, Shape, scattered};
use crate::paths::{STEPS, expressions, steps};
use crate::plan::Plan;
use crate::question::Question;
use crate::random::Random;
use crate::rows::operands;
use crate::simplify::{Answer, simplify};
use crate::write::raw;

use super::{Ask, Step, derive, facts};

type Shaping = fn(&mut Random) -> Shape;

pub fn random_plans(random: &mut Random, count: usize, ask: &mut Ask) -> Step {
    whole(random, count, generate::shape, ask)
}

pub fn small_plans(random: &mut Random, count: usize, ask: &mut Ask) -> Step {
    whole(random, count, generate::small_shape, ask)
}

fn whole(random: &mut Random, count: usize, shape: Shaping, ask: &mut Ask) -> Step {
    for _ in 0..count {
        let shape = shape(random);
        let plan = generate::plan(random, &shape);
        ask_plan(random, &plan, ask)?;
    }
    Step::Continue(())
}

fn ask_plan(random: &mut Random, plan: &Plan, ask: &mut Ask) -> Step {
    let file = if random.chance(1, 2) { raw(plan) } else { scattered(random, plan) };
    ask(Question::Read { file: file.clone() })?;
    ask(facts(file.clone()))?;
    // Now and then a handle that is not there.
    let some = |random: &mut Random, count: usize| {
        if count == 0 || random.chance(1, 20) { count as u16 } else { random.below(count) as u16 }
    };
    let with: Vec<u16> = (0..plan.operators.len() as u16)
        .filter(|o| !expressions(&plan.operators[usize::from(*o)]).is_empty())
        .collect();
    for _ in 0..3 {
        let operator = some(random, plan.operators.len());
        ask(derive(file.clone(), operator))?;
        let operator = if with.is_empty() { operator } else { to_rewrite(random, plan, &with) };
        ask(Question::Simplify { file: file.clone(), operator })?;
    }
    let leaves: Vec<u16> = (0..plan.operators.len() as u16)
        .filter(|o| plan.operators[usize::from(*o)].inputs().is_empty())
        .collect();
    for _ in 0..2 {
        let count = random.between(0, 6);
        let predicates = (0..count).map(|_| random.below(plan.exprs.len().max(1)) as u16).collect();
        let operator = if leaves.is_empty() { 0 } else { random.pick(&leaves) };
        ask(Question::Apply { file: file.clone(), operator, predicates })?;
    }
    let compound: Vec<u16> = (0..plan.exprs.len() as u16)
        .filter(|e| !operands(&plan.exprs[usize::from(*e)]).is_empty())
        .collect();
    for number in 0..4 {
        let any = number == 0 || compound.is_empty();
        let expr = if any { some(random, plan.exprs.len()) } else { random.pick(&compound) };
        let row = generate::row(random, plan);
        ask(Question::Evaluate { file: file.clone(), expr, row })?;
    }
    Step::Continue(())
}

/// One of these operators, after a few tries for one that is not kept.
fn to_rewrite(random: &mut Random, plan: &Plan, from: &[u16]) -> u16 {
    let mut operator = random.pick(from);
    for _ in 0..4 {
        let question = Question::Simplify { file: Vec::new(), operator };
        let kept = steps(plan, &question) <= STEPS
            && matches!(simplify(plan, operator), Ok((Answer::Keep, _)));
        if !kept {
            break;
        }
        operator = random.pick(from);
    }
    operator
}

pub fn damaged(random: &mut Random, count: usize, ask: &mut Ask) -> Step {
    damaged_copies(random, count, generate::shape, ask)
}

pub fn nicked(random: &mut Random, count: usize, ask: &mut Ask) -> Step {
    damaged_copies(random, count, generate::small_shape, ask)
}

fn damaged_copies(random: &mut Random, count: usize, shape: Shaping, ask: &mut Ask) -> Step {
    for _ in 0..count {
        let shape = shape(random);
        let plan = generate::plan(random, &shape);
        let file = if random.chance(1, 2) { raw(&plan) } else { scattered(random, &plan) };
        for _ in 0..4 {
            let file = damage(random, &file);
            ask(Question::Read { file: file.clone() })?;
            if random.chance(1, 4) {
                ask(facts(file))?;
            }
        }
    }
    Step::Continue(())
}
