//! The comparison finds a subject's faults and reduces them; and what the families promise.

use std::io::sink;

use mossladder_oracle::compare::{Disagreement, Options, class, run};
use mossladder_oracle::generate::{plan, row, scattered, shape};
use mossladder_oracle::plan::{Literal, read};
use mossladder_oracle::question::{Question, hex, unhex};
use mossladder_oracle::random::Random;
use mossladder_oracle::records::Records;
use mossladder_oracle::simplify::{Answer, simplify};
use mossladder_oracle::subject::{Oracle, Subject};
use mossladder_oracle::write::{canonical, raw};

/// The oracle with one fault, of kinds that are easy to get wrong.
struct Broken(Fault);

#[derive(Clone, Copy, PartialEq)]
enum Fault {
    /// Non-null is recorded for every class.
    NonNullForClasses,
    /// An operand's handle may be the nary itself.
    OwnOperand,
    /// The 64th residual is refused.
    ResidualsEarly,
    /// A literal true is a reason to replace a Selection.
    TrueReplaced,
    /// UNKNOWN is taken for FALSE.
    TwoTruths,
    /// Work stops at the first contradiction.
    StopsAtContradiction,
}

impl Subject for Broken {
    fn read(&mut self, file: &[u8]) -> String {
        let answer = Oracle.read(file);
        let Some(place) = answer.strip_prefix("refused 4 ") else {
            return answer;
        };
        let place: usize = place.trim().parse().unwrap();
        if self.0 == Fault::OwnOperand && file[place] == 0x24 {
            "plan\n".to_string()
        } else {
            answer
        }
    }

    fn derive(&mut self, file: &[u8], operator: Option<u16>) -> String {
        let answer = Oracle.derive(file, operator);
        let residuals = answer.lines().filter(|line| line.starts_with("residual")).count();
        match self.0 {
            Fault::NonNullForClasses if answer.contains("class") => {
                answer.replace("class", "nonnull b0\nclass")
            }
            Fault::ResidualsEarly if residuals == 64 => "refused 7 0\n".to_string(),
            _ => answer,
        }
    }

    fn apply(&mut self, file: &[u8], operator: u16, predicates: &[u16]) -> String {
        if self.0 == Fault::StopsAtContradiction {
            for end in 0..predicates.len() {
                let answer = Oracle.apply(file, operator, &predicates[..end]);
                if class(&answer) == "flagged" {
                    return answer;
                }
            }
        }
        Oracle.apply(file, operator, predicates)
    }

    fn simplify(&mut self, file: &[u8], operator: u16) -> String {
        let answer = Oracle.simplify(file, operator);
        if self.0 == Fault::TrueReplaced
            && let Ok(plan) = read(file)
            && let Some(mossladder_oracle::plan::Operator::Selection { predicate, input }) =
                plan.operators.get(usize::from(operator))
            && plan.exprs[usize::from(*predicate)]
                == mossladder_oracle::plan::Node::Literal(Literal::Boolean(true))
        {
            return answer.replace("keep", &format!("replace {input}"));
        }
        answer
    }

    fn evaluate(&mut self, file: &[u8], expr: u16, row: &[Literal]) -> String {
        let answer = Oracle.evaluate(file, expr, row);
        if self.0 == Fault::TwoTruths { answer.replace("unknown", "false") } else { answer }
    }
}

fn found(fault: Fault, only: &str) -> Box<Disagreement> {
    let options = Options { only: vec![only.to_string()], ..Options::default() };
    run(|| Broken(fault), &options, &mut sink()).expect_err("the fault is found")
}

#[test]
fn non_null_for_a_null_safe_pair_is_found_in_random_plans() {
    let wrong = found(Fault::NonNullForClasses, "random");
    assert!(matches!(wrong.smallest, Question::Derive { .. }), "{wrong}");
    // Two columns, their references, one comparison, a leaf with both and a Selection.
    let records = Records::of(wrong.smallest.file()).records;
    assert!(records.len() <= 9, "{wrong}");
    assert!(wrong.smallest.file().len() < wrong.found.file().len(), "{wrong}");
    assert!(wrong.subject.contains("nonnull") && wrong.oracle.contains("class"), "{wrong}");
}

#[test]
fn an_operand_that_is_its_own_nary_is_found_in_damaged_files() {
    let wrong = found(Fault::OwnOperand, "damaged");
    assert_eq!(hex(wrong.smallest.file()), "23000001240000", "{wrong}");
}

#[test]
fn a_refusal_one_early_is_found_at_the_limit() {
    let wrong = found(Fault::ResidualsEarly, "residuals");
    assert_eq!(wrong.subject, "refused 7 0\n");
    assert_eq!(wrong.oracle.matches("residual").count(), 64, "{wrong}");
}

#[test]
fn a_selection_on_true_is_found_among_the_expressions() {
    let wrong = found(Fault::TrueReplaced, "expressions");
    // The literal, a leaf operator, the Selection.
    assert_eq!(hex(wrong.smallest.file()), "1101 310000 33 0000 0000".replace(' ', ""), "{wrong}");
}

#[test]
fn a_lost_unknown_is_found_and_its_row_reduced() {
    let wrong = found(Fault::TwoTruths, "comparisons");
    assert!(wrong.smallest.input().len() <= 16, "{wrong}");
    assert_eq!(wrong.oracle, "unknown\n");
}

#[test]
fn stopping_at_the_first_contradiction_is_found() {
    let wrong = found(Fault::StopsAtContradiction, "sequences");
    let Question::Apply { predicates, .. } = &wrong.smallest else {
        panic!("{wrong}");
    };
    assert_eq!(predicates.len(), 2, "{wrong}");
}

#[test]
fn the_oracle_agrees_with_itself() {
    let options = Options { scale: 5, seed: 7, ..Options::default() };
    let counts = run(|| Oracle, &options, &mut sink()).ok().expect("no disagreement");
    assert!(counts["shared"].left_out > 0);
    let mut seen: Vec<String> =
        counts.values().flat_map(|count| count.answers.keys().cloned()).collect();
    seen.sort();
    seen.dedup();
    for number in 1..=10 {
        assert!(seen.contains(&format!("refused {number}")), "{seen:?}");
    }
}

#[test]
fn generated_plans_are_accepted_in_any_order() {
    let mut random = Random::new(3);
    for _ in 0..400 {
        let shape = shape(&mut random);
        let plan = plan(&mut random, &shape);
        assert_eq!(read(&raw(&plan)).as_ref(), Ok(&plan));
        assert_eq!(read(&scattered(&mut random, &plan)).as_ref(), Ok(&plan));
        let again = read(&canonical(&plan)).unwrap();
        assert_eq!(canonical(&again), canonical(&plan));
    }
}

#[test]
fn a_question_is_its_operation_and_its_input() {
    let mut random = Random::new(4);
    for _ in 0..100 {
        let shape = shape(&mut random);
        let plan = plan(&mut random, &shape);
        let (file, row) = (raw(&plan), row(&mut random, &plan));
        for question in [
            Question::Read { file: file.clone() },
            Question::Derive { file: file.clone(), operator: None },
            Question::Derive { file: file.clone(), operator: Some(3) },
            Question::Apply { file: file.clone(), operator: 1, predicates: vec![4, 2] },
            Question::Simplify { file: file.clone(), operator: 2 },
            Question::Evaluate { file: file.clone(), expr: 1, row },
        ] {
            assert_eq!(Question::parse(question.operation(), &question.input()), Some(question));
        }
    }
    assert_eq!(unhex("0"), None);
    assert_eq!(unhex("0g"), None);
}

/// The rules: Keep appends nothing, and simplifying a simplified expression gives the same handle.
#[test]
fn simplifying_twice_keeps() {
    let mut random = Random::new(5);
    let mut replaced = 0;
    for _ in 0..3000 {
        let shape = shape(&mut random);
        let before = plan(&mut random, &shape);
        for operator in 0..before.operators.len() as u16 {
            let question = Question::Simplify { file: raw(&before), operator };
            if !mossladder_oracle::compare::askable(&question) {
                continue;
            }
            match simplify(&before, operator) {
                Ok((Answer::Keep, after)) => assert_eq!(canonical(&after), canonical(&before)),
                Ok((Answer::Replace(by), after)) if usize::from(by) >= before.operators.len() => {
                    replaced += 1;
                    let (again, same) = simplify(&after, by).expect("nothing is appended");
                    assert_eq!((again, canonical(&same)), (Answer::Keep, canonical(&after)));
                }
                _ => {}
            }
        }
    }
    assert!(replaced > 100, "{replaced}");
}
