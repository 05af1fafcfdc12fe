//! The list in answers.txt is what the oracle answers today, and it has every kind of case.

use std::collections::BTreeSet;

use mossladder_oracle::compare::class;
use mossladder_oracle::fixed::lines;
use mossladder_oracle::plan::{Node, body_length, read};
use mossladder_oracle::question::{Question, unhex};
use mossladder_oracle::records::Records;
use mossladder_oracle::subject::{Oracle, Subject};

fn parsed() -> Vec<(Question, String)> {
    include_str!("../answers.txt")
        .lines()
        .map(|line| {
            let mut parts = line.splitn(3, ' ');
            let (operation, input) = (parts.next().unwrap(), parts.next().unwrap());
            let input = if input == "-" { Vec::new() } else { unhex(input).unwrap() };
            let answer = parts.next().unwrap().replace('/', "\n") + "\n";
            (Question::parse(operation, &input).unwrap(), answer)
        })
        .collect()
}

#[test]
fn the_list_is_the_oracles() {
    let written: Vec<&str> = include_str!("../answers.txt").lines().collect();
    assert_eq!(written, lines());
    for (question, answer) in parsed() {
        assert_eq!(Oracle.answer(&question), answer);
    }
}

#[test]
fn the_list_has_every_record_kind_refusal_and_form() {
    let (mut kinds, mut classes, mut lines) = (BTreeSet::new(), BTreeSet::new(), BTreeSet::new());
    let mut forms = BTreeSet::new();
    for (question, answer) in parsed() {
        classes.insert(format!("{} {}", question.operation(), class(&answer)));
        lines.extend(answer.lines().map(|line| line.split(' ').next().unwrap().to_string()));
        let Ok(plan) = read(question.file()) else {
            continue;
        };
        kinds.extend(Records::of(question.file()).records.iter().map(|record| record.kind));
        let Question::Apply { predicates, .. } = &question else {
            continue;
        };
        for predicate in predicates {
            if let Some(Node::Comparison(op, left, right)) = plan.exprs.get(usize::from(*predicate))
            {
                let side = |e: &u16| match plan.exprs[usize::from(*e)] {
                    Node::Column(_) => 'c',
                    Node::Literal(_) => 'l',
                    _ => 'e',
                };
                forms.insert((*op as u8, side(left), side(right)));
            }
        }
    }
    let listed: BTreeSet<u8> = (0..=255).filter(|kind| body_length(*kind).is_some()).collect();
    assert_eq!(kinds, listed);
    for number in 1..=5 {
        assert!(classes.contains(&format!("read refused {number}")), "{classes:?}");
    }
    for class in [
        "derive refused 6",
        "derive refused 7",
        "derive refused 8",
        "derive facts",
        "derive flagged",
        "facts refused 8",
        "apply refused 7",
        "apply refused 8",
        "apply flagged",
        "simplify keep",
        "simplify replace",
        "simplify refused 3",
        "simplify refused 8",
        "eval refused 8",
        "eval refused 9",
        "eval refused 10",
        "eval true",
        "eval false",
        "eval unknown",
    ] {
        assert!(classes.contains(class), "{class} is missing: {classes:?}");
    }
    for line in ["column", "define", "class", "nonnull", "literal", "range", "residual"] {
        assert!(lines.contains(line), "{line}");
    }
    for op in 0..7 {
        for sides in [('c', 'l'), ('l', 'c'), ('c', 'c'), ('l', 'l')] {
            assert!(forms.contains(&(op, sides.0, sides.1)), "{op} {sides:?}");
        }
    }
}
