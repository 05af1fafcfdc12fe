//! Facts of the Rust held against rows: a row on which the predicates are TRUE meets the facts, and
//! where everything is Int32 a row that meets the facts makes the predicates TRUE.

use mossladder_oracle::builder::Builder;
use mossladder_oracle::facts::Deriving;
use mossladder_oracle::generate::literal;
use mossladder_oracle::meets::meets;
use mossladder_oracle::plan::{COMPARISONS, KINDS, Kind, Literal, NARIES, Node, UNARIES};
use mossladder_oracle::random::Random;
use mossladder_oracle::rows::{Truth, evaluate};

/// Three columns, predicates over them, a Scan of them all.
fn predicates(random: &mut Random, kinds: [Kind; 3], literals: &[Literal]) -> (Builder, Vec<u16>) {
    let mut b = Builder::new();
    let columns = kinds.map(|kind| b.column(kind));
    b.scan(0, &columns);
    let mut leaves: Vec<u16> = columns.map(|column| b.reference(column)).to_vec();
    leaves.extend(literals.iter().map(|literal| b.literal(*literal)));
    let mut tests = Vec::new();
    for _ in 0..random.between(1, 5) {
        let (left, right) = (random.pick(&leaves), random.pick(&leaves));
        tests.push(b.compare(random.pick(&COMPARISONS), left, right));
    }
    for _ in 0..random.below(3) {
        let node = match random.below(3) {
            0 => Node::Unary(UNARIES[0], random.pick(&tests)),
            1 => Node::Unary(random.pick(&UNARIES[1..3]), random.pick(&leaves)),
            _ => Node::Nary(random.pick(&NARIES), vec![random.pick(&tests), random.pick(&tests)]),
        };
        tests.push(b.node(node));
    }
    let asked = (0..random.between(1, 4)).map(|_| random.pick(&tests)).collect();
    (b, asked)
}

struct Seen {
    rows: usize,
    wanted: usize,
    met: usize,
    exact: usize,
}

fn run(seed: u64, count: usize, mut kinds: impl FnMut(&mut Random) -> [Kind; 3]) -> Seen {
    let mut random = Random::new(seed);
    let mut seen = Seen { rows: 0, wanted: 0, met: 0, exact: 0 };
    for _ in 0..count {
        let kinds = kinds(&mut random);
        let literals: Vec<Literal> = (0..3)
            .map(|_| {
                let kind = random.pick(&kinds);
                literal(&mut random, kind)
            })
            .collect();
        let (b, asked) = predicates(&mut random, kinds, &literals);
        let applied = Deriving::new(&b.plan).apply(0, &asked).ok().unwrap();
        for _ in 0..12 {
            let row: Vec<Literal> = kinds
                .iter()
                .map(|kind| {
                    let alike: Vec<Literal> =
                        literals.iter().copied().filter(|l| l.kind() == *kind).collect();
                    match random.below(6) {
                        0 => Literal::Null(*kind),
                        1..=4 if !alike.is_empty() => random.pick(&alike),
                        _ => literal(&mut random, *kind),
                    }
                })
                .collect();
            let wanted = asked.iter().all(|e| evaluate(&b.plan, *e, &row) == Ok(Truth::True));
            let met = meets(&b.plan, &applied.facts, &row);
            assert!(!wanted || met, "unsound: {:?} {asked:?} {row:?}", b.plan);
            seen.rows += 1;
            seen.wanted += usize::from(wanted);
            seen.met += usize::from(met);
            seen.exact += usize::from(wanted == met);
        }
    }
    seen
}

#[test]
fn facts_are_sound_for_all_kinds() {
    let seen = run(1, 60_000, |random| [0; 3].map(|_| random.pick(&KINDS)));
    assert!(seen.wanted > 5_000, "{}", seen.wanted);
}

#[test]
fn facts_are_exact_where_everything_is_int32() {
    let seen = run(2, 60_000, |_| [Kind::Int32; 3]);
    assert_eq!(seen.exact, seen.rows);
    assert!(seen.met > 5_000, "{}", seen.met);
}

#[test]
fn facts_are_exact_where_everything_is_of_another_kind_without_nan() {
    for kind in [Kind::Boolean, Kind::Int64, Kind::Date32] {
        let seen = run(3, 20_000, |_| [kind; 3]);
        assert_eq!(seen.exact, seen.rows, "{kind:?}");
    }
}
