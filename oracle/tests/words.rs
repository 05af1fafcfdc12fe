//! What the rules write out, asked of the Rust itself.

use mossladder_oracle::builder::Builder;
use mossladder_oracle::plan::Comparison::*;
use mossladder_oracle::plan::{Kind, Literal, Operator, read};
use mossladder_oracle::question::{hex, unhex};
use mossladder_oracle::subject::{Oracle, Subject};
use mossladder_oracle::write::canonical;

const WORKED: &str = "01 0000 02 01 0001 02 20 0000 20 0001 22 00 0000 0001 12 00000007 \
    22 02 0001 0003 23 00 0002 24 0002 24 0004 30 0000 0002 40 0000 40 0001 33 0005 0000";

#[test]
fn the_worked_input_gives_the_listing() {
    let file = unhex(WORKED).unwrap();
    let listing = "facts 1 0\ncolumn 0 b0\ncolumn 1 b1\nclass b0 b1\nnonnull b0\n\
        range b0 - 401c000000000000x\n";
    assert_eq!(Oracle.derive(&file, None), listing);
    assert_eq!(Oracle.derive(&file, Some(1)), listing);
    // Its records stand in the canonical order already.
    assert_eq!(canonical(&read(&file).unwrap()), file);
}

/// A file and the refusal that its reading gives.
fn refused(file: &str, answer: &str) {
    let file = unhex(file).unwrap();
    assert_eq!(Oracle.read(&file), format!("refused {answer}\n"), "{}", hex(&file));
    assert_eq!(Oracle.derive(&file, None), format!("refused {answer}\n"));
}

#[test]
fn short_is_placed_at_the_record_or_at_the_files_end() {
    refused("01", "1 0");
    refused("01 0000 02 01 0001", "1 4");
    refused("23 00 0001", "1 4");
    refused("01 0000 02 31 0001 40 00", "1 7");
    refused("31 0001", "1 3");
}

#[test]
fn unknown_kinds_codes_and_items_out_of_place() {
    refused("00", "2 0");
    refused("01 0000 00", "2 0");
    refused("01 0000 06", "2 0");
    refused("11 02", "2 0");
    refused("11 01 21 04 0000", "2 2");
    refused("11 01 22 07 0000 0000", "2 2");
    refused("23 02 0000", "2 0");
    refused("40 0000", "2 0");
    refused("24", "2 0");
    // Where an item is wanted another kind is refused before its body is looked at.
    refused("01 0000 02 31 0001 41", "2 7");
    refused("01 0000 02 31 0001 01 0000 02", "2 7");
    // A body that ends early comes before its code.
    refused("22 07 0000", "1 0");
    // Codes come before handles.
    refused("3c 07 0000 0000 0000", "2 0");
}

#[test]
fn room_is_tested_last() {
    let column = "01 0000 02";
    refused(&column.repeat(65), &format!("3 {}", 64 * 4));
    refused(&("11 00".repeat(1025)), "3 2048");
    refused(&("31 0000".repeat(129)), &format!("3 {}", 128 * 3));
    let items = format!("{column} 31 0801 {}", "40 0000".repeat(2049));
    refused(&items, &format!("3 {}", 4 + 3 + 2048 * 3));
    // A missing column in the item without room is found first.
    let items = format!("{column} 31 0801 {} 40 0001", "40 0000".repeat(2048));
    refused(&items, &format!("4 {}", 4 + 3 + 2048 * 3));
    // A nary without room is refused before its operands are looked at.
    refused(&format!("{} 23 00 0001 00", "11 00".repeat(1024)), "3 2048");
}

#[test]
fn a_handle_is_defined_earlier() {
    refused("20 0000", "4 0");
    refused("21 00 0000", "4 0");
    refused("11 00 22 00 0000 0001", "4 2");
    refused("23 00 0001 24 0000", "4 4");
    refused("11 00 23 00 0001 24 0001", "4 6");
    refused("39 0000", "4 0");
    refused("31 0000 3b 0000 0001", "4 3");
    refused("31 0000 33 0000 0000", "4 3");
    refused("11 00 31 0000 3d 0000 0000 0000 0000", "4 5");
    refused("31 0001 40 0000", "4 3");
}

#[test]
fn a_column_stands_in_one_scan() {
    refused("01 0000 02 30 0000 0001 40 0000 30 0000 0001 40 0000", "5 17");
    let twice = unhex("01 0000 02 30 0000 0002 40 0000 40 0000 31 0001 40 0000").unwrap();
    assert_eq!(Oracle.derive(&twice, Some(0)), "facts 0 0\ncolumn 0 b0\n");
    assert_eq!(Oracle.derive(&twice, None), "facts 1 0\ncolumn 0 d0\n");
}

#[test]
fn a_key_that_is_no_column_reference() {
    let mut b = Builder::new();
    let x = b.column(Kind::Int32);
    let scan = b.scan(0, &[x]);
    let (r, five) = (b.reference(x), b.int32(5));
    let group = |keys: Vec<u16>| Operator::Aggregation { input: scan, keys, aggregates: vec![x] };
    b.operator(group(vec![r]));
    b.operator(group(vec![r, five]));
    b.operator(Operator::CrossProduct { outer: 1, inner: 2 });
    assert_eq!(Oracle.derive(&b.file(), Some(1)), "facts 1 0\ncolumn 0 d0\n");
    assert_eq!(Oracle.derive(&b.file(), None), "refused 6 2\n");
}

#[test]
fn a_65th_residual() {
    let mut b = Builder::new();
    let x = b.column(Kind::Int32);
    b.scan(0, &[x]);
    let r = b.reference(x);
    let tests: Vec<u16> = (0..65).map(|_| b.not(r)).collect();
    let full = b.and(&tests[..64]);
    let over = b.and(&tests);
    b.select(full, 0);
    b.select(over, 0);
    b.select(tests[64], 1);
    b.select(tests[63], 1);
    let file = b.file();
    assert_eq!(Oracle.derive(&file, Some(1)).lines().count(), 66);
    assert_eq!(Oracle.derive(&file, Some(2)), "refused 7 2\n");
    assert_eq!(Oracle.derive(&file, Some(3)), "refused 7 3\n");
    assert_eq!(Oracle.derive(&file, Some(4)).lines().count(), 66);
    // Applying hands back the facts from before the refused predicate.
    let answer = Oracle.apply(&file, 0, &[full, tests[64], tests[0]]);
    let kept = Oracle.apply(&file, 0, &[full]);
    assert_eq!(answer, format!("refused 7 1\n{kept}"));
}

#[test]
fn what_is_not_in_the_plan() {
    let file = unhex(WORKED).unwrap();
    assert_eq!(Oracle.derive(&[], None), "refused 8 0\n");
    assert_eq!(Oracle.derive(&file, Some(2)), "refused 8 2\n");
    assert_eq!(Oracle.evaluate(&file, 6, &[]), "refused 8\n");
    assert!(Oracle.simplify(&file, 2).starts_with("refused 8\nplan "));
}

#[test]
fn rows_and_truth() {
    let mut b = Builder::new();
    let (x, z) = (b.column(Kind::Int32), b.column(Kind::Int64));
    let (rx, rz) = (b.reference(x), b.reference(z));
    let across = b.compare(Eq, rx, rz);
    let safe = b.compare(IsNotDistinctFrom, rx, rz);
    let negated = b.unary(mossladder_oracle::plan::Unary::Negate, rx);
    let untyped = b.and(&[across, rx]);
    let null_test = b.unary(mossladder_oracle::plan::Unary::IsNull, across);
    let file = b.file();
    let row = [Literal::Int32(5), Literal::Int64(5)];
    let nulls = [Literal::Null(Kind::Int32), Literal::Null(Kind::Date32)];
    let bad = [Literal::Int32(5), Literal::Int32(5)];
    assert_eq!(Oracle.evaluate(&file, across, &row), "unknown\n");
    assert_eq!(Oracle.evaluate(&file, safe, &row), "false\n");
    assert_eq!(Oracle.evaluate(&file, safe, &nulls), "true\n");
    assert_eq!(Oracle.evaluate(&file, null_test, &row), "true\n");
    assert_eq!(Oracle.evaluate(&file, rx, &row), "refused 9\n");
    assert_eq!(Oracle.evaluate(&file, negated, &row), "refused 9\n");
    assert_eq!(Oracle.evaluate(&file, untyped, &bad), "refused 9\n");
    assert_eq!(Oracle.evaluate(&file, across, &bad), "refused 10\n");
    let none = b.and(&[]);
    let never = b.or(&[]);
    assert_eq!(Oracle.evaluate(&b.file(), none, &row), "true\n");
    assert_eq!(Oracle.evaluate(&b.file(), never, &row), "false\n");
}

/// x, y are Int32 columns with lineage, z Int64, b Boolean: the columns of the proved cases (docs/PROMISES.md).
struct Cases {
    builder: Builder,
    x: u16,
    y: u16,
    z: u16,
    b: u16,
}

impl Cases {
    fn new() -> Self {
        let mut builder = Builder::new();
        let columns: Vec<u16> = [Kind::Int32, Kind::Int32, Kind::Int64, Kind::Boolean]
            .map(|kind| builder.column(kind))
            .to_vec();
        builder.scan(0, &columns);
        let [x, y, z, b] = [0, 1, 2, 3].map(|column| builder.reference(column));
        Self { builder, x, y, z, b }
    }

    /// The listing after the predicates, without the lines that every listing here has.
    fn applied(&self, predicates: &[u16]) -> String {
        let listing = Oracle.apply(&self.builder.file(), 0, predicates);
        let lines: Vec<&str> = listing.lines().filter(|line| !line.starts_with("column")).collect();
        lines.join("; ")
    }
}

#[test]
fn cases_1_and_2_bounds_up_to_2_to_the_53rd() {
    let mut c = Cases::new();
    let exact = c.builder.int64(1 << 53);
    let past = c.builder.int64((1 << 53) + 1);
    let one = c.builder.compare(Lt, c.z, exact);
    let two = c.builder.compare(Lt, c.z, past);
    assert_eq!(c.applied(&[one]), "facts 0 0; nonnull b2; range b2 - 4340000000000000x");
    assert_eq!(c.applied(&[two]), format!("facts 0 0; residual e{two}"));
}

#[test]
fn case_3_a_literal_outside_and_inside_a_bound() {
    let mut c = Cases::new();
    let seven = c.builder.int32(7);
    let [below, upto, equal] = [Lt, LtEq, Eq].map(|op| c.builder.compare(op, c.x, seven));
    assert!(c.applied(&[below, equal]).starts_with("facts 0 1"));
    assert!(c.applied(&[upto, equal]).starts_with("facts 0 0"));
}

#[test]
fn case_4_equal_to_null() {
    let mut c = Cases::new();
    let null = c.builder.null(Kind::Int32);
    let equal = c.builder.compare(Eq, c.x, null);
    assert_eq!(c.applied(&[equal]), "facts 0 1");
}

#[test]
fn case_5_a_null_safe_pair() {
    let mut c = Cases::new();
    let same = c.builder.compare(IsNotDistinctFrom, c.x, c.y);
    assert_eq!(c.applied(&[same]), "facts 0 0; class b0 b1");
}

#[test]
fn case_6_not_equal_either_way_round() {
    let mut c = Cases::new();
    let five = c.builder.int32(5);
    let right = c.builder.compare(NotEq, c.x, five);
    let left = c.builder.compare(NotEq, five, c.x);
    let recorded = format!("facts 0 0; nonnull b0; range b0 - -; residual e{right}");
    assert_eq!(c.applied(&[right]), recorded);
    assert_eq!(c.applied(&[left]), format!("facts 0 0; residual e{left}"));
}

#[test]
fn case_7_a_column_equal_to_itself() {
    let mut c = Cases::new();
    let same = c.builder.compare(Eq, c.x, c.x);
    assert_eq!(c.applied(&[same]), "facts 0 0; nonnull b0");
}

#[test]
fn case_8_no_whole_number_between() {
    let mut c = Cases::new();
    let (three, four) = (c.builder.int32(3), c.builder.int32(4));
    let above = c.builder.compare(Gt, c.x, three);
    let below = c.builder.compare(Lt, c.x, four);
    assert!(c.applied(&[above, below]).starts_with("facts 0 0"));
}

#[test]
fn case_9_one_number_of_two_kinds() {
    let mut c = Cases::new();
    let (narrow, wide) = (c.builder.int32(5), c.builder.int64(5));
    let first = c.builder.compare(Eq, c.z, narrow);
    let second = c.builder.compare(Eq, c.z, wide);
    assert_eq!(c.applied(&[first, second]), "facts 0 1; nonnull b2; literal b2 i32 5");
}

#[test]
fn case_10_the_exclusive_form_stands() {
    let mut c = Cases::new();
    let seven = c.builder.int32(7);
    let (upto, below) = (c.builder.compare(LtEq, c.x, seven), c.builder.compare(Lt, c.x, seven));
    let bound = "facts 0 0; nonnull b0; range b0 - 401c000000000000x";
    assert_eq!(c.applied(&[upto, below]), bound);
    assert_eq!(c.applied(&[below, upto]), bound);
}

/// What a Selection on this predicate is simplified to: the answer's first line and the plan's nodes.
fn simplified(builder: &Builder, predicate: u16) -> (String, mossladder_oracle::plan::Plan) {
    let mut builder = builder.clone();
    let asked = builder.select(predicate, 0);
    let answer = Oracle.simplify(&builder.file(), asked);
    let (first, plan) = answer.split_once("\nplan ").unwrap();
    (first.to_string(), read(&unhex(plan).unwrap()).unwrap())
}

#[test]
fn case_11_naries_of_none_and_one() {
    let mut c = Cases::new();
    let none = c.builder.and(&[]);
    let alone = c.builder.and(&[c.b]);
    let yes = c.builder.boolean(true);
    let no = c.builder.boolean(false);
    let only_true = c.builder.and(&[yes]);
    let or = c.builder.or(&[no, c.b]);
    assert_eq!(simplified(&c.builder, none).0, "keep");
    assert_eq!(simplified(&c.builder, alone).0, "keep");
    // And[true] becomes a literal true, so the Selection gives way to its input.
    let (answer, plan) = simplified(&c.builder, only_true);
    assert_eq!(answer, "replace 0");
    assert_eq!(
        plan.exprs.last(),
        Some(&mossladder_oracle::plan::Node::Literal(Literal::Boolean(true)))
    );
    let (answer, plan) = simplified(&c.builder, or);
    assert_eq!(answer, "replace 2");
    assert_eq!(plan.operators[2], Operator::Selection { predicate: c.b, input: 0 });
    assert_eq!(plan.exprs.len(), c.builder.plan.exprs.len());
}

#[test]
fn a_selection_on_the_literal_true_is_kept() {
    let mut c = Cases::new();
    let yes = c.builder.boolean(true);
    let both = c.builder.and(&[yes, yes]);
    assert_eq!(simplified(&c.builder, yes).0, "keep");
    assert_eq!(simplified(&c.builder, both).0, "replace 0");
}
