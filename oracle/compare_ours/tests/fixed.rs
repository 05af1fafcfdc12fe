//! The proved library gives the answers of the fixed list.

use compare_ours::Ours;
use mossladder_oracle::question::{Question, unhex};
use mossladder_oracle::subject::Subject;

#[test]
fn the_fixed_list() {
    let mut ours = Ours::new();
    let list = include_str!("../../answers.txt");
    for line in list.lines() {
        let mut words = line.splitn(3, ' ');
        let (operation, input, answer) =
            (words.next().unwrap(), words.next().unwrap(), words.next().unwrap());
        let input = if input == "-" { Vec::new() } else { unhex(input).unwrap() };
        let question = Question::parse(operation, &input).unwrap();
        let got = ours.answer(&question);
        assert_eq!(got.trim_end_matches('\n').replace('\n', "/"), answer, "{line}");
    }
    assert!(list.lines().count() > 6000);
}
