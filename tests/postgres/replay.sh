#!/bin/sh
# Writes crates/test_rows/stdin and stdout, which the gate runs and holds to each other: 150 cases of tests/rows/cases.py, with every
# refusal and every kind of value, then 250 predicates with PostgreSQL's own answers. Run it at the repository's top, after `rt run` in crates/test_rows.
set -e
work=$(mktemp -d)
python3 tests/rows/cases.py 1 150 "$work/own-steps" "$work/own-answers"
python3 tests/postgres/judge.py 5 250 crates/test_rows/out/test_rows --keep "$work"
cat "$work/own-steps" "$work/steps" >crates/test_rows/stdin
cat "$work/own-answers" "$work/answers" >crates/test_rows/stdout
rm -r "$work"
