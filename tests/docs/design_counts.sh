#!/bin/sh
# How many places of each point of docs/DESIGN-PASS.md there are: a line 'point, count' each. Run at the top of a checkout.
c() { printf '%s\t%s\n' "$1" "$(eval "$2" 2>/dev/null | wc -l)"; }
c 1a "grep -hE '^ +(pub )?[a-z_]+: bool,' crates/*/src/*.rt"
c 1b "grep -hE '^    (Nothing|Unseen|Accepted|Whole|Room|NoSuch|Value\(|Keep)' crates/*/src/*.rt"
c 1c "grep -hE '^(pub )?const [A-Z]+: u8 =' crates/*/src/*.rt"
c 2 "grep -hE '\bfn [a-z_]*(8|16|32|64|_lower|_upper|lower_by|upper_by)\(' crates/*/src/*.rt"
c 3 "grep -hE '^ *while ' crates/*/src/*.rt"
c 4a "grep -hE '\bfn (same_[a-z]+|equal|less|code_of[a-z_]*|[a-z_]*_of_code|[a-z]+_op_of|join_type_of|kind_code|[a-z]+_number|[a-z]+_place|is_(whole|added|accepted|null|literal|ordinary|bounding|column_ref|null_literal|checking|residual)|expr_record_of|operator_record_of|magnitude)\(' crates/*/src/*.rt"
c 4b "grep -hoE '[a-z0-9_.)]+ as (u8|u16|u32|u64|usize|i32|i64)\b' crates/*/src/*.rt"
c 4c "grep -hE '\(_\) =>|: _' crates/*/src/*.rt"
c 5a "grep -hE '^ *(kind|code|a|b|c|d|bits|start|items|first|second|ia|ib|rk|rc|rb|case): &' crates/*/src/*.rt"
c 5b "grep -hE '\b(p: Plan|f: LogicalFacts|s: ConstraintSet|t: ConstraintSet|ids: Identities|w: Walk|q: State|row: Row)\b' crates/*/src/*.rt"
c 6a "grep -hE '^    (pub )?[a-z_]+: \[[^]]+; [0-9]+\],' crates/*/src/*.rt"
c 6b "grep -hE '^    (pub )?(count|depth|residuals): ' crates/*/src/*.rt"
c 7 "grep -hE 'match (what|step|turn)\b|if what ==|\b(Fn|FnMut|FnOnce)\(' crates/*/src/*.rt"
c 8a "find crates -path '*/proofs/*/Answers.antt' -not -path '*/out/*'"
c 8b "find crates -path '*/proofs/*/Answers.antt' -not -path '*/out/*' -exec cat {} +"
c 8c "find crates -path '*/proofs/*' -name '*.antt' -not -path '*/out/*' -exec cat {} +"
