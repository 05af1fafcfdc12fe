#!/usr/bin/env python3
"""Random plans whose Ands share operands, held against the Rust.

    run.py FACTS ORACLE SEED COUNT     FACTS is crates/facts/out/facts, or a command that runs it; ORACLE is oracle/target/release/oracle

An And stands in several others, so that its conjuncts come again and again, up to 20,000 of them in a predicate: equalities with 0.0, -0.0 and NaN, which count
each time, beside joins of classes, bounds and residuals. COUNT plans, each with one to three Selections or joins.
Ends with 1 at the first listing that differs, with the plan in hex.
"""
import random
import shlex
import struct
import subprocess
import sys

# the literals of a plan: mostly zeros, since everything else contradicts them soon
FLOATS = ((0.0, -0.0), (0.0, -0.0), (0.0, -0.0, 3.0), (0.0, -0.0, float("nan")), (1.5, -2.0, 0.0, float("inf"), float("nan")))
MOST = 20000


class Plan:
    def __init__(self, rng):
        self.rng = rng
        self.columns = rng.randint(2, 10)
        self.file = b"".join(struct.pack(">BHB", 0x01, name, 4) for name in range(self.columns))
        self.count = 0
        self.conjuncts = {}
        self.residual = rng.random() < 0.15  # mostly such comparisons: the list of 64 is full soon

    def expr(self, body, conjuncts):
        self.file += body
        self.conjuncts[self.count] = conjuncts
        self.count += 1
        return self.count - 1

    def leaf(self):
        rng = self.rng
        left = rng.choice(self.refs)
        sort = 1 if self.residual and rng.random() < 0.9 else rng.random()
        if sort < 0.45:
            code, right = 0, rng.choice(self.literals)
        elif sort < 0.65:
            code, right = rng.choice((0, 6)), rng.choice(self.refs)
        elif sort < 0.85:
            code, right = rng.choice((2, 3, 4, 5)), rng.choice(self.literals)
        else:
            code, right = rng.choice((1, 2, 6)), rng.choice(self.refs + self.literals)
        if rng.random() < 0.3:
            left, right = right, left
        return self.expr(struct.pack(">BBHH", 0x22, code, left, right), 1)

    def conjunction(self, operands):
        many = sum(self.conjuncts[e] for e in operands)
        return self.expr(struct.pack(">BBH", 0x23, 0, len(operands)) + b"".join(struct.pack(">BH", 0x24, e) for e in operands), many)

    def predicate(self):
        rng = self.rng
        pool = [self.leaf() for _ in range(rng.randint(1, 150 if self.residual else rng.choice((5, 5, 20, 90))))]
        if rng.random() < 0.5:
            pool.append(self.conjunction(pool))
        for _ in range(rng.randint(0, 24)):
            reach = rng.choice((2, 4, len(pool)))
            operands = [rng.choice(pool[-reach:]) for _ in range(rng.choice((0, 1, 2, 2, 2, 3, 3, 6)))]
            if sum(self.conjuncts[e] for e in operands) <= MOST:
                pool.append(self.conjunction(operands))
        return pool[-1]


def plan(rng):
    p = Plan(rng)
    p.refs = [p.expr(struct.pack(">BH", 0x20, c), 1) for c in range(p.columns)]
    p.literals = [p.expr(struct.pack(">Bd", 0x14, x), 1) for x in rng.choice(FLOATS)]
    predicates = [p.predicate() for _ in range(rng.randint(1, 3))]
    cut = rng.randint(1, p.columns - 1)
    ends = []
    for table, columns in ((0, range(cut)), (1, range(cut, p.columns))):
        p.file += struct.pack(">BHH", 0x30, table, len(columns)) + b"".join(struct.pack(">BH", 0x40, c) for c in columns)
        ends.append(table)
    last = 2
    for e in predicates:
        sort = rng.random()
        if sort < 0.3:
            p.file += struct.pack(">BHH", 0x33, e, rng.choice(ends))
        else:
            p.file += struct.pack(">BBHHH", 0x3C, rng.choice((0, 0, 0, 1)), e, rng.choice(ends), rng.choice(ends))
        ends.append(last)
        last += 1
    return p.file, max(p.conjuncts[e] for e in predicates)


def main():
    if len(sys.argv) != 5:
        sys.exit(__doc__)
    ours, theirs, seed, count = shlex.split(sys.argv[1]), [sys.argv[2], "facts"], int(sys.argv[3]), int(sys.argv[4])
    rng = random.Random(seed)
    refused = contradictory = long = 0
    for n in range(count):
        file, most = plan(rng)
        a, b = (subprocess.run(c, input=file, capture_output=True, check=True).stdout for c in (ours, theirs))
        if a != b:
            print(f"plan {n} of seed {seed} differs: {file.hex()}\n{a.decode()}\n{b.decode()}")
            sys.exit(1)
        refused += a.startswith(b"refused")
        contradictory += a.split(b"\n")[0].endswith(b" 1")
        long += most > 1024
    print(f"seed {seed}: {count} plans, the same; {refused} refused, {contradictory} contradictory, {long} with a predicate of more than 1,024 conjuncts")


main()
