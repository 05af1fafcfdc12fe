#!/usr/bin/env python3
"""The plans that take longest: all four tables nearly full, and whatever is dear done as often as a plan allows.

    run.py FACTS [ORACLE]     FACTS is crates/facts/out/facts, or a command that runs it; ORACLE is oracle/target/release/oracle

For each plan: the least processor time of five runs in ms, reading and printing included, and, where the oracle is
given and ends, its time and whether the listings are the same. Ends with 1 where one differs or takes 50 ms or more.
`run.py --write FOLDER` writes the files.
"""
import os
import resource
import shlex
import struct
import subprocess
import sys

OPERANDS = 1980


class Plan:
    def __init__(self, kind=2):
        self.file, self.columns, self.exprs, self.operators, self.items = b"", 0, 0, 0, 0
        self.refs = []
        for name in range(64):
            self.file += struct.pack(">BHB", 0x01, name, kind)
            self.columns += 1
        for column in range(64):
            self.refs.append(self.expr(struct.pack(">BH", 0x20, column)))

    def expr(self, body):
        self.file += body
        self.exprs += 1
        return self.exprs - 1

    def int32(self, value):
        return self.expr(struct.pack(">Bi", 0x12, value))

    def float64(self, value):
        return self.expr(struct.pack(">Bd", 0x14, value))

    def compare(self, code, left, right):
        return self.expr(struct.pack(">BBHH", 0x22, code, left, right))

    def conjunction(self, operands):
        self.items += len(operands)
        return self.expr(struct.pack(">BBH", 0x23, 0, len(operands)) + b"".join(struct.pack(">BH", 0x24, e) for e in operands))

    def operator(self, body):
        self.file += body
        self.operators += 1
        return self.operators - 1

    def scan(self):
        self.items += 64
        return self.operator(struct.pack(">BHH", 0x30, 0, 64) + b"".join(struct.pack(">BH", 0x40, c) for c in range(64)))

    def selection(self, predicate, source):
        return self.operator(struct.pack(">BHH", 0x33, predicate, source))

    def product(self, outer, inner):
        return self.operator(struct.pack(">BHH", 0x3B, outer, inner))

    def inner_join(self, on, outer, inner):
        return self.operator(struct.pack(">BBHHH", 0x3C, 0, on, outer, inner))

    def selections(self, predicate, chained):
        """127 Selections by one predicate, each over the last, or all over the Scan."""
        first = last = self.scan()
        for _ in range(127):
            last = self.selection(predicate, last if chained else first)

    def equalities(self):
        """63 pairs that make one class, whose members hang in a chain of 63 parents."""
        return [self.compare(0, self.refs[i], self.refs[i + 1]) for i in range(62, -1, -1)]


def again(operands, count):
    return [operands[i % len(operands)] for i in range(count)]


def predicates():
    """Name, kind of the columns, and what makes the predicate."""

    def mixed(p):
        out = []
        while p.exprs < 1020:
            out.append(p.compare(2 + len(out) % 4, p.refs[len(out) % 64], p.int32(1000 + len(out) % 7)))
        return again(out, OPERANDS)

    def falling(p):
        """Each bound is below the last."""
        out = []
        while p.exprs < 1020:
            out.append(p.compare(2, p.refs[63], p.int32(1000 - len(out))))
        return again(out, OPERANDS)

    def zeros(p):
        """0.0 and -0.0 by turns: each replaces the other."""
        return again([p.compare(0, p.refs[63], p.float64(x)) for x in (0.0, -0.0)], OPERANDS)

    def deep(p):
        pairs = p.equalities()
        return pairs + falling(p)[: OPERANDS - 63]

    def pairs(p):
        first = p.equalities()
        return first + again([p.compare(0, p.refs[63], p.refs[62])], OPERANDS - 63)

    def residuals(p):
        return again([p.compare(2, p.refs[i], p.refs[63 - i]) for i in range(64)], OPERANDS)

    def unequal(p):
        return again([p.compare(1, p.refs[i], p.int32(i)) for i in range(64)], OPERANDS)

    return [("mixed", 2, mixed), ("falling", 2, falling), ("zeros", 4, zeros), ("deep", 2, deep), ("pairs", 2, pairs), ("residuals", 2, residuals), ("unequal", 2, unequal)]


def plans():
    for name, kind, make in predicates():
        for chained in (True, False):
            p = Plan(kind)
            p.selections(p.conjunction(make(p)), chained)
            yield name + (" chained" if chained else " apart"), p
    p = Plan()
    bounds = [p.compare(2, p.refs[i], p.int32(i)) for i in range(64)] + [p.compare(0, p.refs[i], p.int32(i)) for i in range(64)]
    predicate = p.conjunction(p.equalities() + bounds)
    left = p.scan()
    right = p.selection(predicate, left)
    for _ in range(126):
        p.product(left, right)
    yield "products that join 63 classes", p
    p = Plan()
    predicate = p.conjunction([p.compare(0, p.refs[i], p.int32(i)) for i in range(64)] + [p.compare(2, p.refs[i], p.refs[63 - i]) for i in range(64)])
    last = p.selection(predicate, p.scan())
    for _ in range(126):
        last = p.product(last, last)
    yield "products of an operator with itself", p
    p = Plan()
    first = p.equalities()
    classes = p.conjunction(first)
    rest = []
    while p.exprs < 1000:
        rest.append(p.compare(2 + len(rest) % 4, p.refs[len(rest) % 64], p.int32(1000 + len(rest) % 7)))
    on = p.conjunction(first + again(rest, 1800))
    left = p.scan()
    right = p.selection(classes, left)
    for _ in range(126):
        p.inner_join(on, left, right)
    yield "inner joins", p
    yield from sharing()


def sharing():
    """Ands that several paths reach. With repeats there are up to 2 ^ 900 conjuncts."""

    def many(p, count):
        out = []
        while len(out) < count:
            out.append(p.compare(2 + len(out) % 4, p.refs[len(out) % 64], p.int32(1000 + len(out) % 7)))
        return out

    p = Plan()
    inner = p.conjunction(again(many(p, 470), 990))
    p.selection(p.conjunction([inner] * 990), p.scan())
    yield "990 times an And of 990", p
    for chained in (True, False):
        p = Plan()
        inner = p.conjunction(again(many(p, 470), 990))
        p.selections(p.conjunction([inner] * 990), chained)
        yield "127 times 990 times an And of 990" + (" chained" if chained else " apart"), p
    for chained in (True, False):
        p = Plan()
        inner = p.conjunction(many(p, 200))
        between = []
        for bound in range(120):
            between += [inner, p.compare(2, p.refs[63], p.int32(990 - bound))]
        p.selections(p.conjunction(between), chained)
        yield "an And again after each change" + (" chained" if chained else " apart"), p
    for name, back in (("doubled", 1), ("with the one before it", 2)):
        p = Plan()
        ands = many(p, 64) + p.equalities()
        ands.append(p.conjunction(ands))
        while p.exprs < 1024 and p.items < 1920:
            ands.append(p.conjunction([ands[-1], ands[-back]]))
        p.selections(ands[-1], True)
        yield "an And " + name, p
    for name, bottom in (("nothing", 0), ("one", 1)):
        p = Plan()
        last = p.conjunction(many(p, bottom))
        while p.exprs < 1023 and p.items < 1920:
            last = p.conjunction([last, last])
        p.selections(last, True)
        yield f"an And of {name}, doubled", p
    p = Plan()
    last = p.conjunction(many(p, 1))
    while p.exprs < 1023:
        last = p.conjunction([last])
    p.selections(p.conjunction([last] * 1000), True)
    yield "1,000 times one And 900 deep", p
    p = Plan(4)
    zeros = [[p.compare(0, ref, literal) for ref in p.refs[::-1]] for literal in (p.float64(0.0), p.float64(-0.0))]
    last = p.conjunction([p.compare(0, p.refs[0], p.float64(float("nan")))])
    for column in range(1, 64):
        last = p.conjunction([zeros[0][column], last, zeros[1][column], last])
    p.selections(p.conjunction(p.equalities()[:31] + [last, last]), False)
    yield "every combination of signs", p
    p = Plan()
    first = p.equalities()
    classes = p.conjunction(first)
    on = p.conjunction(again(first + many(p, 400), 1800))
    left = p.scan()
    right = p.selection(classes, left)
    for _ in range(126):
        p.inner_join(on, left, right)
    yield "inner joins, repeated", p



def timed(command, file):
    least, out = None, b""
    for _ in range(5):
        before = resource.getrusage(resource.RUSAGE_CHILDREN)
        out = subprocess.run(command, input=file, capture_output=True, check=True).stdout
        after = resource.getrusage(resource.RUSAGE_CHILDREN)
        took = (after.ru_utime + after.ru_stime - before.ru_utime - before.ru_stime) * 1000
        least = took if least is None else min(least, took)
    return least, out


def main():
    if len(sys.argv) < 2:
        sys.exit(__doc__)
    if sys.argv[1] == "--write":
        for name, p in plans():
            with open(os.path.join(sys.argv[2], name.replace(" ", "_") + ".plan"), "wb") as f:
                f.write(p.file)
        return
    bad = False
    for name, p in plans():
        assert p.columns <= 64 and p.exprs <= 1024 and p.operators <= 128 and p.items <= 2048, (name, p.exprs, p.operators, p.items)
        ours, listing = timed(shlex.split(sys.argv[1]), p.file)
        said = f"{name:50s} {ours:7.1f} ms"
        bad = bad or ours >= 50
        if len(sys.argv) > 2:
            theirs, answer = timed([sys.argv[2], "facts"], p.file)
            endless = answer.startswith(b"optd would not end")
            verdict = "is not asked: too many steps" if endless else f"{theirs:7.1f} ms   {'the same' if listing == answer else 'DIFFER'}"
            said += "   the Rust " + verdict
            bad = bad or not endless and listing != answer
        print(said)
    sys.exit(1 if bad else 0)


main()
