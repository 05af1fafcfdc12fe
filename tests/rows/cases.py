#!/usr/bin/env python3
"""Random expressions on random rows as steps for the program test_rows, and what each must answer.

    cases.py SEED COUNT STEPS ANSWERS     writes the two files

The answers come from an evaluator of another style: it walks a tree, NULL is None, and truth is
True, False or None. Some cases are untyped, have a bad row, a handle past the end or a broken plan.
"""
import math
import random
import struct
import sys

BOOL, I32, I64, F64, DATE = 1, 2, 3, 4, 5
INTS = {I32: 32, I64: 64, DATE: 32}


class Cases:
    def __init__(self, seed):
        self.r = random.Random(seed)
        self.steps, self.answers = [], []

    def step(self, what, kind=0, code=0, column=0, a=0, b=0, start=0, bits=0):
        self.steps.append(struct.pack(">BBBBHHHHQ", what, kind, code, column, a, b, start, 0, bits))

    # values: (kind, None or a Python value)
    def value(self, kind):
        r = self.r
        if r.random() < 0.25:
            return None
        if kind == BOOL:
            return r.random() < 0.5
        if kind == F64:
            return r.choice([0.0, -0.0, 1.0, 1.5, -1.0, math.inf, -math.inf, math.nan, 5e-324, 2.0**53])
        n = INTS[kind]
        return r.choice([0, 1, 2, -1, 7, 2 ** (n - 1) - 1, -(2 ** (n - 1))])

    def literal(self, kind, v):
        """The record's kind, code and bits."""
        if v is None:
            return 0x10, kind, 0
        if kind == BOOL:
            return 0x11, int(v), 0
        if kind == F64:
            bits = struct.unpack(">Q", struct.pack(">d", v))[0]
            if v != v:
                bits = self.r.choice([0x7FF8000000000000, 0xFFF8000000000001, 0x7FF0000000000001])
            return 0x14, 0, bits
        case = {I32: 0x12, I64: 0x13, DATE: 0x15}[kind]
        return case, 0, v % 2 ** INTS[kind]

    def tree(self, columns, depth, want):
        """A tree: ('lit', kind, v) ('col', i) ('not', t) ('null', t) ('notnull', t) ('neg', t) ('cmp', op, s, t) ('and', ts) ('or', ts)."""
        r = self.r
        pick = r.random()
        if want != BOOL or depth == 0 or pick < 0.12:
            here = [i for i, k in enumerate(columns) if k == want]
            if here and r.random() < 0.6:
                return ("col", r.choice(here))
            return ("lit", want, self.value(want))
        if pick < 0.27:
            return ("not", self.tree(columns, depth - 1, BOOL if r.random() < 0.985 else I32))
        if pick < 0.40:
            return (r.choice(["null", "notnull"]), self.tree(columns, depth - 1, r.choice([BOOL, I32, I64, F64, DATE])))
        if pick < 0.405:
            return ("neg", self.tree(columns, depth - 1, I32))
        if pick < 0.75:
            k = r.choice([BOOL, I32, I64, F64, DATE])
            l = k if r.random() < 0.85 else r.choice([BOOL, I32, I64, F64, DATE])
            return ("cmp", r.randrange(7), self.tree(columns, depth - 1, k), self.tree(columns, depth - 1, l))
        n = r.choice([0, 1, 2, 2, 3, 4])
        return (r.choice(["and", "or"]), [self.tree(columns, depth - 1, BOOL if r.random() < 0.985 else DATE) for _ in range(n)])

    def write(self, t):
        """Writes a tree's nodes, operands first, and gives its handle; a subtree that stands already may be shared."""
        key = repr(t)
        if key in self.shared and self.r.random() < 0.7:
            return self.shared[key]
        what = t[0]
        if what == "lit":
            kind, code, bits = self.literal(t[1], t[2])
            self.step(2, kind, code, bits=bits)
        elif what == "col":
            self.step(2, 0x20, 0, a=t[1])
        elif what in ("not", "null", "notnull", "neg"):
            e = self.write(t[1])
            self.step(2, 0x21, ["not", "null", "notnull", "neg"].index(what), a=e)
        elif what == "cmp":
            a, b = self.write(t[2]), self.write(t[3])
            self.step(2, 0x22, t[1], a=a, b=b)
        else:
            es = [self.write(e) for e in t[1]]
            start = self.items
            for e in es:
                self.step(3, a=e)
            self.items += len(es)
            self.step(2, 0x23, ["and", "or"].index(what), a=len(es), start=start)
        self.shared[key] = self.exprs
        self.exprs += 1
        return self.exprs - 1

    def kind(self, t, columns):
        return t[1] if t[0] == "lit" else columns[t[1]] if t[0] == "col" else BOOL

    def typed(self, t, columns):
        if t[0] in ("lit", "col"):
            return True
        if t[0] == "neg":
            return False
        parts = {"cmp": t[2:], "and": t[1], "or": t[1]}.get(t[0], t[1:]) if t[0] in ("cmp", "and", "or") else [t[1]]
        if not all(self.typed(s, columns) for s in parts):
            return False
        return t[0] not in ("not", "and", "or") or all(self.kind(s, columns) == BOOL for s in parts)

    def eval(self, t, row, columns):
        """(kind, value) of a tree."""
        what = t[0]
        if what == "lit":
            return t[1], t[2]
        if what == "col":
            return columns[t[1]], row[t[1]]
        if what == "not":
            v = self.eval(t[1], row, columns)[1]
            return BOOL, None if v is None else not v
        if what == "null":
            return BOOL, self.eval(t[1], row, columns)[1] is None
        if what == "notnull":
            return BOOL, self.eval(t[1], row, columns)[1] is not None
        if what == "cmp":
            (k, v), (l, w) = self.eval(t[2], row, columns), self.eval(t[3], row, columns)
            op = t[1]
            if v is None or w is None:
                return BOOL, (v is None and w is None) if op == 6 else None
            if k != l:
                return BOOL, False if op == 6 else None
            return BOOL, [v == w, v != w, v < w, v <= w, v > w, v >= w, v == w][op]
        vs = [self.eval(e, row, columns)[1] for e in t[1]]
        if what == "and":
            return BOOL, False if False in vs else None if None in vs else True
        return BOOL, True if True in vs else None if None in vs else False

    def case(self):
        r = self.r
        self.step(0)
        self.shared, self.exprs, self.items = {}, 0, 0
        columns = [r.choice([BOOL, BOOL, I32, I64, F64, DATE]) for _ in range(r.randrange(7))]
        for i, k in enumerate(columns):
            self.step(1, 1, k, a=i)
        tree = self.tree(columns, r.randrange(6), BOOL if r.random() < 0.98 else I64)
        e = self.write(tree)
        broken = r.random() < 0.04
        if broken:
            n = self.exprs
            r.choice([
                lambda: self.step(2, 0x21, 0, a=n),
                lambda: self.step(2, 0x22, 7, a=0, b=0),
                lambda: self.step(2, 0x23, 0, a=1, start=self.items),
                lambda: self.step(2, 0x20, 0, a=len(columns)),
                lambda: self.step(2, 0x16, 0),
                lambda: self.step(2, 0x12, 0, bits=2**32),
            ])()
        asked = e
        if r.random() < 0.02:
            asked = self.exprs + 1 + r.randrange(3)
        for _ in range(3):
            row, bad = [], False
            for i, k in enumerate(columns):
                v, l = self.value(k), k
                if r.random() < 0.01:
                    l = r.choice([BOOL, I32, I64, F64, DATE])
                    v = self.value(l)
                    bad = bad or (v is not None and l != k)
                case, code, bits = self.literal(l, v)
                if v is None and r.random() < 0.3:
                    code = r.randrange(1, 6)
                if r.random() < 0.004:
                    case, bad = 0x16, True
                if v is not None and r.random() < 0.004:
                    code, bad = 2, True
                row.append(v)
                self.step(4, case, code, column=i, bits=bits)
            self.step(5, a=asked)
            if broken or asked != e:
                self.answers.append("8")
            elif not self.typed(tree, columns) or self.kind(tree, columns) != BOOL:
                self.answers.append("9")
            elif bad:
                self.answers.append("10")
            else:
                v = self.eval(tree, row, columns)[1]
                self.answers.append("U" if v is None else "T" if v else "F")


def main():
    seed, count, steps, answers = int(sys.argv[1]), int(sys.argv[2]), sys.argv[3], sys.argv[4]
    c = Cases(seed)
    for _ in range(count):
        c.case()
    open(steps, "wb").write(b"".join(c.steps))
    open(answers, "w").write("".join(a + "\n" for a in c.answers))


if __name__ == "__main__":
    main()
