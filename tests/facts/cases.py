#!/usr/bin/env python3
"""Predicates and merges as steps for the program test_apply, and what it must write, as optd's own Rust answers.

    cases.py ORACLE SEED COUNT STEPS ANSWERS     ORACLE is oracle/target/release/oracle; writes the two files

A case is a plan of two Scans, predicates on each, and a join. The Rust derives the Scans, the Selections over
them and the join; test_apply applies the same predicates and merges the same two sides. Random plans come first,
then fixed ones: residuals around 64 on either side, and the deepest And that a plan can hold.
"""
import random
import struct
import subprocess
import sys

CASES = {"bool": 0x11, "i32": 0x12, "i64": 0x13, "f64": 0x14, "date": 0x15}


class Plan:
    """The records of a plan file, and the steps that make the same plan."""

    def __init__(self):
        self.file, self.steps = b"", [step(0)]
        self.columns, self.exprs, self.items, self.operators = [], 0, 0, 0

    def column(self, name, kind):
        self.file += struct.pack(">BHB", 0x01, name, kind)
        self.steps.append(step(1, 0x01, kind, a=name))
        self.columns.append((name, kind))
        return len(self.columns) - 1

    def expr(self, body, **s):
        self.file += body
        self.steps.append(step(2, body[0], **s))
        self.exprs += 1
        return self.exprs - 1

    def literal(self, kind, bits):
        """kind is 0x10 (bits: the kind code) to 0x15."""
        body = bytes([kind]) + bits.to_bytes({0x10: 1, 0x11: 1, 0x12: 4, 0x13: 8, 0x14: 8, 0x15: 4}[kind], "big")
        return self.expr(body, code=bits) if kind < 0x12 else self.expr(body, bits=bits)

    def ref(self, column):
        return self.expr(struct.pack(">BH", 0x20, column), a=column)

    def unary(self, code, e):
        return self.expr(struct.pack(">BBH", 0x21, code, e), code=code, a=e)

    def compare(self, code, l, r):
        return self.expr(struct.pack(">BBHH", 0x22, code, l, r), code=code, a=l, b=r)

    def nary(self, code, es):
        body = struct.pack(">BBH", 0x23, code, len(es)) + b"".join(struct.pack(">BH", 0x24, e) for e in es)
        start = self.items
        for e in es:
            self.steps.append(step(3, a=e))
        self.items += len(es)
        return self.expr(body, code=code, a=len(es), start=start)

    def nested(self, n, e):
        """n Ands, each of the last expression and e, in one step."""
        for _ in range(n):
            self.file += struct.pack(">BBHBHBH", 0x23, 0, 2, 0x24, self.exprs - 1, 0x24, e)
            self.exprs += 1
        self.items += 2 * n
        self.steps.append(step(4, a=n, b=e))
        return self.exprs - 1

    def operator(self, body):
        self.file += body
        self.operators += 1
        return self.operators - 1

    def scan(self, table, columns):
        return self.operator(struct.pack(">BHH", 0x30, table, len(columns)) + b"".join(struct.pack(">BH", 0x40, c) for c in columns))


def step(what, kind=0, code=0, column=0, a=0, b=0, start=0, bits=0):
    return struct.pack(">BBBBHHHHQ", what, kind, code, column, a, b, start, 0, bits)


class Numbers:
    """The numbers of identities: Base by table, name and column, a column in no Scan last; Derived from 64 on."""

    def __init__(self, columns, table):
        order = sorted(range(len(columns)), key=lambda c: (c not in table, table.get(c), columns[c][0], c) if c in table else (True, 0, columns[c][0], c))
        self.base = {c: i for i, c in enumerate(order)}

    def of(self, word):
        return self.base[int(word[1:])] if word[0] == "b" else 64 + int(word[1:])


def end(word):
    return "0 0" if word == "-" else f"{int(word[:16], 16)} {2 if word[16] == 'i' else 1}"


def value(kind, word):
    """Case, code and bits of a listed literal."""
    if kind == "bool":
        return f"{0x11} {word} 0"
    if kind == "f64":
        return f"{0x14} 0 {int(word, 16)}"
    return f"{CASES[kind]} 0 {int(word) % 2 ** (64 if kind == 'i64' else 32)}"


def listed(lines, numbers):
    """A listing of the Rust's as test_apply writes it."""
    head, columns, entries, residuals = lines[0].split(), [], [], []
    for line in lines[1:]:
        w = line.split()
        if w[0] == "column":
            columns.append(f"column {w[1]} {numbers.of(w[2])}")
        elif w[0] == "class":
            members = [numbers.of(m) for m in w[1:]]
            entries += [(m, 0, f"member {m} {members[0]}") for m in members[1:]]
        elif w[0] == "nonnull":
            entries.append((numbers.of(w[1]), 1, f"nonnull {numbers.of(w[1])}"))
        elif w[0] == "literal":
            entries.append((numbers.of(w[1]), 2, f"literal {numbers.of(w[1])} {value(w[2], w[3])}"))
        elif w[0] == "range":
            entries.append((numbers.of(w[1]), 3, f"range {numbers.of(w[1])} {end(w[2])} {end(w[3])}"))
        else:
            residuals.append(f"residual {w[1][1:]}")
    return [f"facts {head[2]}"] + columns + [e[2] for e in sorted(entries)] + residuals


class Cases:
    def __init__(self, oracle, seed):
        self.oracle, self.r = oracle, random.Random(seed)
        self.steps, self.answers = [], []

    def ask(self, file, *words):
        run = subprocess.run([self.oracle, *map(str, words)], input=file, capture_output=True, check=True)
        return run.stdout.decode().splitlines()

    def applied(self, plan, numbers, scan, columns, predicates):
        """The left facts are a Scan's; then predicates, as far as none is refused. What is left of it is listed."""
        out = [step(5, column=c, a=numbers.base[c] + 1) for c in columns]
        answer = self.ask(plan.file, "apply", scan, *predicates)
        done = len(predicates)
        if answer[0].startswith("refused"):
            _, number, place = answer.pop(0).split()
            done = int(place)
        self.answers += ["refused 0"] * done
        if done < len(predicates):
            self.answers.append(f"refused {number}")
        out += [step(6, a=e) for e in predicates[: done + 1]]
        self.steps += out + [step(7)]
        self.answers += listed(answer, numbers)
        return done == len(predicates)

    def case(self, plan, tables, left, right, join):
        """left and right: columns and predicates of a Scan; join: None, or the code of a join (7: CrossProduct) and `on`."""
        scans = [plan.scan(t, side[0]) for t, side in zip(tables, (left, right))]
        numbers = Numbers(plan.columns, {c: t for t, side in zip(tables, (left, right)) for c in side[0]})
        self.steps += plan.steps
        fine = self.applied(plan, numbers, scans[0], *left)
        self.steps.append(step(8))
        fine = self.applied(plan, numbers, scans[1], *right) and fine
        self.steps.append(step(8))
        if join is None or not fine:
            return
        tops = []
        for scan, side in zip(scans, (left, right)):
            top = scan
            for e in side[1]:
                top = plan.operator(struct.pack(">BHH", 0x33, e, top))
            tops.append(top)
        code, on = join
        merge = code in (0, 7)
        if merge:
            top = plan.operator(struct.pack(">BHH", 0x3B, *tops))
        else:
            top = plan.operator(struct.pack(">BBHHH", 0x3C, code, on, *tops))
        self.steps += [step(9, code=int(merge)), step(7)]
        answer = self.ask(plan.file, "facts", top)
        if answer[0].startswith("refused"):
            self.answers.append(f"refused {answer[0].split()[1]}")
            self.answers += listed(self.ask(plan.file, "facts", tops[0]), numbers)
            return
        self.answers.append("refused 0")
        self.answers += listed(answer, numbers)
        if code == 0:
            inner = plan.operator(struct.pack(">BBHHH", 0x3C, 0, on, *tops))
            answer = self.ask(plan.file, "facts", inner)
            self.steps += [step(6, a=on), step(7)]
            if answer[0].startswith("refused"):
                self.answers.append(f"refused {answer[0].split()[1]}")
                self.answers += listed(self.ask(plan.file, "facts", top), numbers)
            else:
                self.answers.append("refused 0")
                self.answers += listed(answer, numbers)

    # ---- random plans

    def literal(self, plan, kind):
        r = self.r
        if r.random() < 0.08:
            return plan.literal(0x10, r.randrange(1, 6))
        if kind == 1:
            return plan.literal(0x11, r.randrange(2))
        if kind == 3:
            return plan.literal(0x13, r.choice([0, 1, 5, 7, 2**53, 2**53 + 1, 2**64 - 1, 2**64 - 2**53, 2**64 - 2**53 - 1]))
        if kind == 4:
            number = lambda x: struct.unpack(">Q", struct.pack(">d", x))[0]
            return plan.literal(0x14, r.choice([0, 1 << 63, number(1.5), number(5.0), 1, 0x7FF0 << 48, 0xFFF0 << 48, 0x7FF8 << 48]))
        return plan.literal(0x12 if kind == 2 else 0x15, r.choice([0, 1, 3, 4, 5, 7, 2**31 - 1, 2**31, 2**32 - 1]))

    def predicate(self, plan, columns, depth):
        r, pick = self.r, self.r.random()
        if depth and pick < 0.30:
            return plan.nary(r.choice([0, 0, 0, 1]), [self.predicate(plan, columns, depth - 1) for _ in range(r.randrange(5))])
        if pick < 0.36:
            return self.literal(plan, r.choice([1, 1, 2]))
        if pick < 0.42:
            return plan.unary(r.randrange(3), plan.ref(r.choice(columns)))
        c = r.choice(columns)
        kind = plan.columns[c][1] if r.random() < 0.9 else r.randrange(1, 6)
        one = plan.ref(c)
        other = plan.ref(r.choice(columns)) if r.random() < 0.3 else self.literal(plan, kind)
        sides = (one, other) if r.random() < 0.7 else (other, one)
        return plan.compare(r.choice([0, 0, 0, 1, 2, 3, 4, 5, 6]), *sides)

    def random(self):
        r, plan = self.r, Plan()
        n = r.randrange(2, 8)
        for _ in range(n):
            plan.column(r.randrange(4), r.choice([1, 2, 2, 2, 3, 4, 5]))
        order = list(range(n))
        r.shuffle(order)
        cut, out = r.randrange(1, n), r.random() < 0.3 and n > 2
        left, right = order[:cut], order[cut:]
        if out and len(right) > 1:
            right.pop()
        every = list(range(n))
        sides = [(cs, [self.predicate(plan, cs if r.random() < 0.8 else every, 2) for _ in range(r.randrange(4))]) for cs in (left, right)]
        for side in sides:
            if side[1] and r.random() < 0.1:
                side[1].append(r.choice(side[1]))
        on = self.predicate(plan, every, 2)
        self.case(plan, (r.randrange(4), r.randrange(4)), *sides, (r.choice([0, 0, 7, 3, 4]), on))

    # ---- residuals around 64

    def residuals(self, mine, theirs, shared):
        """`mine` residuals on the left, in one And, `theirs` on the right, of which `shared` are the left's too."""
        plan = Plan()
        a, b = plan.column(0, 1), plan.column(1, 1)
        x, y = plan.ref(a), plan.ref(b)
        left = [plan.unary(1, x) for _ in range(mine)]
        right = left[:shared] + [plan.unary(1, y) for _ in range(theirs - shared)]
        sides = ([a], [plan.nary(0, left)]), ([b], [plan.nary(0, right)])
        self.case(plan, (0, 1), *sides, (7, 0))

    def halfway(self):
        """An And that has recorded a class, a bound and 64 residuals when the 65th is refused."""
        plan = Plan()
        a, b = plan.column(0, 2), plan.column(1, 2)
        x, y = plan.ref(a), plan.ref(b)
        seven = plan.literal(0x12, 7)
        first = plan.compare(2, x, seven)
        more = [plan.compare(0, x, y), plan.compare(4, y, seven)] + [plan.unary(1, x) for _ in range(65)]
        self.case(plan, (0, 1), ([a, b], [first, plan.nary(0, more)]), ([], []), None)

    # ---- the deepest And: all 1,024 expressions, of which three are not Ands, then all but one

    def deep(self):
        plan = Plan()
        a = plan.column(0, 2)
        bound = plan.compare(2, plan.ref(a), plan.literal(0x12, 7))
        self.case(plan, (0, 1), ([a], [plan.nested(1021, bound)]), ([], []), None)
        plan = Plan()
        b = plan.column(0, 1)
        residual = plan.ref(b)
        self.case(plan, (0, 1), ([b], [plan.nested(1023, residual)]), ([], []), None)

    def broken(self):
        """Facts from outside that break the rules, and a handle that is not in the plan."""
        plan = Plan()
        a = plan.column(0, 1)
        x = plan.ref(a)
        self.case(plan, (0, 1), ([a], [x, 1]), ([], []), None)
        for column, number in ((0, 1), (0, 2), (0, 65), (0, 66), (1, 1), (0, 0)):
            fine = number == 0 or (column < 1 and number - 1 in (0, 64))
            self.steps += [step(5, column=column, a=number), step(6, a=x), step(9, code=1), step(8), step(9, code=1), step(8), step(5, column=column)]
            self.answers += [f"refused {0 if fine else 8}"] * 3


def main():
    oracle, seed, count, steps, answers = sys.argv[1], int(sys.argv[2]), int(sys.argv[3]), sys.argv[4], sys.argv[5]
    c = Cases(oracle, seed)
    for _ in range(count):
        c.random()
    for mine, theirs, shared in ((63, 1, 0), (64, 64, 64), (64, 1, 0), (32, 33, 0), (33, 33, 2), (65, 0, 0)):
        c.residuals(mine, theirs, shared)
    c.halfway()
    c.broken()
    c.deep()
    open(steps, "wb").write(b"".join(c.steps))
    open(answers, "w").write("".join(a + "\n" for a in c.answers))


if __name__ == "__main__":
    main()
