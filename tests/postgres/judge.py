#!/usr/bin/env python3
"""PostgreSQL as a judge of test_rows: random typed predicates, as SQL and as steps for the program.

    judge.py SEED COUNT PROGRAM              COUNT predicates on three rows each; says where the two differ
    judge.py SEED COUNT PROGRAM --keep DIR   also writes DIR/steps and DIR/answers, PostgreSQL's own answers

Columns are Boolean, Int32, Int64, Date32 and Float64 with NULLs. A comparison has one kind on both
sides: SQL would convert, our rule is UNKNOWN. Floats have no NaN: PostgreSQL orders it as a number.
The server runs in a temporary folder, on a socket there, as the user postgres where this runs as root.
"""
import glob
import os
import shutil
import subprocess
import sys
import tempfile

sys.path.insert(0, os.path.join(os.path.dirname(os.path.abspath(__file__)), "..", "rows"))
from cases import BOOL, DATE, F64, I32, I64, INTS, Cases  # noqa: E402

KINDS = [BOOL, I32, I64, DATE, F64]
TYPES = {BOOL: "boolean", I32: "integer", I64: "bigint", DATE: "date", F64: "double precision"}
OPS = ["=", "<>", "<", "<=", ">", ">=", "IS NOT DISTINCT FROM"]


def literal(kind, v):
    if v is None:
        return f"CAST(NULL AS {TYPES[kind]})"
    if kind == BOOL:
        return "TRUE" if v else "FALSE"
    if kind == DATE:
        return f"(DATE '1970-01-01' + ({v}))"
    return f"CAST('{v!r}' AS {TYPES[kind]})".replace("inf", "Infinity")


def sql(t):
    what = t[0]
    if what == "lit":
        return literal(t[1], t[2])
    if what == "col":
        return f"c{t[1]}"
    if what == "not":
        return f"(NOT {sql(t[1])})"
    if what in ("null", "notnull"):
        return f"({sql(t[1])} IS {'NOT ' if what == 'notnull' else ''}NULL)"
    if what == "cmp":
        return f"({sql(t[2])} {OPS[t[1]]} {sql(t[3])})"
    if not t[1]:
        return "TRUE" if what == "and" else "FALSE"
    return "(" + f" {what.upper()} ".join(sql(e) for e in t[1]) + ")"


class Judged(Cases):
    """Typed predicates of one kind on both sides of a comparison, and values that PostgreSQL has too."""

    def value(self, kind):
        r = self.r
        if r.random() < 0.25:
            return None
        if kind == BOOL:
            return r.random() < 0.5
        if kind == F64:
            return r.choice([0.0, -0.0, 1.0, 1.5, -1.0, float("inf"), float("-inf"), 5e-324, 2.0**53])
        if kind == DATE:
            return r.choice([0, 1, 2, -1, 7, 100000, -100000])
        n = INTS[kind]
        return r.choice([0, 1, 2, -1, 7, 2 ** (n - 1) - 1, -(2 ** (n - 1))])

    def tree(self, columns, depth, want):
        r = self.r
        pick = r.random()
        if want != BOOL or depth == 0 or pick < 0.12:
            here = [i for i, k in enumerate(columns) if k == want]
            if here and r.random() < 0.7:
                return ("col", r.choice(here))
            return ("lit", want, self.value(want))
        if pick < 0.27:
            return ("not", self.tree(columns, depth - 1, BOOL))
        if pick < 0.40:
            return (r.choice(["null", "notnull"]), self.tree(columns, depth - 1, r.choice(KINDS)))
        if pick < 0.75:
            k = r.choice(KINDS)
            return ("cmp", r.randrange(7), self.tree(columns, depth - 1, k), self.tree(columns, depth - 1, k))
        return (r.choice(["and", "or"]), [self.tree(columns, depth - 1, BOOL) for _ in range(r.choice([0, 1, 2, 2, 3, 4]))])

    def case(self):
        """Writes the steps of one predicate on three rows, and gives the query for their answers."""
        r = self.r
        self.step(0)
        self.shared, self.exprs, self.items = {}, 0, 0
        columns = [r.choice([BOOL, *KINDS]) for _ in range(r.randrange(1, 7))]
        for i, k in enumerate(columns):
            self.step(1, 1, k, a=i)
        tree = self.tree(columns, r.randrange(6), BOOL)
        e = self.write(tree)
        rows = []
        for n in range(3):
            row = [self.value(k) for k in columns]
            for i, (k, v) in enumerate(zip(columns, row)):
                case, code, bits = self.literal(k, v)
                self.step(4, case, code, column=i, bits=bits)
            self.step(5, a=e)
            rows.append("(" + ", ".join([str(n)] + [literal(k, v) for k, v in zip(columns, row)]) + ")")
        names = ", ".join(["n"] + [f"c{i}" for i in range(len(columns))])
        return (
            "SELECT CASE WHEN p IS TRUE THEN 'T' WHEN p IS UNKNOWN THEN 'U' WHEN p IS FALSE THEN 'F' END "
            f"FROM (SELECT n, {sql(tree)} AS p FROM (VALUES {', '.join(rows)}) AS t({names})) AS q ORDER BY n;"
        )


class Server:
    """A PostgreSQL server of its own, gone when the work is done."""

    def __enter__(self):
        self.home = tempfile.mkdtemp(prefix="judge-")
        self.bin = sorted(glob.glob("/usr/lib/postgresql/*/bin"))[-1]
        self.user = ["runuser", "-u", "postgres", "--"] if os.getuid() == 0 else []
        if self.user:
            shutil.chown(self.home, "postgres")
        self.run("initdb", "-D", f"{self.home}/data", "-A", "trust", "-U", "judge", "--no-sync")
        options = f"-c listen_addresses='' -c unix_socket_directories={self.home} -c fsync=off"
        self.run("pg_ctl", "-D", f"{self.home}/data", "-w", "-l", f"{self.home}/log", "-o", options, "start")
        return self

    def run(self, program, *words):
        subprocess.run([*self.user, f"{self.bin}/{program}", *words], check=True, stdout=subprocess.DEVNULL, cwd="/")

    def ask(self, text):
        words = [*self.user, f"{self.bin}/psql", "-h", self.home, "-U", "judge", "-d", "postgres", "-AtqX", "-v", "ON_ERROR_STOP=1"]
        return subprocess.run(words, input=text, text=True, check=True, capture_output=True, cwd="/").stdout.split()

    def __exit__(self, *_):
        self.run("pg_ctl", "-D", f"{self.home}/data", "-m", "immediate", "stop")
        shutil.rmtree(self.home)


def main():
    seed, count, program = int(sys.argv[1]), int(sys.argv[2]), sys.argv[3]
    judged = Judged(seed)
    queries = [judged.case() for _ in range(count)]
    with Server() as server:
        wanted = server.ask("\n".join(queries) + "\n")
    steps = b"".join(judged.steps)
    got = subprocess.run([program], input=steps, check=True, capture_output=True).stdout.decode().split()
    assert len(wanted) == len(got) == 3 * count, (len(wanted), len(got))
    differ = [i for i in range(3 * count) if wanted[i] != got[i]]
    for i in differ[:5]:
        print(f"row {i % 3} of {queries[i // 3]}\n  PostgreSQL {wanted[i]}, test_rows {got[i]}")
    tally = ", ".join(f"{wanted.count(t)} {t}" for t in "TFU")
    print(f"seed {seed}: {count} predicates on 3 rows each, {tally}; {len(differ)} answers differ")
    if "--keep" in sys.argv:
        keep = sys.argv[sys.argv.index("--keep") + 1]
        open(f"{keep}/steps", "wb").write(steps)
        open(f"{keep}/answers", "w").write("".join(a + "\n" for a in wanted))
    sys.exit(1 if differ else 0)


main()
