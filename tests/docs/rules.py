"""Whether docs/FORMAT.md has the table of records that crates/plan_kinds has, and the example that the program is run on."""
import pathlib
import re

TOP = pathlib.Path(__file__).resolve().parents[2]
TAKES = {"columns": "column", "expressions": "expression", "operators": "operator", "items": "item"}


def defined():
    """kind -> (bytes, what it takes), out of the lines of Rows.antt."""
    rows = {}
    text = (TOP / "crates/plan_kinds/specs/Rows.antt").read_text()
    for kind, row in re.findall(r"\(0x([0-9A-F]{2}) is (.*?)\) ∷ +--", text):
        form, rest = row.split(" ", 1)
        numbers = rest.count("∷")
        if form == "literal":
            rows[kind] = (1 + int(rest), "expression")
        else:
            length = {"named": 4, "plain": 1 + 2 * numbers, "coded": 2 + 2 * numbers}[form]
            rows[kind] = (length, TAKES[rest.split()[0]])
    return rows


def cells(line):
    return [cell.strip().strip("`") for cell in line.strip("|").split("|")]


def tables(text):
    """The rows of each table, under its head's first cell."""
    found, head = {}, None
    for line in text.splitlines():
        if not line.startswith("|"):
            head = None
        elif head is None:
            head = found.setdefault(cells(line)[0], [])
        elif not line.startswith("|---"):
            head.append(cells(line))
    return found


def check():
    format_ = tables((TOP / "docs/FORMAT.md").read_text())
    written = {row[0]: (int(row[1]), row[2]) for row in format_["kind"]}
    for kind in sorted(defined().keys() | written.keys()):
        if defined().get(kind) != written.get(kind):
            yield f"docs/FORMAT.md: kind {kind} is {written.get(kind)}, defined as {defined().get(kind)}"
    at, file = 0, b""
    for offset, code, *_ in format_["offset"]:
        record = bytes.fromhex(code)
        if int(offset) != at or written[f"{record[0]:02X}"][0] != len(record):
            yield f"docs/FORMAT.md: the example's record at {offset}"
        at, file = at + len(record), file + record
    if file != (TOP / "crates/facts/stdin").read_bytes():
        yield "docs/FORMAT.md: the example is not what crates/facts/stdin has"
    lines = (TOP / "crates/facts/stdout").read_text().splitlines()
    if [row[0] for row in format_["line"] if row[0] in lines] != lines:
        yield "docs/FORMAT.md: the example's listing is not what crates/facts/stdout has"
