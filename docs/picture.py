#!/usr/bin/env python3
"""The picture of the crates, drawn from crates.txt.

    docs/picture.py             prints the picture: a row for each room, the highest first
    docs/picture.py --crates    prints a line for each crate: what it stands on, each thing once
    docs/picture.py --write     puts the picture into README.md, between its two markers

In a room's row a crate stands on at least one of those behind the next bar, and on none before it; 'on' names what the
room needs of other rooms. What follows from the rest is left out (the transitive reduction), and so are the kit's
libraries.
"""
import pathlib
import re
import sys

TOP = pathlib.Path(__file__).resolve().parents[1]
KIT = {"io", "libc", "os", "bytes", "check"}
BEGIN, END = "<!-- picture: docs/picture.py --write -->", "<!-- end of picture -->"
WIDTH = 120

# the rooms, the highest first: a crate belongs to the room that names it, else to the one whose prefix it has
ROOMS = [
    ("outside", ["facts", "facts_text", "file_facts", "boundary", "boundary_c", "refusals"]),
    ("cases", ["cases"]),
    ("listing", ["listing", "writing"]),
    ("simplify", ["expr_simplify"]),
    ("derive", []),
    ("apply", ["logical_facts"]),
    ("constraint", []),
    ("rows", ["rows"]),
    ("plan", ["plan"]),
    ("value", ["scalar", "comparison", "truth"]),
    ("ground", ["lists", "laws"]),
]


def read():
    """crate -> what it needs, the kit's libraries left out."""
    needs = {}
    for line in (TOP / "crates.txt").read_text().splitlines():
        if line.strip() and not line.startswith("#"):
            name, rest = line.split(":", 1)
            needs[name.split()[0]] = set(rest.split()) - KIT
    return needs


def is_test(crate):
    return crate.startswith("test_") or crate == "replay"


def below(needs):
    """crate -> everything under it."""
    found = {}

    def under(crate):
        if crate not in found:
            found[crate] = set()
            for d in needs[crate]:
                found[crate] |= {d} | under(d)
        return found[crate]

    for crate in needs:
        under(crate)
    return found


def reduced(crates, under):
    """Those of the crates that no other of them stands on."""
    return sorted(c for c in crates if not any(c in under[d] for d in crates if d != c))


def room_of(crate):
    for room, names in ROOMS:
        if crate in names:
            return room
    for room, _ in ROOMS:
        if crate.startswith(room + "_"):
            return room
    raise SystemExit(f"docs/picture.py: no room for the crate {crate}")


def layers(crates, under):
    """The crates of a room in layers, the highest first: as few layers as the chains within the room allow."""
    depth = {}

    def level(crate):
        if crate not in depth:
            depth[crate] = 1 + max([level(d) for d in under[crate] & crates], default=-1)
        return depth[crate]

    for crate in crates:
        level(crate)
    return [sorted(c for c in crates if depth[c] == n) for n in range(max(depth.values()), -1, -1)]


def fold(first, words, between):
    """Words behind a first column of 12 places, in lines of at most WIDTH."""
    lines, line = [], first.ljust(12)
    for n, word in enumerate(words):
        text = word + (between if n + 1 < len(words) else "")
        if len(line) + len(text) > WIDTH and line.strip():
            lines.append(line.rstrip())
            line = " " * 12
        line += text
    return lines + [line.rstrip()]


def picture():
    needs = read()
    under = below(needs)
    plain = {c for c in needs if not is_test(c)}
    out = []
    for room, _ in ROOMS:
        crates = {c for c in plain if room_of(c) == room}
        if not crates:
            continue
        out += fold(room, [", ".join(layer) for layer in layers(crates, under)], " | ")
        outer = reduced({d for c in crates for d in needs[c]} - crates, under)
        if outer:
            out += fold("", ["on " + outer[0], *outer[1:]], ", ")
    out += fold("tests", sorted(c for c in needs if is_test(c)), ", ")
    return "\n".join(out) + "\n"


def every_crate():
    needs = read()
    under = below(needs)
    width = max(map(len, needs)) + 2
    order = sorted(needs, key=lambda c: (len(under[c]), c))
    return "".join(f"{c:{width}}{', '.join(reduced(needs[c], under))}".rstrip() + "\n" for c in order)


def in_readme():
    """The picture that README.md has, or None."""
    m = re.search(re.escape(BEGIN) + r"\n```\n(.*?)```\n" + re.escape(END), (TOP / "README.md").read_text(), re.S)
    return m.group(1) if m else None


def write():
    path = TOP / "README.md"
    text = path.read_text()
    if in_readme() is None:
        raise SystemExit("README.md has no place for the picture")
    head, rest = text.split(BEGIN, 1)
    path.write_text(f"{head}{BEGIN}\n```\n{picture()}```\n{END}{rest.split(END, 1)[1]}")


if __name__ == "__main__":
    if sys.argv[1:] == ["--write"]:
        write()
    elif sys.argv[1:] == ["--crates"]:
        sys.stdout.write(every_crate())
    elif not sys.argv[1:]:
        sys.stdout.write(picture())
    else:
        raise SystemExit(__doc__)
