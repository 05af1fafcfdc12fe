#!/usr/bin/env python3
"""A table of where a gate's time went, from what it printed, where it printed seconds.

    .ci/run 2>&1 | tee LOG; tests/times/gate.py LOG

A row for each crate, the dearest first: the seconds of its proof, of its wrong edits, and each edit. Seconds are elapsed, two
at a time on two cores, so that their sum is about twice the time of the run.
"""
import re
import sys


def main():
    if len(sys.argv) != 2:
        sys.exit(__doc__)
    proved, edits = {}, {}
    for line in open(sys.argv[1], errors="replace"):
        if m := re.match(r"rt: (\w+) proved \((\d+) s\)", line):
            proved[m[1]] = int(m[2])
        if m := re.match(r"rt: must-fail (\w+)/(\w+): refused.*\b(\d+) s\)", line):
            edits.setdefault(m[1], []).append((int(m[3]), m[2]))
    total = lambda crate: proved[crate] + sum(s for s, _ in edits.get(crate, []))
    print("| crate | proof | edits | each edit |\n|---|---|---|---|")
    for crate in sorted(proved, key=total, reverse=True):
        mine = sorted(edits.get(crate, []), reverse=True)
        each = ", ".join(f"{name} {seconds}" for seconds, name in mine)
        print(f"| `{crate}` | {proved[crate]} | {sum(s for s, _ in mine) or ''} | {each} |")
    p, e = sum(proved.values()), sum(s for v in edits.values() for s, _ in v)
    print(f"| {len(proved)} crates | {p} | {e} | {sum(map(len, edits.values()))} edits |")


main()
