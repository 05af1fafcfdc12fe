#!/usr/bin/env python3
"""How long each function of a crate takes to prove.

    rm -rf crates/NAME/out/incremental && (cd crates/NAME && rt check); tests/times/profile.py crates/NAME/out/incremental [ROWS]

The incremental folder of a check has a file for each module, written when the module was checked: the time between two files
is what the second took. A function has some fourteen modules: `Lts` is its walk, statement by statement; `Tie` ties it to
what it calls, and in the first function that calls a library it has the loading of that library and of all below it; `Proof`
is the file of its folder. Nothing else should run meanwhile; compare shares, not seconds, where something does.
"""
import pathlib
import re
import sys


def modules(folder):
    """(name, seconds) of each module, in the order of the check."""
    files = [f for f in pathlib.Path(folder).rglob("*.oantt") if f.parent.name != "records"]
    if not files:
        sys.exit(f"{folder}: no checked modules")
    times = sorted((f.stat().st_mtime, f.name.removesuffix(".oantt")) for f in files)
    for (before, _), (after, name) in zip(times, times[1:]):
        yield re.sub(r"^Rattle-(\w+[.-]proofs\.?)?", "", name), after - before


def main():
    if len(sys.argv) < 2:
        sys.exit(__doc__)
    rows = int(sys.argv[2]) if len(sys.argv) > 2 else 20
    each = list(modules(sys.argv[1]))
    functions = {}
    for name, seconds in each:
        function = re.sub(r"(\.[A-Z][^.]*)+$", "", name)
        functions[function] = functions.get(function, 0) + seconds
    print(f"{sum(s for _, s in each):8.2f} {len(each)} modules")
    for title, what in (("functions", functions.items()), ("modules", each)):
        print(title)
        for name, seconds in sorted(what, key=lambda x: -x[1])[:rows]:
            print(f"{seconds:8.2f} {name}")


main()
