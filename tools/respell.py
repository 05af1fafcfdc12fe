#!/usr/bin/env python3
"""Brings the repository's own definitions and lemmas to the spelling of today's Rattle.

usage: respell.py [--check] [FOLDER]

Run it at the top of the repository, once, right after port.py. Words go to snake case; a dash stays between two
words that are names of their own and becomes a low line elsewhere. Types, modules, functions of src/ and what
Rattle itself makes keep their names. --check prints the renamings and the names that fall together, and writes nothing.
"""
import glob
import os
import re
import sys

STOPS = r"\s(){}\[\];,.:\"|↦`"
WORD = re.compile(rf"[^{STOPS}]+")
SIGNATURE = re.compile(rf"^\s*(?:module _ |mutual )?(?:abbrev |unfoldable |pub |data |record )*([^{STOPS}]+) :(?:\s|$)(.*)$")


def snake(part):
    """camelCase in snake case; what begins with a capital is a type and keeps its spelling"""
    if not part or part[0].isupper():
        return part
    part = re.sub(r"(?<=[a-z0-9])([A-Z])(?=[a-z])", lambda m: "_" + m[1].lower(), part)
    return re.sub(r"(?<=[a-z0-9])([A-Z])", lambda m: "_" + m[1].lower(), part)


# names that would fall together with one of the libraries' in a file that has both
APART = {"isTrue": "is_true_code", "isFalse": "is_false_code"}


def files(top):
    found = []
    for kind in ("specs/*.antt", "proofs/**/*.antt", "src/**/*.rt", "must-fail/*.edit"):
        found += glob.glob(os.path.join(top, "crates/*/", kind), recursive=True)
    return sorted(set(found))


def declared(path, text):
    out = []
    for line in text.split("\n"):
        m = SIGNATURE.match(line)
        if m and "Need-" not in m[2] and not m[2].startswith(("tie.", "goal.")):
            out.append(m[1])
    if path.endswith("/Proof.antt"):
        out = [n for n in out if not n.endswith("-spec") and not n.endswith("_spec")]
    return out


def main():
    args = [a for a in sys.argv[1:] if a != "--check"]
    check = "--check" in sys.argv[1:]
    top = args[0] if args else "."
    own_crates = {os.path.basename(d.rstrip("/")) for d in glob.glob(os.path.join(top, "crates/*/"))}
    texts = {p: open(p, encoding="utf-8").read() for p in files(top)}
    names, library = set(), set()
    for path, text in texts.items():
        if path.endswith(".antt"):
            names |= set(declared(path, text))
        for m in re.finditer(r"^\s*(?:pub |ghost )?use ([\w.·+']+)\.\{([^}]*)\}", text, re.M):
            head = m[1].split(".")
            if not (head[0] == "Rattle" and len(head) > 1 and head[1] in own_crates):
                library |= {w.split(" as ")[0].strip() for w in m[2].split(",")}
    names = {n for n in names if not n.startswith(("Need-", "_"))}
    both = names & library
    names -= both
    plain = {n for n in names if "-" not in n} | library
    new = {}
    for n in sorted(names):
        if n[0].isupper() and "-" not in n:
            continue
        parts = n.split("-")
        if any(p == "" for p in parts):
            continue
        out = snake(parts[0])
        for before, part in zip(parts, parts[1:]):
            named = before in plain and part in plain and (len(before) > 1 or before.isupper()) and len(part) > 1
            out += ("-" if named else "_") + snake(part)
        out = APART.get(n, out)
        if out != n:
            new[n] = out
    # a lemma that would have a definition's name gets _lem; the definition keeps the plain name
    taken = {n for n in names if n not in new}
    for n in sorted(new, key=lambda w: ("-" in w, w)):
        o = new[n]
        if o in taken and "-" not in n and o in names:
            new[o] = o + "_lem"
            taken.add(o + "_lem")
        elif o in taken:
            new[n] = o = o + "_lem"
        taken.add(o)
    clash = {}
    for n, o in new.items():
        clash.setdefault(o, []).append(n)
    everything = set()
    for path, text in texts.items():
        if path.endswith(".antt"):
            everything |= set(WORD.findall(text))
    for o, ns in sorted(clash.items()):
        if len(ns) > 1 or o in everything:
            print("falls together:", o, ns, "there already" if o in everything else "", "declared" if o in names else "")
    for n in sorted(both):
        print("a library's name too:", n)
    if check:
        for n, o in sorted(new.items()):
            print(n, "->", o)
        return
    rust = set()
    for path, text in texts.items():
        if path.endswith(".rt"):
            rust |= set(re.findall(r"\b(?:fn|const|struct|enum) (\w+)", text))

    def turned(m, path):
        # a function of src/ keeps its name, in its source and as a step or a module of proofs
        of_source = m[0] in rust and (path.endswith(".rt") or m.string[m.start() - 1 : m.start()] == ".")
        return m[0] if of_source else new.get(m[0], m[0])

    for path, text in texts.items():
        # in sources the rest are words of clauses alone: no Rust name here has a dash or a capital inside
        done = WORD.sub(lambda m: turned(m, path), text)
        if done != text:
            with open(path, "w", encoding="utf-8") as f:
                f.write(done)
    print(len(new), "names turned")


main()
