#!/usr/bin/env python3
"""Whether the documents say what is there: prints what fails, and ends with 1 if anything does.

    tests/docs/check.py

- README.md's picture of the crates is what docs/picture.py draws of crates.txt;
- every crate, file, theorem, definition, function and type that a document names in backticks is in the tree;
- every theorem of a table with the columns 'theorem' and 'file' stands in that file;
- docs/FORMAT.md's table of records is the one of crates/plan_kinds, its example the one that the program is run on;
- links between documents lead to files, and to headings that are there;
- no line of code, definition or proof has more than 160 characters;
- no document, comment or script has a crate's former name, and no comment names a file that is not there.

Names that are not the tree's own (of the language, its tools, the Rust that is ported, SQL) stand in words.txt beside this
file: a name in backticks that is in neither is a mistake.
"""
import os
import pathlib
import re
import sys

TOP = pathlib.Path(__file__).resolve().parents[2]
HERE = pathlib.Path(__file__).resolve().parent
sys.dont_write_bytecode = True
sys.path.insert(0, str(TOP / "docs"))
sys.path.insert(0, str(HERE))
import picture  # noqa: E402
import rules  # noqa: E402

WIDEST = 160
# what stands for something else in a path: `crates/NAME/src`, `docs/changes/T-nn.md`
PLACEHOLDERS = re.compile(r"\b(NAME|CRATE|FILE|FOLDER|ROOM|F|X|T-nn|DIR|SEED|COUNT)\b|[*<>…]|\.\.$")
NAME = re.compile(r"[A-Za-z][A-Za-z0-9]*(?:[_-][A-Za-z0-9]+)*")
DECLARED = re.compile(r"^\s*(?:(?:abbrev|unfoldable|pub|record|data) )*([^\s:(){}.]+)(?: [^:=\n]*)? :|^pub ruleset (\S+) =", re.M)
FORMER = (
    "ready_sets conjunct_facts applied_conjuncts repeated_conjuncts predicate_facts column_facts operator_facts derive_facts"
    " simplifying_laws read_run rows_run rows_deep facts_run derive_run listing_run simplify_deep"
).split()


def files(*endings):
    """The files of the tree, those that are made or fetched left out."""
    for folder, inner, names in os.walk(TOP):
        inner[:] = sorted(d for d in inner if d not in ("target", "out", ".git", "__pycache__"))
        for name in sorted(names):
            if name.endswith(endings):
                yield pathlib.Path(folder, name)


def documents():
    return [p for p in files(".md")]


def declared(path):
    """The names that a file of definitions, proofs or code declares."""
    text = path.read_text()
    if path.suffix == ".antt":
        for m in DECLARED.finditer(text):
            yield m.group(1) or m.group(2)
    else:
        for m in re.finditer(r"\b(?:fn|struct|enum|trait|type|mod|const) (\w+)", text):
            yield m.group(1)
        # fields and variants
        for m in re.finditer(r"^\s*(?:pub )?(\w+)(?:\([^)]*\))?(?:: [^=\n]*)?,$", text, re.M):
            yield m.group(1)


def known():
    """Every name of the tree; those of the oracle's Rust by themselves, which only its own document may take for granted."""
    names, oracle = set(), set()
    for path in files(""):
        names.update(path.relative_to(TOP).parts)
        names.add(path.stem)
    for path in files(".antt", ".rt", ".rs"):
        (oracle if path.is_relative_to(TOP / "oracle") else names).update(declared(path))
    for path in files(".h"):
        names.update(re.findall(r"\b(?:mossladder|MOSSLADDER)_\w+", path.read_text()))
    return names, oracle | names


def words():
    found = set()
    for line in (HERE / "words.txt").read_text().splitlines():
        found.update(line.split("#")[0].split())
    return found


def spans(text):
    """(line, code) of each code span, fenced and indented blocks left out."""
    fenced = False
    for number, line in enumerate(text.splitlines(), 1):
        if line.lstrip().startswith("```"):
            fenced = not fenced
            continue
        if fenced or line.startswith("    "):
            continue
        for m in re.finditer(r"(`+)(.+?)\1", line):
            yield number, m.group(2).strip()


def is_path(code):
    return "/" in code and re.fullmatch(r"[\w./+*<>-]+(?::\d+)?", code) and not code.startswith(("/", "http"))


def is_there(code, document):
    """From the top, from the document's folder or from crates/; what lies outside the repository is not looked for."""
    code = code.split(":")[0].rstrip("/")
    if code.startswith("../") and not (TOP / code).resolve().is_relative_to(TOP):
        return True
    return any((base / code).exists() for base in (TOP, document.parent, TOP / "crates"))


def is_compound(name):
    return "_" in name or "-" in name or re.search(r"[a-z0-9][A-Z]", name)


def unknown_in(code, names, allowed):
    """The names in a code span that nothing has: all of a span that is one name, the compound ones of any other."""
    single = re.fullmatch(NAME.pattern + r"(?:\(\))?", code)
    for name in NAME.findall(code):
        if (single or is_compound(name)) and name not in names and name not in allowed:
            yield name


def check_names(document, names, allowed):
    # names of before the port stand beside today's there
    if document in [TOP / "docs" / name for name in ("PORT.md", "DESIGN-PASS.md", "LOOK-BACK.md")]:
        return
    for number, code in spans(document.read_text()):
        where = f"{document.relative_to(TOP)}:{number}"
        if is_path(code):
            if not PLACEHOLDERS.search(code) and not code.startswith("target/") and not is_there(code, document):
                yield f"{where}: no file {code}"
            continue
        if PLACEHOLDERS.search(code) and "/" in code:
            continue
        for name in unknown_in(code, names, allowed):
            yield f"{where}: nothing is called {name} (in `{code}`)"


def cells(line):
    return [cell.strip() for cell in line.strip().strip("|").split("|")]


def check_tables(document):
    """Of each table with the columns theorem and file: a theorem stands in one of the files beside it."""
    inside = False
    for number, line in enumerate(document.read_text().splitlines(), 1):
        if not line.startswith("|"):
            inside = False
        elif cells(line)[:2] == ["theorem", "file"]:
            inside = True
        elif inside:
            row = cells(line)
            paths = [TOP / "crates" / p for p in re.findall(r"`([^`]+\.antt)`", row[1])]
            there = {name for p in paths if p.exists() for name in declared(p)}
            for name in re.findall(r"`([^`]+)`", row[0]) if paths else []:
                if name not in there:
                    yield f"{document.relative_to(TOP)}:{number}: {name} does not stand in {row[1]}"


def anchors(path):
    """The anchors of a document's headings, as a forge makes them."""
    for line in path.read_text().splitlines():
        m = re.match(r"#+ (.*)", line)
        if m:
            yield re.sub(r"[^\w\- ]", "", m.group(1).lower()).replace(" ", "-")


def check_links(document):
    text = re.sub(r"```.*?```", "", document.read_text(), flags=re.S)
    for target in re.findall(r"\]\(([^)\s]+)\)", text):
        if target.startswith(("http://", "https://")):
            continue
        path, _, anchor = target.partition("#")
        file = (document.parent / path) if path else document
        where = document.relative_to(TOP)
        if not file.exists():
            yield f"{where}: a link to {target}, which is not there"
        elif anchor and anchor not in anchors(file):
            yield f"{where}: a link to {target}, which has no such heading"


def check_wide():
    for path in files(".rt", ".antt"):
        wide = [(n, len(line)) for n, line in enumerate(path.read_text().splitlines(), 1) if len(line) > WIDEST]
        if wide:
            most = max(w for _, w in wide)
            yield f"{path.relative_to(TOP)}:{wide[0][0]}: {len(wide)} lines of more than {WIDEST} characters, up to {most}"


def check_former():
    former = re.compile(r"\b(" + "|".join(FORMER) + r")\b")
    for path in files(".md", ".py", ".sh", ".rs", ".h", ".c", ".rt", ".antt", ".edit", ".txt"):
        if path == pathlib.Path(__file__).resolve() or path.name == "answers.txt":
            continue
        for number, line in enumerate(path.read_text().splitlines(), 1):
            m = former.search(line)
            if m:
                yield f"{path.relative_to(TOP)}:{number}: the former name {m.group(1)}"


def check_comments():
    """The files that comments of code and proofs name."""
    for path in files(".rt", ".antt"):
        crate = TOP.joinpath(*path.relative_to(TOP).parts[:2])
        comments = "\n".join(re.findall(r"(?:^|\s)(?:--|//) (.*)", path.read_text(), re.M))
        for name in sorted(set(re.findall(r"[\w/+]+/[\w/+]+\.(?:antt|rt|md)\b", comments))):
            if not any((base / name).exists() for base in (TOP, TOP / "crates", crate)):
                yield f"{path.relative_to(TOP)}: a comment names {name}, which is not there"


def check_picture():
    if picture.in_readme() is None:
        yield "README.md: no picture between its markers"
    elif picture.in_readme() != picture.picture():
        yield "README.md: the picture is not the one that docs/picture.py draws: docs/picture.py --write"


def main():
    (ours, with_oracle), allowed = known(), words()
    faults = list(check_picture()) + list(rules.check())
    for document in documents():
        faults += check_names(document, with_oracle if document.parent.name == "oracle" else ours, allowed)
        faults += check_tables(document)
        faults += check_links(document)
    faults += check_wide()
    faults += check_former()
    faults += check_comments()
    for fault in faults:
        print(fault)
    print(f"{len(documents())} documents, {len(faults)} faults")
    return 1 if faults else 0


if __name__ == "__main__":
    sys.exit(main())
