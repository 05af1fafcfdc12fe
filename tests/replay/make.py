#!/usr/bin/env python3
"""The input of the program replay, and what it must write, out of the oracle's fixed list.

    tests/replay/make.py        from the repository's top: oracle/answers.txt into crates/replay/stdin and stdout

An answer of the list is translated into the reply that the boundary gives when it answers the same: the refusal's
number, 0 for none; a number of eight bytes; and the plan's bytes or the listing. So what is expected is the
oracle's, and the boundary's own code has no part in it. The list writes every NaN in one way, the boundary writes
a plan as it read it: so a NaN of an expected plan gets back the bits that it has in the file.
"""
import pathlib

TOP = pathlib.Path(__file__).resolve().parents[2]
OPERATIONS = ["read", "derive", "facts", "apply", "simplify", "eval"]
NAN = bytes.fromhex("7ff8000000000000")
# the length of a record by its kind, the kind included
LENGTHS = {
    **dict.fromkeys([0x10, 0x11], 2),
    **dict.fromkeys([0x20, 0x24, 0x31, 0x32, 0x39, 0x3A, 0x40, 0x43], 3),
    **dict.fromkeys([0x01, 0x21, 0x23], 4),
    **dict.fromkeys([0x12, 0x15, 0x30, 0x33, 0x34, 0x35, 0x36, 0x38, 0x3B, 0x41, 0x42], 5),
    **{0x22: 6, 0x37: 7, 0x3C: 8, 0x13: 9, 0x14: 9, 0x3D: 9},
}
TRUTHS = {"false": 0, "unknown": 1, "true": 2}


def head(number, place):
    return bytes([number]) + place.to_bytes(8, "big")


def floats(file):
    """Where the bits of each float of a plan file stand."""
    at, found = 0, []
    while at < len(file):
        if file[at] == 0x14:
            found.append(at + 1)
        at += LENGTHS[file[at]]
    return found


def with_payloads(plan, file):
    """The plan's bytes, each NaN with the bits that the file gives it: floats keep their order, and none is ever added."""
    plan = bytearray(plan)
    for at, given in zip(floats(plan), floats(file), strict=True):
        if plan[at : at + 8] == NAN:
            plan[at : at + 8] = file[given : given + 8]
    return bytes(plan)


def rest(lines, file):
    """What follows the head: a plan's bytes, or the lines of a listing."""
    if lines and lines[0].split(" ")[0] == "plan":
        return with_payloads(bytes.fromhex(lines[0][4:].strip()), file)
    return "".join(line + "\n" for line in lines).encode()


def reply(answer, file):
    lines = answer.split("/")
    words = lines[0].split(" ")
    if words[0] == "refused":
        place = int(words[2]) if len(words) > 2 else 0
        return head(int(words[1]), place) + rest(lines[1:], file)
    if words[0] in TRUTHS:
        return head(0, TRUTHS[words[0]])
    if words[0] == "keep":
        return head(0, 0) + rest(lines[1:], file)
    if words[0] == "replace":
        return head(0, int(words[1]) + 1) + rest(lines[1:], file)
    return head(0, 0) + rest(lines, file)


def main():
    questions, replies = b"", ""
    count = 0
    for line in (TOP / "oracle/answers.txt").read_text().splitlines():
        operation, given, answer = line.split(" ", 2)
        data = b"" if given == "-" else bytes.fromhex(given)
        questions += bytes([OPERATIONS.index(operation)]) + len(data).to_bytes(4, "big") + data
        # only the answers to these two have a plan
        file = data[2:] if operation == "simplify" else data
        replies += reply(answer, file).hex() + "\n"
        count += 1
    (TOP / "crates/replay/stdin").write_bytes(questions)
    (TOP / "crates/replay/stdout").write_text(replies)
    print(f"{count} questions, {len(questions)} bytes; replies {len(replies)} bytes")


main()
