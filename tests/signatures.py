#!/usr/bin/env python3
"""The exported calls' signatures, from one place: crates/skid/src.

signatures.py --check   compares the declarations of include/skid.h and the list of rust/skid/src/raw/calls.rs, between their marks,
                        with the exported functions: names, order and types of arguments, words of the reply. Ends with 1 and
                        says the first line that differs.
signatures.py --write   writes them. Comments between the marks stay where they are, each in front of its call.
"""

import glob
import re
import sys

HEADER = "include/skid.h"
CALLS = "rust/skid/src/raw/calls.rs"
REPLIES = {"15": "REPLY", "49": "CREW", "7": "SALVAGE", "4": "BOOK", "3": "WAVE"}
C_TYPES = {"u8": "uint8_t", "u16": "uint16_t", "u32": "uint32_t", "usize": "size_t", "bool": "bool"}
# Numbers that stand for one thing, and what Rust gives in their place.
WHOLES = [
    (["headers", "buckets", "next", "boot"], "head: Head"),
    (["headers", "buckets", "serial", "boot"], "head: Head"),
    (["cell", "serial", "lease_boot"], "lease: Lease"),
    (["binding", "bucket"], "key: Key"),
]


def fail(text):
    print(f"signatures: {text}", file=sys.stderr)
    sys.exit(1)


def exported():
    """Each exported call: its name, and its parameters as (name, type)."""
    calls = []
    for path in sorted(glob.glob("crates/skid/src/*.rt"), key=lambda p: (not p.endswith("lib.rt"), p)):
        text = open(path, encoding="utf8").read()
        for name, given in re.findall(r'^pub extern "C" fn skid_(\w+)\(([^)]*)\)', text, re.M):
            if name.startswith("interface_"):
                continue
            parameters = [tuple(part.strip().split(": ", 1)) for part in given.split(",") if part.strip()]
            calls.append((name, parameters))
    if not calls:
        fail("no exported call in crates/skid/src")
    return calls


def filled(first, parts, last, width, under):
    """The parts behind `first`, as many a line as fit, the next line under column `under`."""
    lines, line = [], first
    for i, part in enumerate(parts):
        word = part + ("," if i + 1 < len(parts) else last)
        if line.strip() and not line.endswith("(") and len(line) + 1 + len(word) > width:
            lines.append(line)
            line = " " * under + word
        else:
            line += (" " if line.strip() and not line.endswith("(") else "") + word
    return lines + [line]


def c_declaration(name, parameters):
    parts = []
    for what, kind in parameters:
        reply = re.fullmatch(r"&mut \[u64; (\d+)\]", kind)
        run = re.fullmatch(r"&(mut )?\[(\w+)\]", kind)
        if reply:
            parts.append(f"uint64_t {what}[SKID_{REPLIES[reply[1]]}_WORDS]")
        elif run:
            parts += [f"{'' if run[1] else 'const '}{C_TYPES[run[2]]} *{what}", f"size_t {what}_len"]
        else:
            parts.append(f"{C_TYPES[kind]} {what}")
    first = f"void skid_{name}("
    return filled(first, parts, ");", 120, len(first))


def rust_line(name, parameters):
    if not (reply := re.fullmatch(r"&mut \[u64; (\d+)\]", parameters[-1][1])):
        fail(f"skid_{name} has no reply as its last parameter")
    parts, rest = [], parameters[:-1]
    while rest:
        names = [what for what, _ in rest]
        whole = next((w for w in WHOLES if names[: len(w[0])] == w[0] and {k for _, k in rest[: len(w[0])]} == {"u32"}), None)
        parts.append(whole[1] if whole else f"{rest[0][0]}: {rest[0][1]}")
        rest = rest[len(whole[0]) if whole else 1 :]
    end = f") -> {REPLIES[reply[1]]};"
    one = " " * 12 + f"{name}({', '.join(parts)}{end}"
    if len(one) <= 100:
        return [one]
    # as rustfmt breaks a list: the arguments between the brackets' lines
    return [" " * 12 + f"{name}("] + filled(" " * 16, parts, ",", 100, 16) + [" " * 12 + end]


def between(path, begin, end):
    text = open(path, encoding="utf8").read()
    if text.count(begin) != 1 or text.count(end) != 1:
        fail(f"{path} has not the marks '{begin.strip()}' and '{end.strip()}', once each")
    front, rest = text.split(begin)
    inside, back = rest.split(end)
    return front + begin, inside, end + back


def renewed(inside, pattern, made, path):
    """The text with each declaration that matches replaced by the one that was made, in the same order."""
    there = [match[1] for match in re.finditer(pattern, inside, re.M)]
    if there != list(made):
        extra = [name for name in there if name not in made] + [name for name in made if name not in there]
        fail(f"{path}: " + (f"not in both, the crate and this file: {', '.join(extra)}" if extra else "the order is not the crate's"))
    return re.sub(pattern, lambda match: "\n".join(made[match[1]]), inside, flags=re.M)


def main():
    if sys.argv[1:] not in (["--check"], ["--write"]):
        print(__doc__, file=sys.stderr)
        sys.exit(2)
    calls = exported()
    faces = [
        (HEADER, "/* declarations: begin */\n", "/* declarations: end */\n", r"^void skid_(\w+)\([^;]*;", c_declaration),
        (CALLS, " // calls: begin\n", " // calls: end\n", r"^ {12}(\w+)\([^;]*;", rust_line),
    ]
    for path, begin, end, pattern, make in faces:
        front, inside, back = between(path, begin, end)
        new = renewed(inside, pattern, {name: make(name, parameters) for name, parameters in calls}, path)
        if sys.argv[1] == "--write":
            open(path, "w", encoding="utf8").write(front + new + back)
        elif new != inside:
            pair = next(p for p in zip(inside.split("\n"), new.split("\n")) if p[0] != p[1])
            fail(f"{path}: '{pair[0].strip()}' is to be '{pair[1].strip()}' (tests/signatures.py --write)")
    print(f"signatures: {len(calls)} calls; {HEADER} and {CALLS} say what crates/skid/src says")


main()
