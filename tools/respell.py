#!/usr/bin/env python3
"""Respells the repository's own words to today's Rattle: definitions, lemmas, fields and constructors in snake case, types in
camel case. Run once, at the top, after the kit's port.py, whose own respelling of some of them it finishes.

usage: python3 tools/respell.py [--list]        --list prints old and new names, and changes nothing

Functions of src/, generated names, names of the kit and module paths stay. Two names that would fall together keep apart: the
one that had hyphens gets _lem. The first run, which docs/PORT.md names, had no BOTH and no TYPES, and left fourteen words in import lines.
"""
import collections
import os
import re
import sys

ROOT = os.path.dirname(os.path.dirname(os.path.abspath(__file__)))
CRATES = [l.split(":")[0].split()[0] for l in open(os.path.join(ROOT, "crates.txt")) if ":" in l and not l.startswith("#")]
WORD = re.compile(r"(?<![\w'\u25cc\u2260-])[A-Za-z_][\w'-]*(?![\w'])")
USE = re.compile(r"^(\s*(?:pub )?(?:ghost )?use )([\w.\u00b7+-]+?)(\.\{[^}]*\}|)(\s+as\s+[\w-]+)?;?\s*$")
DECLARED = re.compile(r"^(\s*)((?:abbrev |unfoldable |opaque )*)(pub )?([A-Za-z_][\w'-]*(?:, [A-Za-z_][\w'-]*)*) :(?= |$)")
NAMED = re.compile(r"^\s*(?:pub )?(?:record|data) (?:pub )?([A-Za-z_][\w'-]*)")


def files():
    for crate in CRATES:
        for folder, dirs, names in os.walk(os.path.join(ROOT, "crates", crate)):
            dirs[:] = sorted(d for d in dirs if d not in ("out", "must-fail"))
            for name in sorted(names):
                if name.endswith((".rt", ".antt")):
                    yield os.path.join(folder, name)


def is_walk(path):
    return path.endswith(".antt") and "/proofs/" in path and not path.endswith(("/proofs/Lib.antt",)) and os.path.basename(os.path.dirname(path)) != "proofs"


def is_own(module):
    return module.split(".")[0] == "Rattle" and module.split(".")[1] in CRATES


def code_and_comment(line, mark):
    at, quoted = 0, False
    while at < len(line):
        c = line[at]
        if c == '"' and line[at - 1 : at] != "'":
            quoted = not quoted
        elif not quoted and line.startswith(mark, at):
            return line[:at], line[at:]
        at += 1
    return line, ""


def plain(name):
    """The name in today's spelling, if nothing else has it."""
    if name[0].isupper():
        return "".join(p[:1].upper() + p[1:] for p in name.split("-")) if "-" in name else name
    out = name.replace("-", "_")
    out = re.sub(r"(?<=[a-z0-9'])([A-Z])", lambda m: "_" + m[1].lower(), out)
    return re.sub(r"([A-Z])", lambda m: m[1].lower(), out)


def collect():
    own, lower = set(), set()
    for path in files():
        if path.endswith(".rt") or is_walk(path):
            continue
        for line in open(path, encoding="utf-8"):
            code, _ = code_and_comment(line.rstrip("\n"), "--")
            m = DECLARED.match(code)
            if m:
                own.update(m[4].split(", "))
            m = NAMED.match(code)
            if m:
                own.add(m[1])
            # fields and binders in one line, as (a b : A) and { x : A; y : B }
            for group in re.findall(r"[({]([\w' -]+) : ", code):
                own.update(group.split())
    return {n for n in own if WORD.fullmatch(n)}


# Types that fall together with another type, and a word that falls together with std's.
APART = {"All-live": "AllAreLive", "By-cell": "PerCell", "Cell-in": "CellAmong", "is-Some": "is_some_serial", "Not-finite": "IsNotFinite"}

# Types that port.py took for words.
TYPES = {"Found_at": "FoundAt", "Goes_on": "GoesOn"}

# Names that fall together and never meet in one file, none of them a lemma's: they need no _lem.
BOTH = set(
    "answer_in at_end at_work bad_header bad_key binding_at cell_of counts_of crew_at_work header_of held_by is_full is_lost"
    " refused_at refused_whole release_all script_of try_acquire try_lock version_in world_of".split()
)


def mapping(own):
    groups = collections.defaultdict(set)
    for name in own - set(APART):
        groups[plain(name)].add(name)
    to = dict(APART)
    for new, names in groups.items():
        names = sorted(names)
        camel = [n for n in names if n != new and "-" not in n]
        keeps = camel[0] if camel else new if new in names else names[0]
        for n in names:
            to[n] = new if n == keeps or new in BOTH else new + "_lem"
    return to | TYPES


def imported(text):
    kit, ours = set(), set()
    for line in text.split("\n"):
        m = USE.match(line)
        if m and m[3]:
            names = [w.strip() for w in m[3][2:-1].split(",")]
            words = {x for n in names for x in re.split(r"\s+as\s+", n)}
            (ours if is_own(m[2]) else kit).update(words)
    return kit, ours


def turn_use(m, to, end=""):
    """An import line, of which m is the match: the names that come from our own modules are respelled."""
    tail = (m[3] or "") + (m[4] or "")
    if is_own(m[2]):
        tail = WORD.sub(lambda w: w[0] if w[0] == "as" else to.get(w[0], plain(w[0])), tail)
    return m[1] + m[2] + tail + end


def turn_spec(path, text, to):
    kit, _ = imported(text)
    out = []
    for line in text.split("\n"):
        code, comment = code_and_comment(line, "--")
        m = USE.match(code)
        if m:
            code = turn_use(m, to, ";" if code.rstrip().endswith(";") else "")
        else:
            # what is no name of the kit and no word of ours is a name bound in the file
            code = WORD.sub(lambda w: w[0] if w[0] in kit else to.get(w[0]) or (plain(w[0]) if w[0][0].islower() and local(w[0], code, w.start()) else w[0]), code)
        out.append(code.replace("◌and-then◌", "◌and_then◌") + turn_comment(comment, to, kit))
    return "\n".join(out)


def local(word, code, at):
    """A hyphened or camel-case word that nobody declares: bound by a pattern, a let or a lambda. A qualified one is somebody's."""
    return ("-" in word or re.search(r"[a-z][A-Z]", word)) and code[at - 1 : at] != "."


def turn_comment(comment, to, kit):
    return WORD.sub(lambda w: to[w[0]] if w[0] in to and w[0] not in kit and w[0][0].islower() and re.search(r"[a-z][A-Z]", w[0]) else to[w[0]] if w[0] in to and ("`" + w[0] + "`") in comment else w[0], comment)


def turn_source(path, text, to):
    kit, ours = imported(text)
    out = []
    for line in text.split("\n"):
        code, comment = code_and_comment(line, "//")
        m = USE.match(code)
        if m and "ghost" in m[1]:
            code = turn_use(m, to, ";")
        else:
            parts = re.split(r'("(?:[^"\\]|\\.)*")', code)
            for i in range(0, len(parts), 2):
                parts[i] = WORD.sub(lambda w: to.get(w[0], w[0]) if w[0] not in kit and (re.search(r"^[a-z].*[A-Z]", w[0]) or "-" in w[0] or w[0] in ours) else w[0], parts[i])
            code = "".join(parts)
        out.append(code + turn_comment(comment, to, kit))
    return "\n".join(out)


def turn_walk(path, text, to):
    """A proof by hand: what it imports from our own specs, and fields of our own records."""
    kit, ours = imported(text)
    ours = {w for w in ours if w not in ("statement",)}
    out = []
    for line in text.split("\n"):
        code, comment = code_and_comment(line, "--")
        m = USE.match(code)
        if m:
            tail = (m[3] or "") + (m[4] or "")
            if is_own(m[2]) and ".specs." in m[2] + ".":
                tail = WORD.sub(lambda w: w[0] if w[0] == "as" else to.get(w[0], w[0]), tail)
            code = m[1] + m[2] + tail
        else:
            code = WORD.sub(lambda w: walk_word(w, code, to, kit, ours), code)
        out.append(code + turn_comment(comment, to, kit))
    return "\n".join(out)


def walk_word(w, code, to, kit, ours):
    word, after_dot = w[0], code[w.start() - 1 : w.start()] == "."
    if after_dot:
        return to[word] if word in to and (word[0].islower()) else word
    if word in ours:
        return to.get(word, word)
    # the fields of a record that is written out
    if word in to and re.match(r"\s*(=|:) ", code[w.end() :]) and re.search(r"[{;]\s*$|^\s+$", code[: w.start()]):
        return to[word]
    return word


def main():
    to = mapping(collect())
    changed = {a: b for a, b in to.items() if a != b}
    if "--list" in sys.argv:
        for a, b in sorted(changed.items()):
            print(a, b)
        return
    n = 0
    for path in files():
        text = open(path, encoding="utf-8").read()
        turn = turn_source if path.endswith(".rt") else turn_walk if is_walk(path) else turn_spec
        new = turn(path, text, to)
        if new != text:
            open(path, "w", encoding="utf-8").write(new)
            n += 1
    print(f"respelled {len(changed)} names in {n} files")


main()
