#!/usr/bin/env python3
"""Respells the names of definitions, lemmas, fields, constructors and types on the pages, as tools/respell.py respelled them in
the crates. Run once, at the top, after it.

usage: python3 tools/respell_pages.py [--list]      --list prints old and new names, and changes nothing

The new name of each is read off the crates: a declaration stands at the same place of its file before and after the respelling
(commits OLD and NEW). Of a page only what stands in backquotes, in a fenced block or in an indented one is read; a word that is
part of a path or a file name stays. tests/names.txt and tests/contracts.txt are lists of such names.
"""
import os
import re
import subprocess
import sys

ROOT = os.path.dirname(os.path.dirname(os.path.abspath(__file__)))
OLD, NEW = "6e1473a", "868b6de"
WORD = re.compile(r"(?<![\w'/.$-])(?<!\w\u00b7)(\.?)([A-Za-z_][\w'\u2032-]*[\w'\u2032]|[A-Za-z])(?![\w'\u2032/-])(?!\.(?:txt|out|sh|py|md|rs|rt|edit|antt|svg|csv)\b)")


def git(*words):
    return subprocess.run(["git", "-C", ROOT, *words], check=True, capture_output=True, text=True).stdout


def files_at(commit):
    """path -> text, of the .antt files with declarations: specs, and the lemmas beside the proofs of functions"""
    paths = [p for p in git("ls-tree", "-r", "--name-only", commit, "crates").split("\n") if re.fullmatch(r"crates/\w+/(specs|proofs)/\w+\.antt", p)]
    given = "".join(f"{commit}:{p}\n" for p in paths).encode()
    said = subprocess.run(["git", "-C", ROOT, "cat-file", "--batch"], input=given, check=True, capture_output=True).stdout
    texts, at = {}, 0
    for path in paths:
        end = said.index(b"\n", at)
        size = int(said[at:end].split()[-1])
        texts[path] = said[end + 1 : end + 1 + size].decode()
        at = end + 2 + size
    return texts


def declared(text):
    """the names that a file declares, in order"""
    names = []
    for line in text.split("\n"):
        line, bare = re.subn(r"^(abbrev|unfoldable|opaque|pub|record|data|module|where) ", "", line.strip().removeprefix("| "))
        whole = bare
        while bare:
            line, bare = re.subn(r"^(abbrev|unfoldable|opaque|pub|record|data|module|where) ", "", line)
        if line.startswith("--"):
            continue
        head = re.match(r"([^ :(){}=,]+(?:,? [^ :(){}=,]+)*) :( |$)", line)
        if head:
            names += re.split(r",? ", head[1])
        elif whole:
            names.append(re.split(r"[ :]", line)[0])
    return names


def mapping():
    before, after = files_at(OLD), files_at(NEW)
    to = {}
    for path, text in before.items():
        if path not in after:
            continue
        old, new = declared(text), declared(after[path])
        if len(old) != len(new):
            print(f"{path}: {len(old)} declarations before, {len(new)} after; left out", file=sys.stderr)
            continue
        for a, b in zip(old, new):
            if to.setdefault(a, b) != b:
                print(f"{path}: {a} is {to[a]} and {b}", file=sys.stderr)
    return {a: b for a, b in to.items() if a != b}


def turned(text, to):
    return WORD.sub(lambda m: m[1] + to.get(m[2], m[2]), turned_parts(text, to))


def turned_parts(text, to):
    """File.name and Record.field, whose name stands behind a dot"""
    return re.sub(r"(?<![\w./-])([A-Z]\w*(?:-\w+)*)\.([A-Za-z][\w'-]*)(?![\w'/])", lambda m: to.get(m[1], m[1]) + "." + to.get(m[2], m[2]), text)


def page(path, text, to):
    if path == "docs/CONSOLE.md":  # the case files of bench/ have names of their own
        to = {a: b for a, b in to.items() if not os.path.exists(os.path.join(ROOT, "bench", a + ".txt"))}
    out, fenced = [], False
    for line in text.split("\n"):
        if re.match(r" *```", line):
            fenced = not fenced
        elif fenced or line.startswith("    "):
            line = turned(line, to)
        else:
            parts = re.split(r"(`[^`]*`)", line)
            line = "".join(turned(p, to) if p.startswith("`") else p for p in parts)
        out.append(line)
    return "\n".join(out)


def records(names, to):
    """the records of crate upstream by what stands behind `Promise`: try-lock, which is TryLock now"""
    return " ".join(to["Promise-" + name].removeprefix("Promise") if "Promise-" + name in to else name for name in names.split(" "))


def contracts_page(text, to):
    text = re.sub(r"<!-- records ([a-z-]+) -->", lambda m: f"<!-- records {records(m[1], to)} -->", text)
    text = re.sub(r"`(Requires|Ensures|Here|Contract|Promise)-f\b", r"`\1F", text)
    text = re.sub(r"`(promise|implied|meets|met)-f`", r"`\1_f`", text)
    # the last cells, which have no backquotes: Vocabulary.NAME and CRATE: FILE.RECORD.FIELD
    return re.sub(r"(?<=\| )((?:\w+: \w+|Vocabulary)(?:\.[\w-]+)+)(?= \|$)", lambda m: ".".join(to.get(w, w) for w in m[1].split(".")), text, flags=re.M)


def contracts_list(text, to):
    """tests/contracts.txt: FUNCTION CALL: RECORDS, ROW CRATE: FILE.RECORD.FIELD and DEFINITION VERDICT FILE.NAME"""
    out = []
    for line in text.split("\n"):
        head = re.fullmatch(r"(00[01]\.[a-z_]+ [^:.]+: )([a-z -]+)", line)
        place = re.fullmatch(r"(00[01]\.[a-z_]+\.[id]\d+ \w+: \w+)\.([\w-]+)\.([\w-]+)", line)
        name = re.fullmatch(r"(00[01]\.\w+ .* \w+)\.([\w-]+)", line)
        if line.startswith("#"):
            pass
        elif head:
            line = head[1] + records(head[2], to)
        elif place:
            line = ".".join([place[1], to.get(place[2], place[2]), to.get(place[3], place[3])])
        elif name:
            line = name[1] + "." + to.get(name[2], name[2])
        out.append(line)
    return "\n".join(out)


def main():
    to = mapping()
    if "--list" in sys.argv:
        print("\n".join(f"{a} {b}" for a, b in sorted(to.items())))
        return
    n = 0
    for path in git("ls-files").split("\n"):
        is_page = path.endswith(".md") and not path.startswith("crates/") and path != "docs/PORT.md"
        lists = {"tests/names.txt": turned, "tests/contracts.txt": contracts_list}
        if not is_page and path not in lists:
            continue
        whole = os.path.join(ROOT, path)
        text = open(whole, encoding="utf-8").read()
        new = page(path, text, to) if is_page else lists[path](text, to)
        new = contracts_page(new, to) if path == "docs/CONTRACTS.md" else new
        if new != text:
            open(whole, "w", encoding="utf-8").write(new)
            n += 1
    print(f"respelled in {n} files")


main()
