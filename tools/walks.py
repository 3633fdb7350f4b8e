#!/usr/bin/env python3
"""Turns a crate's walks by hand (proofs/F/Proof.antt) into Invariants.antt and Answers.antt.

usage: walks.py CRATE_FOLDER NAMES.json     NAMES.json: of 'rt check --generated FOLDER --old-names'
A goal whose answer was 'search rules' gets none: the check tries that and more by itself.
"""
import json
import os
import re
import sys

W = r"[A-Za-z_\u03bc\u03ba][\w'-]*"


def clause_names(root):
    """crate::fn (without types) -> kind -> names of its clauses, in order, where it has several."""
    out = {}
    for crate in os.listdir(root):
        for folder, dirs, files in os.walk(os.path.join(root, crate, "src")):
            for f in files:
                text = open(os.path.join(folder, f), encoding="utf-8").read()
                for m in re.finditer(r"(?m)^\s*(?:pub )?fn (\w+)(?:<[^>]*>)?\((.*?)\)(?: ->[^{]*?)?\s*(?:requires|ensures|\{)", text, re.S):
                    out.setdefault((crate, m[1]), {})["mut"] = re.findall(r"(\w+): &mut ", m[2])
                for m in re.finditer(r"(?m)^\s*(?:pub )?fn (\w+)[^{]*?(?=\s(?:requires|ensures)\b)(.*?)^\s*\{$", text, re.S):
                    for kind in ("requires", "ensures"):
                        names = re.findall(rf"(?m)^\s*{kind} (\w+) \{{", m[2])
                        if names:
                            out.setdefault((crate, m[1]), {})[kind] = names
    return out


def norm(s):
    return re.sub(r"_lem$", "", s).replace("_", "-")


def blocks(text):
    """Top-level items: (kind, lines)."""
    out, cur = [], []
    for line in text.split("\n"):
        if line and not line[0].isspace():
            starts = True
            # an equation or an unfolding line goes on with the signature before it
            if cur and (line.startswith("unfolding") or continues(cur, line)):
                starts = False
            if starts:
                if cur:
                    out.append(cur)
                cur = [line]
                continue
        if cur:
            cur.append(line)
    if cur:
        out.append(cur)
    for b in out:
        if b[0].endswith(" :") and len(b) > 1:
            b[:2] = [b[0] + " " + b[1].strip()]
    return out


def continues(cur, line):
    m = re.match(rf"(?:abbrev |unfoldable )?(?:pub )?({W}(?:, {W})*) :( |$)", cur[0])
    if not m:
        return False
    return any(re.match(rf"{re.escape(n)}(?=\s|$)", line) and not re.match(rf"{re.escape(n)} :( |$)", line) for n in m[1].split(", "))


def tuple_parts(text):
    if not (text.startswith("(") and text.endswith(")")):
        return None
    depth, parts, start = 0, [], 1
    for i, ch in enumerate(text):
        if ch in "({[":
            depth += 1
        elif ch in ")}]":
            depth -= 1
            if depth == 0:
                if i != len(text) - 1:
                    return None
                parts.append(text[start:i].strip().rstrip(","))
        elif ch == "," and depth == 1:
            parts.append(text[start:i].strip())
            start = i + 1
    parts = [p for p in parts if p]
    return parts if len(parts) > 1 else None


class Fn:
    def __init__(self, info):
        self.info = info
        self.places = {}
        for old, parent, step, callee, extra in info["places"]:
            self.places[old] = (parent, step, callee, extra)
        self.arms = {p[0]: a for p, a in zip(info["places"], info["arms"])}
        self.byname = dict(zip([p[0] for p in info["places"]], info["places_by_name"]))
        self.needs = {}
        for (old, new), at in zip(info["needs"], info["asked_at"]):
            self.needs.setdefault(norm(old), []).append((new, at[0]))

    def path(self, place, text, problems, what, base="c"):
        """Rewrites c.before.before.STEP.. and let-bound records of c in a body that is asked at a place."""
        at = {base: place}
        out, i = "", 0
        pat = re.compile(r"(?<![\w.'-])(" + W + r")((?:\.before)*)(\.[A-Za-z_][\w'-]*)?((?:\.[\w'-]+)*)")
        for m in re.finditer(pat, text):
            v = m[1]
            if v not in at:
                continue
            p = self.up(at[v], m[2].count(".before"))
            field = m[3][1:] if m[3] else None
            tail = m[4] or ""
            if field is None:
                b = re.search(r"let (" + W + r") = $", text[: m.start()])
                if b:
                    at[b[1]] = p or at[v]
                    new = base
                else:
                    new = base
                    for w in reversed(re.findall(r"(?<![\w.'-])(" + W + r")", text[: m.start()])):
                        if w in self.helpers:
                            new = f"(goal.at.{self.goal} c).{self.helpers[w]}" if self.goal else base
                            break
                out += text[i : m.start()] + new
                i = m.end()
                continue
            got = self.step(at[v], p, field, tail)
            if got is None and field in ("args", "requires", "ranges", "well_formed", "well-formed"):
                got = "." + field.replace("-", "_"), tail, None
            if got is None:
                problems.append(f"{what}: {m[0]}: no such step")
                got = "." + field, tail, None
            new, tail, p = base + got[0], got[1], got[2]
            tail = self.clause(p, field, tail)
            out += text[i : m.start()] + new + tail
            i = m.end()
        return out + text[i:]

    def up(self, place, k):
        for _ in range(k):
            if place not in self.places:
                return None
            place = self.places[place][0]
        return place

    def line(self, place):
        out = []
        while place in self.places and place not in out:
            out.append(place)
            place = self.places[place][0]
        return out

    def step(self, here, guess, field, tail):
        """The step that an old path names, on the way here: (new name, rest, place)."""
        line = self.line(here)
        near = [guess] if guess in line else []
        for p in near + line:
            arm = self.arm(p, field, tail)
            if arm:
                return arm, "", p
            step = self.places[p][1]
            if step[0] and norm(step[0]) == norm(field):
                return "." + step[1], tail, p
        bare = re.sub(r"\d+$", "", norm(field))
        for p in near + line:
            step = self.places[p][1]
            if step[0] and re.sub(r"\d+$", "", norm(step[0])) == bare:
                return "." + step[1], tail, p
        return None

    def clause(self, place, field, tail):
        """A clause that had a number has a name, and so has what a call left in a lent argument."""
        if field == "requires":
            return self.numbered((self.info["pre"] or {}).get("fields"), tail)
        return self.of_call(self.places.get(place, (None, None, None))[2], tail)

    def numbered(self, names, tail):
        m = re.match(r"((?:\.\d+)+)", tail)
        if not (names and m):
            return tail
        digits = [int(d) for d in m[1].split(".")[1:]]
        at = 0
        for i, d in enumerate(digits):
            left = len(names) - at
            at += d
            if at >= len(names):
                return tail
            # a tuple nests to the right: .1 of more than two, with more behind it, is what is left of it
            if not (d == 1 and left > 2 and i + 1 < len(digits)):
                return "." + names[at] + "".join(f".{x}" for x in digits[i + 1 :]) + tail[m.end() :]
        return tail

    def of_call(self, callee, tail):
        if not callee:
            return tail
        if callee.split("::")[-1].startswith("wrapping_") and tail == ".ensures":
            return ".ensures.value"
        about = self.clauses.get((callee.split("::")[0], callee.split("::")[-1]), {})
        m = re.match(r"\.(ensures|requires)(\.\d+.*)", tail)
        if m:
            return "." + m[1] + self.numbered(about.get(m[1]), m[2])
        m = re.match(r"\.new((?:\.1)*)\.0", tail)
        params = self.info["params"].get(callee)
        if m and params and len(m[1]) // 2 < len(params):
            return ".new." + params[len(m[1]) // 2] + tail[m.end() :]
        m = re.match(r"\.auto(\.\d+.*)", tail)
        if m and len(about.get("mut", [])) > 1:
            return ".auto" + self.numbered(about["mut"], m[1])
        return tail

    def bound(self, text):
        """The same behind names that a let gave to a call, to what it ensures, or to what is required."""
        steps = {st[1]: callee for _, st, callee, _ in self.places.values() if callee}
        for m in re.finditer(r"let (" + W + r") = c\.([\w'-]+)(\.ensures|\.requires)? in", text):
            v, step, more = m[1], m[2], m[3] or ""
            if step == "requires" and not more:
                turn = lambda t: self.numbered((self.info["pre"] or {}).get("fields"), t)
            elif step in steps:
                turn = lambda t, c=steps[step], more=more: self.of_call(c, more + t)[len(more) :]
            else:
                continue
            text = text[: m.end()] + re.sub(r"(?<![\w.'-])" + re.escape(v) + r"((?:\.[\w'-]+)+)", lambda w: v + turn(w[1]), text[m.end() :])
        return text

    def record(self, text, names, problems, what):
        """An answer that was a tuple is a record of its clauses."""
        depth, last = 0, text.index(" =") + 2
        for w in re.finditer(r"[({]|[)}]|\bin\b", text):
            if w[0] in "({":
                depth += 1
            elif w[0] in ")}":
                depth -= 1
            elif depth == 0 and w.start() > last:
                last = w.end()
        head, body = text[:last], text[last:]
        parts = tuple_parts(body.strip())
        while parts and len(parts) < len(names) and tuple_parts(parts[-1]):
            parts[-1:] = tuple_parts(parts[-1])
        if not parts or len(parts) != len(names):
            if body.strip() != "search rules":
                problems.append(f"{what}: no tuple of {len(names)} clauses")
            return text
        space = re.match(r"\s*", body)[0]
        return head + space + "record { " + "; ".join(f"{n} = {p}" for n, p in zip(names, parts)) + " }"

    def arm(self, place, field, tail):
        """What an arm of a match now calls the field of a step."""
        arm = self.arms.get(place)
        if not arm:
            return None
        words = [w for w in tail.split(".") if w]
        for new, step, path in sorted(arm[2], key=lambda e: -len(e[2])):
            if norm(step) == norm(field) and path and words[: len(path)] == path:
                return "." + arm[0] + "." + new + "".join("." + w for w in words[len(path) :])
        return None


def convert(folder, info, problems):
    path = os.path.join(folder, "Proof.antt")
    text = open(path, encoding="utf-8").read()
    fn = Fn(info)
    fn.helpers, fn.goal = {}, None
    for b in blocks(text):
        m = re.match(rf"(?:abbrev )?({W}) : (?:\([^)]*\) (?:→ )?)*?\((?:c) : tie\.([\w'-]+)", b[0])
        if m:
            old = m[2].split(" ")[0]
            got = [fn.byname[p] for p in fn.byname if norm(p) == norm(old)]
            if got:
                fn.helpers[m[1]] = got[0]
    fn.clauses, fn.crate, fn.name = CLAUSES, info["module"].split(".")[1], info["module"].split(".")[-1].lstrip("+")
    uses, answers, invariants, helpers, head, above = [], [], [], [], [], []
    for b in blocks(text):
        first = b[0]
        if first.startswith("--"):
            # at the head of the file, or above what it is about
            (above if uses else head).append(b)
            continue
        if first.startswith(("use ", "pub use ")):
            uses.append(first)
            continue
        m = re.match(rf"((?:abbrev |unfoldable )?)(?:pub )?({W}) :( |$)", first)
        if not m:
            helpers.append((None, b))
            continue
        name, body = m[2], "\n".join(b)
        if re.search(r"tie\.close|statement M", body):
            continue
        n = re.match(rf"(?:pub )?{W} : tie\.Need-", first)
        inv = re.match(rf"abbrev (?:pub )?{W} : tie\.(invariant|decreases|InvT|\u03bcT)-?(\S*)", first)
        if n:
            typed = re.match(rf"(?:pub )?{W} : tie\.Need-(\S+)", first)[1]
            key = norm(typed)
            got = fn.needs.get(key) or fn.needs.get(re.sub(r"^overflow-", "", key)) or fn.needs.get(norm(name))
            if not got:
                problems.append(f"{folder}: no goal for {name}")
                continue
            new, place = got.pop(0)
            rest = "\n".join(b[1:]).rstrip()
            eq = re.search(rf"(?m)^{re.escape(name)} (c)( \u03bas)? =(\s)", rest)
            if not eq:
                problems.append(f"{folder}: {name}: odd equation")
                answers.append((new, rest))
                continue
            if rest[eq.end() - 1 :].strip() == "search rules" and "unfolding" not in rest:
                continue
            rest = rest[: eq.start()] + f"{new} c =" + rest[eq.end() - 1 :]
            fn.goal = new
            rest = fn.path(place, rest, problems, f"{folder}: {name}")
            fn.goal = None
            rest = fn.bound(rest)
            asked = {norm(k): v for k, v in info["asked"].items()}
            names = asked.get(key) or asked.get(re.sub(r"^overflow-", "", key)) or asked.get(norm(name))
            if names:
                rest = fn.record(rest, names, problems, f"{folder}: {name}")
            answers.append((new, rest))
        elif inv:
            invariants.append((name, b))
        else:
            if name in fn.helpers:
                old = [p for p in fn.byname if fn.byname[p] == fn.helpers[name]][0]
                text_b = re.sub(r"tie\.[\w'-]+( Inv-\S+| μ-\S+| invariant-\S+| decreases-\S+)*(?=\))", fn.helpers[name], "\n".join(b), count=1)
                b = fn.path(old, text_b, problems, f"{folder}: {name}").split("\n")
            helpers.append((name, [line for c in above for line in c if line] + b))
        above = []
    return fn, uses, answers, invariants, helpers, head


def invariant(fn, name, b, problems, folder):
    """One invariant or measure, over l."""
    text = "\n".join(b[1:])
    m = re.match(rf"(?s)((?:unfolding [^\n]*\n)?){re.escape(name)}((?: [\w'\u2080_]+)*) =(.*)$", text)
    if not m:
        problems.append(f"{folder}: {name}: odd invariant")
        return None
    params, body = m[2].split(), m[3]
    names = {}
    for p in params:
        if p == "_":
            continue
        names[p] = "l.initial." + p[:-1] if p.endswith("\u2080") else "l." + p
    body = re.sub(r"(?<![\w.'\u2080-])([A-Za-z_][\w'\u2080]*)(?![\w'\u2080-])", lambda w: names.get(w[1], w[1]) if not re.match(r"\s=[^=]", body[w.end():]) or w[1] not in names else w[1], body)
    return m[1], body


CLAUSES = {}


def main():
    crate = sys.argv[1]
    CLAUSES.update(clause_names(os.path.join(crate, "..")))
    data = json.load(open(sys.argv[2]))
    problems, done = [], 0
    for key, info in data.items():
        m = re.match(r"Rattle-(\w+)-proofs\.(.*)\.Lts$", key)
        if not m:
            continue
        folder = os.path.join(crate, "proofs", *m[2].split("."))
        if not os.path.exists(os.path.join(folder, "Proof.antt")):
            continue
        info["module"] = f"Rattle.{m[1]}.proofs.{m[2]}"
        fn, uses, answers, invs, helpers, head = convert(folder, info, problems)
        keep = []
        for u in uses:
            if re.search(r"\.(Statement|Tie)(\.| )", u) or u.endswith(".Tie as tie"):
                continue
            if "borrow.Author.Rules.{rules}" in u:
                continue
            keep.append(u)
        head_text = "\n".join("\n".join(b).rstrip() for b in head)
        loops = info["loops"]
        made = {}
        for name, b in invs:
            kind = "decreases" if re.search(r"tie\.(decreases|\u03bcT)", b[0]) else "invariant"
            old = re.search(r"tie\.(?:invariant|decreases|InvT|\u03bcT)-?(\S*)", b[0])[1]
            got = invariant(fn, name, b, problems, folder)
            if got:
                made[name] = (kind, old, got)
        if invs:
            lines = [head_text] + keep + [f"use {info['module']}.Given as goal", ""]
            n_inv = n_dec = 0
            for name, b in invs:
                if name not in made:
                    continue
                kind, old, (unf, body) = made[name]
                which = n_inv if kind == "invariant" else n_dec
                if kind == "invariant":
                    n_inv += 1
                else:
                    n_dec += 1
                loop = loop_name(loops, old, which)
                lines += [f"abbrev pub {kind}-{loop} : goal.{kind}-{loop}", f"{unf}{kind}-{loop} l ={body.rstrip()}", ""]
            open(os.path.join(folder, "Invariants.antt"), "w").write("\n".join(lines).rstrip() + "\n")
        if answers or helpers:
            lines = [head_text] + keep + [f"use Rattle.std.proofs.Common.{{rules}}" if any("rules" in a[1] for a in answers) else None, f"use {info['module']}.Goals as goal", ""]
            if fn.helpers:
                lines.insert(-1, f"use {info['module']}.Goals.{{{', '.join(sorted(set(fn.helpers.values())))}}}")
            for name, b in helpers:
                lines += ["\n".join(b).rstrip(), ""]
            for new, rest in answers:
                lines += [f"pub {new} : goal.{new}", rest, ""]
            open(os.path.join(folder, "Answers.antt"), "w").write("\n".join(l for l in lines if l is not None).rstrip() + "\n")
        os.remove(os.path.join(folder, "Proof.antt"))
        if not os.listdir(folder):
            os.rmdir(folder)
        done += 1
    print(f"{done} walks turned")
    print("\n".join(problems))


def loop_name(loops, old, which):
    for (was, new), _ in loops:
        if norm(was) == norm(old):
            return new
    if which < len(loops):
        return loops[which][0][1]
    return old or "loop"


main()
