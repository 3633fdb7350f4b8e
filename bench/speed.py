"""What bench/speed.sh measures, and what it makes of it: the tables and the picture of docs/SPEED.md.

bench/speed.sh runs it from the top folder of the repository, with its own word and behind that the command that runs an
x86-64 program under the emulator.
"""

import os
import re
import subprocess
import sys
import tempfile
from html import escape

PAGE = "docs/SPEED.md"
PICTURE = "docs/speed.svg"
OUT = "target/speed"
PROGRAM = "target/rust/x86_64-unknown-linux-gnu/release/speed"
REPORTS = {"proved": "crates/report/out/report", "plain": "target/rust/x86_64-unknown-linux-gnu/release/report"}
SIDES = ("proved", "plain")

# The person's own bar, and how much a row may be above the page's figure.
BAR = 2.0
SLACK = 1.10

# What a row is called, its case of rust/speed, and its size.
ROWS = [
    ("`acquire_index_bucket` of a held cell, no script: 4,096 attempts (L9)", "refusal", 0),
    ("`crew` of 16 members, 256 cells, 65,536 turns (L9)", "crew", 65536),
    ("`crew_at_work` of the same crew", "crew_at_work", 65536),
    ("`acquire_index_bucket` of a held cell, a script of 32,768 steps", "refusal", 32768),
    ("`try_lock` of a free cell", "try_lock", 0),
    ("`transactional_try_lock_bucket` of a free key", "transactional", 0),
    ("`acquire_index_bucket` of a free key", "bucket", 0),
    ("`drop_lease`", "drop_lease", 0),
    ("`drop_preserving_borrows`, none held", "drop_preserving", 0),
    ("`drop_preserving_borrows`, 1 held", "drop_preserving", 1),
    ("`drop_preserving_borrows`, 64 held", "drop_preserving", 64),
    ("`environment`, one step that sets waiters", "waiters", 0),
    ("`environment`, one release, none held", "release", 0),
    ("`environment`, one release, 1 held", "release", 1),
    ("`environment`, one release, 64 held", "release", 64),
    ("`environment`, 32,768 takes and releases, none held", "releases", 0),
    ("`environment`, 32,768 takes and releases, 1 held", "releases", 1),
    ("`environment`, 32,768 takes and releases, 64 held", "releases", 64),
    ("`acquire_index_locks` of 16 free keys", "locks", 16),
    ("`acquire_index_locks` of 64 free keys", "locks", 64),
    ("`acquire_sorted_locks` of 16 free keys, falling", "sorted", 16),
    ("`acquire_sorted_locks` of 64 free keys, falling", "sorted", 64),
    ("`release_all` of 16 leases", "release_all", 16),
    ("`release_all` of 64 leases", "release_all", 64),
    ("`prepare` of 4,096 cells", "prepare", 4096),
    ("`salvage` of 4,096 cells, nothing to mend", "salvage_sound", 4096),
    ("`salvage` of 4,096 cells, a word in twelve to mend", "salvage_dipped", 4096),
    ("`salvage` of 4,096 cells, all to mend", "salvage_broken", 4096),
    ("`write_speed`, full book of 64 slots, nothing slides", "write", 64),
    ("`write_speed`, full book of 64 slots, 255 bodies slide", "slide", 64),
    ("`read_version`, full book of 64 slots", "read", 64),
    ("`write_dump` of 94 cells, 32,768 changes", "write_dump", 32768),
    ("`read_dump` of that dump", "read_dump", 32768),
    ("`report` of 1,000 lines", "report", 1000),
]

# How cost grows: a panel of the picture, by what its lines grow, and of each line a name, a case, and the sizes.
CELLS = (1, 16, 256, 1024, 4096)
FEW = (1, 16, 32, 48, 64)
MANY = (0, 8192, 16384, 24576, 32768)
TURNS = (16384, 32768, 49152, 65536)
GROWTH = [
    ("cell", [("prepare", "prepare", CELLS)]),
    ("cell", [("salvage, all to mend", "salvage_broken", CELLS), ("salvage, nothing to mend", "salvage_sound", CELLS)]),
    ("lease", [("environment of one release, leases held", "release", (0,) + FEW),
               ("drop_preserving_borrows, leases held", "drop_preserving", (0,) + FEW)]),
    ("key", [("acquire_sorted_locks, falling", "sorted", FEW), ("acquire_index_locks", "locks", FEW),
             ("release_all", "release_all", FEW)]),
    ("step", [("acquire_index_bucket, held cell", "refusal", MANY), ("environment", "steps", MANY)]),
    # after 12,288 turns all members have finished
    ("turn", [("crew_at_work", "crew_at_work", TURNS), ("crew", "crew", TURNS)]),
    ("slot", [("write_speed, all slide", "slide", FEW), ("write_speed", "write", FEW), ("read_version", "read", FEW)]),
    ("step", [("read_dump", "read_dump", MANY), ("write_dump", "write_dump", MANY)]),
]

# A point that is so far from the line through the first and the last one, in parts of the last, lies beside it.
STRAIGHT = 0.03


def fail(text):
    sys.exit(f"speed: {text}")


# ---- measuring

class Counter:
    def __init__(self, emulate):
        self.emulate = emulate

    def run(self, words, lent=b""):
        """The instructions of a program from start to end, and what it prints. The processor has no more than every
        x86-64 machine has, so that the C library's functions are the same ones everywhere. For both programs of the
        report it is one of the second level of x86-64, which the proved one asks for."""
        cpu = "Nehalem-v1" if words[0] in REPORTS.values() else "qemu64"
        command = self.emulate + ["-cpu", cpu, "-plugin", f"{OUT}/insn.so"] + words
        with open(f"{OUT}/input", "wb") as file:
            file.write(lent)
        with open(f"{OUT}/input", "rb") as file:
            done = subprocess.run(command, stdin=file, capture_output=True)
        found = re.fullmatch(rb"insns (\d+)\n", done.stderr)
        if done.returncode or not found:
            fail(f"{' '.join(words)} ended {done.returncode}: {done.stderr.decode(errors='replace')}")
        return int(found[1]), done.stdout.decode()

    def said(self, side, case, size):
        if case == "report":
            return " ".join(self.run([REPORTS[side]], trials(size))[1].split("\n")).strip()
        return self.run([PROGRAM, "say", side, case, str(size)])[1].strip()

    def counted(self, side, case, size):
        if case == "report":
            return self.run([REPORTS[side]], trials(size))[0] - self.run([REPORTS[side]])[0]
        words = [PROGRAM, "count", side, case, str(size), "1"]
        return self.run(words + ["call"])[0] - self.run(words + ["none"])[0]


def trials(count):
    """The report's input: attempts of one to six digits, every refusal."""
    return "".join(f"{7 ** (n % 7) + n} {n % 17}\n" for n in range(count)).encode()


def timed(case, size):
    """Nanoseconds of both sides, on x86-64; the report is a program, whose start would be all that is seen."""
    if os.uname().machine != "x86_64" or case == "report":
        return None
    done = subprocess.run([PROGRAM, "time", case, str(size)], capture_output=True, text=True)
    if done.returncode:
        fail(f"speed time {case} {size} ended {done.returncode}")
    return [float(word) for word in done.stdout.split()]


def counts(counter, case, size):
    """What both sides answer: their counts; else it ends here."""
    proved, plain = (counter.said(side, case, size) for side in SIDES)
    if proved != plain:
        fail(f"{case} {size}: the two sides answer differently\n  proved: {proved}\n  plain:  {plain}")
    # without the sum over all words, and without the report's lines behind the fourth
    return re.sub(r" \[[0-9a-f]*\]$| 1 BadShape .*", "", proved)


# ---- the table of cases

HEAD = "| call | counts of both | proved, instructions | plain | ratio |"


def figure(number):
    return f"{number:.1f}" if number < 1000 else f"{number:.0f}"


def row(counter, label, case, size, time):
    said = counts(counter, case, size)
    proved, plain = (counter.counted(side, case, size) for side in SIDES)
    cells = [label, said, proved, plain, f"{proved / plain:.2f}"]
    if time:
        times = timed(case, size)
        cells += [figure(times[0]), figure(times[1]), f"{times[0] / times[1]:.2f}"] if times else ["", "", ""]
    return "| " + " | ".join(str(cell) for cell in cells) + " |"


def table(counter, time):
    """The lines of the table, as they come."""
    yield HEAD + (" proved, ns | plain | ratio |" if time else "")
    yield "|---|---|---|---|---|" + ("---|---|---|" if time else "")
    for label, case, size in ROWS:
        yield row(counter, label, case, size, time)


def rows_of(text):
    """The rows of such a table: call, counts, instructions of both."""
    rows = (line.strip("| ").split(" | ") for line in text.split("\n") if line.startswith("| ") and not line.startswith("| call"))
    return [(cells[0], cells[1], int(cells[2]), int(cells[3])) for cells in rows]


def judged(page, found):
    """What is wrong with what was found, by the bar and by the page."""
    wrong = []
    if [row[:2] for row in page] != [row[:2] for row in found]:
        wrong.append("the page has other rows or counts")
    for (label, _, proved, plain), (_, _, said, _) in zip(found, page):
        if proved > BAR * plain:
            wrong.append(f"{label}: {proved / plain:.2f} of plain Rust's instructions; the bar is {BAR}")
        if proved > SLACK * said:
            wrong.append(f"{label}: {proved} instructions, the page says {said}")
    return wrong


# ---- how cost grows

class Line:
    """Points, and the straight line through the first and the last."""

    def __init__(self, counter, name, by, case, sizes):
        self.name, self.by = name, by
        self.points = [(size, counter.counted("proved", case, size)) for size in sizes]
        (x, y), (last_x, last_y) = self.points[0], self.points[-1]
        self.slope = (last_y - y) / (last_x - x)
        self.start = y - self.slope * x
        self.beside = max((abs(y - self.at(x)) / last_y, x) for x, y in self.points)

    def at(self, x):
        return self.start + self.slope * x

    def formula(self):
        slope = f"{self.slope:.3g}" if self.slope < 1000 else f"{self.slope:.0f}"
        return f"{self.start:.0f} a call, {slope} a {self.by}"

    def row(self):
        call, what = re.fullmatch(r"(\w+)(.*)", self.name).groups()
        found = ", ".join(f"{x}: {y}" for x, y in self.points)
        off, x = self.beside
        straight = "yes" if off <= STRAIGHT else f"no: at {x} the point lies {100 * off:.0f} % beside it"
        return f"| `{call}`{what} | {found} | {self.formula()} | {straight} |"


def panels(counter):
    return [(by, [Line(counter, name, by, case, sizes) for name, case, sizes in lines]) for by, lines in GROWTH]


def growth(drawn):
    yield "| call | instructions by size | the line through the first and the last | straight |"
    yield "|---|---|---|---|"
    for _, lines in drawn:
        for line in lines:
            yield line.row()


# ---- the picture

WIDE, HIGH = 440, 300
LEFT, TOP, RIGHT, BOTTOM = 76, 78, 26, 44
COLOURS = ("#1f5fa8", "#b04a12", "#2b7a3d")


def top_of(number):
    """A round number that is not below it."""
    power = 10 ** (len(str(int(number))) - 1)
    return next(step * power for step in (1, 1.2, 1.6, 2, 3, 4, 5, 6, 8, 10) if step * power >= number)


def text(x, y, said, **more):
    extra = "".join(f' {name.replace("_", "-")}="{value}"' for name, value in more.items())
    return f'<text x="{x:.1f}" y="{y:.1f}"{extra}>{escape(said)}</text>'


def panel(by, lines, left, top):
    most_x = max(x for line in lines for x, _ in line.points)
    most_y = top_of(max(y for line in lines for _, y in line.points))
    wide, high = WIDE - LEFT - RIGHT, HIGH - TOP - BOTTOM
    across = lambda x: left + LEFT + wide * x / most_x
    up = lambda y: top + TOP + high * (1 - y / most_y)
    yield f'<path d="M{across(0):.1f} {up(most_y):.1f}V{up(0):.1f}H{across(most_x):.1f}" fill="none" stroke="#555"/>'
    for part in (0, 0.5, 1):
        x, y = across(part * most_x), up(part * most_y)
        yield f'<path d="M{across(0):.1f} {y:.1f}H{across(most_x):.1f}" stroke="#ddd"/>'
        yield text(across(0) - 6, y + 4, f"{part * most_y:,.0f}", text_anchor="end")
        yield text(x, up(0) + 16, f"{part * most_x:,.0f}", text_anchor="middle")
    yield text(across(most_x / 2), up(0) + 34, f"{by}s", text_anchor="middle")
    yield text(left + 8, top + TOP - 8, "instructions")
    for number, (line, colour) in enumerate(zip(lines, COLOURS)):
        start, end = line.points[0][0], line.points[-1][0]
        yield f'<path d="M{across(start):.1f} {up(line.at(start)):.1f}L{across(end):.1f} {up(line.at(end)):.1f}" stroke="{colour}"/>'
        for x, y in line.points:
            yield f'<circle cx="{across(x):.1f}" cy="{up(y):.1f}" r="3" fill="{colour}"/>'
        yield text(left + LEFT, top + 16 + 16 * number, f"{line.name}: {line.formula()}", fill=colour)


def picture(drawn):
    rows = (len(drawn) + 1) // 2
    yield f'<svg xmlns="http://www.w3.org/2000/svg" viewBox="0 0 {2 * WIDE} {rows * HIGH}" font-family="sans-serif" font-size="12">'
    yield "<title>Instructions of a call by its size, and the straight line through the first and the last point</title>"
    yield f'<rect width="{2 * WIDE}" height="{rows * HIGH}" fill="#fff"/>'
    for place, (by, lines) in enumerate(drawn):
        yield from panel(by, lines, place % 2 * WIDE, place // 2 * HIGH)
    yield "</svg>"


# ---- the page

def marks(name):
    return f"<!-- {name}: begin -->\n", f"<!-- {name}: end -->\n"


def listed(page, name):
    """What stands between the marks."""
    begin, end = marks(name)
    if page.count(begin) != 1 or page.count(end) != 1:
        fail(f"{PAGE} has not one pair of marks for {name}")
    return page[page.index(begin) + len(begin):page.index(end)]


def replaced(page, name, new):
    begin, end = marks(name)
    return page[:page.index(begin) + len(begin)] + new + page[page.index(end):]


def made_on():
    """When and with what it was measured."""
    def version(*command):
        return subprocess.run(command, capture_output=True, text=True).stdout.split("\n")[0]
    date, machine = version("date", "-u", "+%Y-%m-%d"), os.uname().machine
    return f"\nMeasured {date}, {machine}, {version('rustc', '--version')}, {version('rt', 'version')}.\n"


def measure(counter, write):
    rows = []
    for line in table(counter, True):
        rows.append(line)
        print(line, flush=True)
    print()
    drawn = panels(counter)
    grown = list(growth(drawn))
    print("\n".join(grown))
    if not write:
        return
    page = open(PAGE).read()
    page = replaced(page, "cases", "\n".join(rows) + "\n" + made_on())
    page = replaced(page, "growth", "\n".join(grown) + "\n")
    open(PAGE, "w").write(page)
    open(PICTURE, "w").write("\n".join(picture(drawn)) + "\n")


def quick(counter):
    """The gate: counts and instructions alone, judged by the page; and a try whether that can fail."""
    found = rows_of("\n".join(table(counter, False)))
    page = listed(open(PAGE).read(), "cases")
    try_itself(page, rows_of(page))
    wrong = judged(rows_of(page), found)
    for said in wrong:
        print(f"speed: {said}", file=sys.stderr)
    if wrong:
        fail(f"{len(wrong)} rows fail; where only {PAGE} is old, bash bench/speed.sh --write measures it anew")
    greatest = max((proved / plain, label) for label, _, proved, plain in found)
    print(f"speed: {len(found)} rows with equal counts, none dearer than the page says, none above {BAR}; "
          f"greatest {greatest[0]:.2f}, {greatest[1]}")


def try_itself(page, rows):
    """A copy of the page with a smaller figure, with another count or without a row is refused; and so is a row above the
    bar."""
    if not rows:
        fail(f"{PAGE} has no rows")
    label, said, proved, _ = rows[0]
    smaller = int(proved / SLACK) - 1
    damages = [(f"| {proved} |", f"| {smaller} |"), (said, "refused 11"), (page.split("\n")[2] + "\n", "")]
    usual = judged(rows, rows)
    for old, new in damages:
        with tempfile.NamedTemporaryFile("w+") as copy:
            copy.write(page.replace(old, new, 1))
            copy.seek(0)
            if len(judged(rows_of(copy.read()), rows)) <= len(usual):
                fail(f"a page with {new!r} for {old!r} is taken")
    if not judged(rows[:1], [(label, said, proved, proved // 3)]):
        fail("a row above the bar is taken")


def main(how, emulate):
    counter = Counter(emulate)
    if how == "--quick":
        quick(counter)
    else:
        measure(counter, how == "--write")


if __name__ == "__main__":
    main(sys.argv[1], sys.argv[2:])
