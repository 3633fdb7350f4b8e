#!/usr/bin/env python3
"""docs/CONTRACTS.md, crate upstream and upstream's own text, held to one another.

  contracts.py check   says what is wrong, or how much agrees; ends with 1 if anything is wrong
  contracts.py fill    writes the parts of the page that are made from the crate and from its own rows: the index, each
                       function's records, the words of the records

What `check` holds:
- tests/contracts.txt, the fixed list, has every row with its verdict, every function with its call and its records, and
  every row of a loop with its place; the page agrees with it row by row, in its order;
- the quote of a row is the n-th clause of its function in upstream's text (a clause `A ==> B && C` may be two rows,
  `A ==> B` and `A ==> C`), no clause and no definition is missing; and it stands above the field of that name in the
  function's records. Upstream's text is not in the repository: SHARED_DOCS names the folder of the documents,
  ../shared/docs if it is not set. Without it this part is left out, and said so; where CI is set that is an error;
- the call that a function's line names is a heading of docs/REFERENCE.md, and the call that its promise is about; a
  function all of whose rows are left out names none;
- a refusal's number in a row is that of a refusal in the field; `different` says what stands above the field; a clause
  that several functions have is one statement; some words of a verdict (WORDS) say what the field must be;
- a row of a loop names crate, file, record and field, and the field is there; or it says that there is nothing to keep;
- each function's records stand under it as they are in the crate, with promise, implied, meets and met of the crate;
  the index and the words of the records as well;
- the list of what a user does not get names every row that is `different` or `left out`, and no other;
- the table of premises has every word of ours that the records use;
- every must-fail edit that a page of docs names is there, and every wrong build that docs/DIFFERENCES.md names in the
  table of what upstream leaves open has its `accepted_..` and `rejected_..`."""
import functools
import os
import re
import sys

ROOT = os.path.dirname(os.path.dirname(os.path.abspath(__file__)))
PAGE = 'docs/CONTRACTS.md'
SOURCES = {'000': 'ownership.verus.rs.txt', '001': 'guards.verus.rs.txt'}
VERDICTS = ('same', 'stronger', 'refused instead of required', 'different', 'left out')
KINDS = {'r': 'requires', 'e': 'ensures', 'n': 'without a clause', 'i': 'of a loop', 'd': 'of a loop'}
# the constructor of a call in a promise, and the call's name
CALLS = {'try_acquire': 'try_acquire', 'drop_lease': 'drop_lease', 'read_permission': 'read_permission',
         'competing_acquire': 'competing_acquire_is_excluded', 'release_then_handoff': 'release_then_handoff',
         'foreign_release': 'foreign_release_between_attempts', 'drop_preserving': 'drop_preserving_borrows',
         'acquire_preserving': 'acquire_preserving_borrows', 'environment': 'environment', 'try_lock': 'try_lock',
         'transactional': 'transactional_try_lock_bucket', 'acquire_bucket': 'acquire_index_bucket',
         'release_all': 'release_all', 'acquire_locks': 'acquire_index_locks'}
# what a verdict says in these words, the field of `Here` must be: a pattern, or None for the field of `Ensures` itself
WORDS = {'always': None,
         'cell by cell': r'keeps_valid w \(final m\)',
         'needs only the held leases':
             r'(leases_authorized w \(holds_of held\)|protected_valid w \(held_ids \(holds_of held\)\)) → '
             r'(?!.*valid_at w).*',
         'needs only the lease': r'authorized w \(hold_in l\) → [^→]*',
         'its cell only': r'(?!.*\bvalid w\b).*valid_at w \(lease_key \(hold_in l\)\) → .*'}
# words of ours outside file Premises
FURTHER = ['Damage.Damage', 'Damage.DropsDamaged', 'Damage.waited', 'Damage.SetsWaiters',
           'Health.SickAgain', 'Health.Sick', 'Health.SickWithin', 'Health.ReadAgain', 'Health.ReadsPoison']

wrong = []
# a file's path -> a text that is read in its place (tests/contracts-damaged.py)
changed = {}


def complain(text):
    wrong.append(text)


def read(*path):
    path = '/'.join(path)
    if path not in changed:
        with open(os.path.join(ROOT, path), encoding='utf-8') as file:
            return file.read()
    return changed[path]


def code(lines):
    return '\n'.join(line for line in lines if not line.strip().startswith('-- '))


def squeeze(text):
    return re.sub(r'\s', '', text)


def snake(name):
    """the name of a lemma about the record of that name: try_lock of TryLock"""
    return re.sub(r'(?<!^)([A-Z])', r'_\1', name).lower()


# ---- crate upstream

DECLARATION = re.compile(r' *(?:(?:abbrev|unfoldable) )?(?:pub )?(?:(?:record|data) )?([^\s:(]+)(?= [:({]|$)')


class Specs:
    """the declarations of a file: name -> its lines with the comment above; and what a section around it is given"""

    def __init__(self, file, text):
        self.file = file
        self.decls, self.heads, self.order, self.short = {}, {}, [], []
        section = []
        for part in text.split('\n\n'):
            lines = [line for line in part.split('\n') if line]
            if not lines:
                continue
            if not lines[0].startswith(' '):
                section = []
            if re.match(r' *module _ .* where$', lines[0]):
                section = section + [lines.pop(0)]
            if not lines:
                continue
            for line in lines:
                head = DECLARATION.match(line)
                if head and not re.match(r' *(--|use|module|pub mod) ', line):
                    name = head.group(1)
                    if name not in self.decls:
                        self.decls[name], self.heads[name] = lines, section
                        self.order.append(name)
                        if section and line.strip().startswith('abbrev %s :' % name):
                            self.short.append(name)
                    break

    def abbreviations(self, section, text):
        """the abbreviations of the section that the text uses, and those that these use"""
        mine = [name for name in self.short if self.heads[name] == section]
        text = code(text.split('\n'))
        used = set()
        grown = True
        while grown:
            grown = False
            for name in mine:
                if name not in used and re.search(r'(?<![\w-])%s(?![\w-])' % re.escape(name), text):
                    used.add(name)
                    text += code(self.decls[name])
                    grown = True
        return [name for name in mine if name in used]

    def shown(self, names):
        """declarations as they stand, under the sections that they stand in"""
        lines, inside = [], []
        for name in names:
            if self.heads[name] and self.heads[name] != inside:
                inside = self.heads[name]
                lines += inside
                texts = '\n'.join('\n'.join(self.decls[n]) for n in names if self.heads[n] == inside)
                for used in self.abbreviations(inside, texts):
                    if used not in names:
                        lines += self.decls[used] + ['']
            lines += self.decls[name] + ['']
        return lines[:-1]


@functools.lru_cache(maxsize=None)
def parsed(file, text):
    return Specs(file, text)


def places(crate, file):
    """a file of definitions and theorems: it stands in specs/ or proofs/, or has a part in each"""
    paths = ['/'.join(('crates', crate, part, file + '.antt')) for part in ('specs', 'proofs')]
    return [path for path in paths if os.path.isfile(os.path.join(ROOT, path))]


def file_text(crate, file):
    return '\n\n'.join(read(path) for path in places(crate, file))


def specs(crate, file):
    return parsed(file, file_text(crate, file))


@functools.lru_cache(maxsize=None)
def fields(lines):
    """field -> (comments above it, its type on one line) of a record's lines"""
    found, above, name = {}, [], None
    for line in lines:
        text = line.strip()
        field = re.match(r'pub (\w+) : (.*)', text)
        if text.startswith('-- '):
            above.append(text[3:])
        elif field:
            name = field.group(1)
            found[name] = [above, field.group(2)]
            above = []
        elif name and not re.match(r'(pub )?record ', text):
            found[name][1] += ' ' + text
        else:
            above = []
    return found


class Upstream:
    """the contracts of crate upstream: records by function, and who meets them"""

    def __init__(self):
        found = [n for part in ('specs', 'proofs') for n in os.listdir(os.path.join(ROOT, 'crates/upstream', part))]
        names = sorted({n[:-5] for n in found if n.endswith('.antt') and n != 'Lib.antt'})
        self.files = {n: specs('upstream', n) for n in names}
        self.texts = {n: file_text('upstream', n) for n in names}
        self.home = {}
        for file in names:
            if file.startswith('Contract'):
                for name in self.files[file].order:
                    kind = re.match(r'(Requires|Ensures|Contract|Here|Promise)([A-Z].*)', name)
                    if kind:
                        self.home.setdefault(kind.group(2), file)
        # other names of a contract, and each line that says of a build that it keeps a promise or meets a contract, or
        # of arguments that they meet what is required
        aliases = dict(re.findall(r'(?m)^(\w+) \w+ = Contract([A-Z]\w*) ', '\n'.join(self.texts.values())))
        self.said = []
        for file in names:
            signature = r'(?m)^(pub \w+ : (?:\(b : Build\) → )?([A-Z]\w*) .*)$'
            for line, what in re.findall(signature, self.texts[file]):
                about = re.match(r'(?:Contract|Promise|Requires)([A-Z].*)', what)
                if about or what in aliases:
                    self.said.append((about.group(1) if about else aliases[what], file, line))

    def records(self, function):
        names = [kind + function for kind in ('Requires', 'Ensures', 'Here', 'Contract', 'Promise')]
        return [name for name in names if name in self.files[self.home[function]].decls]

    def fields(self, kind, function):
        decls = self.files[self.home[function]].decls
        return fields(tuple(decls.get(kind + function, ())))

    def call(self, function):
        """the call that the promise is about"""
        text = ' '.join(self.files[self.home[function]].decls['Promise' + function])
        return CALLS.get(re.search(r'b w \((\w+)', text).group(1))

    def theorems(self, function):
        """who keeps the promise and meets the contract: ours, as (file, line), and wrong builds, as File.name"""
        mine = [(file, line) for about, file, line in self.said if about == function]
        ours = sorted((x for x in mine if x[0].startswith('Meets') or x[0] == 'AllMet'), key=lambda x: x[0] == 'AllMet')
        return ours, ['%s.%s' % (file, line.split()[1]) for file, line in mine if (file, line) not in ours]


# ---- upstream's text

def bare(text):
    """without comments, and with a mark for a comma between bars"""
    text = re.sub(r'//[^\n]*', '', text)
    return re.sub(r'(forall|exists)\|([^|]*)\|', lambda m: m.group(0).replace(',', '\0'), text)


def split_at(text, cut):
    """parts of the text at `cut` outside all brackets"""
    parts, depth, start, i = [], 0, 0, 0
    while i < len(text):
        depth += {'(': 1, '[': 1, '{': 1, ')': -1, ']': -1, '}': -1}.get(text[i], 0)
        if depth == 0 and text.startswith(cut, i):
            parts.append(text[start:i])
            start = i = i + len(cut)
        else:
            i += 1
    return parts + [text[start:]]


def clauses(text, at):
    """the clauses from `at` on, up to `;`, to the body, or to the next list; and where they end"""
    found, depth, start = [], 0, at
    for i in range(at, len(text)):
        here = text[start:i].strip()
        if depth == 0 and not here and (text[i] == '{' or re.match(r'(ensures|decreases|invariant)\b', text[i:])):
            return found, i
        if depth == 0 and text[i] in ',;':
            if here:
                found.append(here.replace('\0', ','))
            if text[i] == ';':
                return found, i
            start = i + 1
        depth += {'(': 1, '[': 1, '{': 1, ')': -1, ']': -1, '}': -1}.get(text[i], 0)
    return found, len(text)


@functools.lru_cache(maxsize=None)
def source(text):
    """functions in order: name -> {'r': .., 'e': .., 'n': .., 'i': .., 'd': ..}; and the names of definitions"""
    text = bare(text)
    found = {}
    definitions = re.findall(r'pub (?:tracked )?(?:type|enum|struct) (\w+)', text)
    definitions += re.findall(r'pub (?:open|closed) spec fn (\w+)', text)
    heads = list(re.finditer(r'(?<!\w)(?:pub )?((?:spec )?fn (\w+))', text))
    for at, head in enumerate(heads):
        if re.search(r'(open|closed) spec fn', text[max(0, head.start() - 12):head.end()]):
            continue
        whole = text[head.start(1):heads[at + 1].start() if at + 1 < len(heads) else len(text)]
        mine = {k: [] for k in 'rneid'}
        for kind, word in (('r', 'requires'), ('e', 'ensures'), ('i', 'invariant'), ('d', 'decreases')):
            list_at = re.search(r'\b%s\b' % word, whole)
            if list_at:
                mine[kind] = clauses(whole, list_at.end())[0]
        if not mine['r'] and not mine['e']:
            mine['n'] = [whole[:whole.index(';') + 1]]
        found[head.group(2)] = mine
    return found, definitions


def agree(function, kind, want, rows):
    """the quotes of the rows are the clauses, in order, each whole or in its parts behind `==>`"""
    rest = list(rows)
    for place, clause in enumerate(want, 1):
        parts = [clause]
        if rest and squeeze(rest[0]) != squeeze(clause):
            before = split_at(clause, '==>')
            if len(before) == 2:
                parts = [before[0] + '==>' + p for p in split_at(before[1], '&&')]
        for part in parts:
            clause = '%s: clause %d of its %s' % (function, place, KINDS[kind])
            if not rest:
                complain('%s has no row: %s' % (clause, ' '.join(part.split())))
            elif squeeze(rest[0]) != squeeze(part):
                complain('%s is "%s", and the row quotes "%s"' % (clause, ' '.join(part.split()), rest[0]))
            rest = rest[1:]
    for quote in rest:
        complain('%s: upstream has no further %s, and a row quotes "%s"' % (function, KINDS[kind], quote))


# ---- the page

class Row:
    def __init__(self, name, cells):
        self.name, self.cells = name, cells
        self.function, self.place = name.rsplit('.', 1)
        self.kind = self.place[0]
        quote = re.match(r'`(.*?)`', cells[0])
        self.quote = quote.group(1).replace('\\|', '|') if quote else ''
        self.here = cells[1]
        self.verdict = re.sub(r'[ ,]*\(.*', '', self.here)
        self.why = self.here[len(self.verdict):].strip()[1:-1]
        self.last = cells[-1]


def cells_of(line):
    return [c.strip() for c in re.split(r'(?<!\\)\|', line)[1:-1]]


class Page:
    def __init__(self):
        self.lines = read(PAGE).split('\n')
        self.rows, self.definitions, self.unget, self.premises = [], [], [], []
        self.calls = {}
        under = part = ''
        for line in self.lines:
            if line.startswith('## '):
                part = line[3:]
            if line.startswith('### '):
                under = line[4:]
            call = re.search(r' Call: (.*)\.$', line)
            if call:
                self.calls[under] = self.calls.get(under, '') + call.group(1)
            cells = cells_of(line) if line.startswith('| ') else []
            if cells and re.match(r'00[01]\.[a-z_]+\.[renid]\d+$', cells[0]):
                row = Row(cells[0], cells[1:])
                self.rows.append(row)
                if row.function != under:
                    complain('%s: stands under %s' % (row.name, under))
            elif cells and under.startswith('Definitions of ') and cells[0].startswith('`'):
                self.definitions.append((under[-3:], cells[0].strip('`'), cells[2], cells[3]))
            elif cells and part == 'What a user of upstream does not get':
                self.unget += re.findall(r'00[01]\.[a-z_]+\.[ren]\d+', cells[-1])
            elif cells and part == 'Premises':
                self.premises += re.findall(r'`([^`]+)`', cells[0])

    def headings(self):
        return [line[4:] for line in self.lines if line.startswith(('### 000.', '### 001.'))]


def link(function):
    return '[%s](#%s)' % (function, function.replace('.', ''))


def clause_rows(rows):
    return [r for r in rows if r.kind in 'ren']


def tally(rows, of):
    return [(name, sum(1 for r in rows if of(r) == name)) for name in dict.fromkeys(of(r) for r in rows)]


def index(page):
    """each function with its verdicts; of all the clauses too"""
    lines = ['<!-- index -->', '', '| function | here |', '|---|---|']
    order = {v: i for i, v in enumerate(VERDICTS)}
    short = {'refused instead of required': 'refused'}

    def verdicts(rows):
        counts = sorted(tally(clause_rows(rows), lambda r: r.verdict), key=lambda c: order.get(c[0], 9))
        return ', '.join('%d %s' % (n, short.get(v, v)) for v, n in counts)

    def kinds(rows):
        return ', '.join('%d %s' % (n, k) for k, n in tally(rows, lambda r: KINDS[r.kind]))
    for function in page.headings():
        rows = [r for r in page.rows if r.function == function]
        lines.append('| %s | %s |' % (link(function), verdicts(rows)))
    every = sorted(page.rows, key=lambda r: 'renid'.index(r.kind))
    lines.append('| all: %s | %s |' % (kinds(every), verdicts(every)))
    return lines + ['', '<!-- end of index -->']


def block(crate, function):
    """what is proved, the records, and who meets the contract too"""
    file = crate.files[crate.home[function]]
    ours, others = crate.theorems(function)
    homes = ', '.join(dict.fromkeys(home for home, _ in ours))
    lines = ['<!-- records %s -->' % function, '', '```text', '-- proved in %s' % homes]
    lines += [line for _, line in ours] + ['', '-- file %s' % file.file]
    lines += file.shown(crate.records(function)) + ['```', '']
    if others:
        lines += ['Wrong builds that meet it too: %s.' % ', '.join('`%s`' % name for name in others), '']
    return lines + ['<!-- end of records -->']


def words(crate):
    lines = ['<!-- words -->', '', '```text']
    for file in ['Premises', *dict.fromkeys(word.split('.')[0] for word in FURTHER)]:
        names = [word.split('.')[1] for word in FURTHER if word.startswith(file + '.')]
        lines += ['-- file %s' % file, ''] + crate.files[file].shown(names or crate.files[file].order) + ['']
    return lines[:-1] + ['```', '', '<!-- end of words -->']


def made(page, crate):
    """the page with the parts that are made; and those that were not as they are made"""
    out, stale, shown, i = [], [], [], 0
    while i < len(page.lines):
        mark = re.match(r'<!-- (index|words|records (\w+)) -->$', page.lines[i])
        if not mark:
            out.append(page.lines[i])
            i += 1
            continue
        what = mark.group(1).split()[0]
        end = page.lines.index('<!-- end of %s -->' % what, i)
        if what == 'records':
            shown.append(mark.group(2))
            fresh = block(crate, mark.group(2)) if mark.group(2) in crate.home else [page.lines[i]]
        else:
            fresh = index(page) if what == 'index' else words(crate)
        if page.lines[i:end + 1] != fresh:
            stale.append(mark.group(1))
        out += fresh
        i = end + 1
    return out, stale, shown


# ---- the fixed list

class Listed:
    """tests/contracts.txt"""

    def __init__(self):
        self.functions, self.rows, self.definitions = {}, {}, {}
        for line in read('tests', 'contracts.txt').split('\n'):
            if not line or line.startswith('#'):
                continue
            name, said = line.split(' ', 1)
            if re.match(r'00[01]\.[a-z_]+\.[renid]\d+$', name):
                self.rows[name] = said
            elif ': ' in said:
                call, records = said.split(': ')
                self.functions[name] = (call, [] if records == '-' else records.split())
            else:
                self.definitions[name] = said


# ---- what is checked

def check_list(page, listed):
    names = [r.name for r in page.rows]
    for name in names:
        if name not in listed.rows:
            complain('%s: no row of tests/contracts.txt' % name)
        if names.count(name) > 1:
            complain('%s: stands twice' % name)
    for name in listed.rows:
        if name not in names:
            complain('%s: the page has no such row' % name)
    if not wrong and names != list(listed.rows):
        complain('the rows of the page are not in the order of tests/contracts.txt')
    for row in page.rows:
        said = listed.rows.get(row.name)
        if row.kind in 'ren' and said is not None and row.verdict != said:
            complain('%s: the page says %s, tests/contracts.txt %s' % (row.name, row.verdict, said))
        if row.kind in 'ren' and row.verdict not in VERDICTS:
            complain('%s: no verdict: %s' % (row.name, row.here))
        if row.kind in 'ren' and row.verdict != 'same' and not row.why:
            complain('%s: %s says no more' % (row.name, row.here))
    if page.headings() != list(listed.functions):
        complain('the functions of the page are not those of tests/contracts.txt, in its order')
    for doc, name, here, lemma in page.definitions:
        verdict = re.sub(r'[ ,]*\(.*', '', here)
        said = listed.definitions.get(doc + '.' + name)
        if said != verdict + ' ' + lemma:
            complain('%s.%s: the page says %s %s, tests/contracts.txt %s' % (doc, name, verdict, lemma, said))
    if [d + '.' + n for d, n, _, _ in page.definitions] != list(listed.definitions):
        complain('the definitions of the page are not those of tests/contracts.txt, in its order')


def check_calls(page, listed, crate):
    calls = re.findall(r'(?m)^### `([a-z_]+)`', read('docs', 'REFERENCE.md'))
    for function in page.headings():
        want = listed.functions.get(function, ('-', []))[0]
        said = page.calls.get(function, '-')
        if said.replace('`', '') != want:
            complain('%s: its call is %s, and not %s' % (function, said, want))
        for name in re.findall(r'`([a-z_]+)`', said):
            if name not in calls:
                complain('%s: %s is no call of docs/REFERENCE.md' % (function, name))
        rows = [r for r in page.rows if r.function == function and r.kind in 'ren']
        if (said == '-') != all(r.verdict == 'left out' for r in rows):
            complain('%s: its call is %s, and its rows say otherwise' % (function, said))
    for function, (call, records) in listed.functions.items():
        if records and records[0] in crate.home and crate.call(records[0]) != call.split()[-1]:
            complain('%s: its promise is about %s, and its call is %s' % (function, crate.call(records[0]), call))


def refusals():
    table = read('docs', 'REFERENCE.md').split('## 3. Refusals')[1]
    return {int(n): name for n, name in re.findall(r'(?m)^\| (\d+) \| ([A-Z]\w+) \|', table)}


def check_quote(row, above):
    """above the field stands the quote, and `different: ..` where the row is; of a requires, where the field is"""
    quotes = [c for c in above if not c.startswith('different: ')]
    if row.quote not in quotes:
        complain('%s: the row quotes "%s", and above the field stands "%s"' % (row.name, row.quote, ' '.join(quotes)))
    notes = [c[len('different: '):] for c in above if c.startswith('different: ')]
    allowed = [[row.why]] if row.verdict == 'different' else [[]]
    if notes not in allowed + ([[]] if row.kind == 'r' else []):
        complain('%s: the row says "%s", and above the field stands %s' % (row.name, row.here, notes or 'no note'))


def check_numbers(row, field, whole, names):
    """a refusal's number in the row is that of a refusal in the field, or, behind `else`, in the whole record"""
    if row.verdict == 'refused instead of required':
        number = re.match(r'\d+', row.why)
        if not number or not re.search(r'\b%s\b' % names.get(int(number.group(0))), field):
            complain('%s: refused with %s, and its field says %s' % (row.name, row.why, field))
    for number in re.findall(r'else (\d+)', row.why):
        if not re.search(r'\b%s\b' % names.get(int(number)), whole):
            complain('%s: no field of its record answers %s' % (row.name, number))


def check_alike(row, asked, sayings):
    """one clause is one statement in all functions, but where it is different; the key of `store` is its lease's"""
    said = asked.replace('(lease_key (hold_in l))', 'key')
    if row.verdict != 'different' and sayings.setdefault((row.kind, row.quote), said) != said:
        complain('%s: elsewhere its clause is said so: %s' % (row.name, sayings[row.kind, row.quote]))


def check_words(row, asked, field):
    """some words of a verdict say what the field must be"""
    for phrase, form in WORDS.items():
        if row.verdict == 'stronger' and row.why.startswith(phrase):
            if not (squeeze(field) == squeeze(asked) if form is None else re.fullmatch(form, field)):
                complain('%s: "%s", and its field says %s' % (row.name, phrase, field))


def check_fields(page, listed, crate):
    names = refusals()
    quoted, sayings = set(), {}
    for row in page.rows:
        if row.kind not in 'ren' or row.verdict == 'left out':
            continue
        record = next((r for r in listed.functions.get(row.function, ('-', []))[1] if r in crate.home), None)
        asked = {**crate.fields('Requires', record), **crate.fields('Ensures', record)} if record else {}
        here = crate.fields('Here', record) if record else {}
        if row.place not in here or row.kind != 'n' and row.place not in asked:
            complain('%s: no such field in the records of its function' % row.name)
            continue
        field = here[row.place][1]
        if row.kind != 'n':
            quoted.add((record, row.place, row.quote))
            check_quote(row, asked[row.place][0])
            check_alike(row, asked[row.place][1], sayings)
            check_words(row, asked[row.place][1], field)
        check_numbers(row, field, ' '.join(f[1] for f in here.values()), names)
    for record in crate.home:
        for place, (above, _) in [*crate.fields('Requires', record).items(), *crate.fields('Ensures', record).items()]:
            for quote in above if re.match(r'[re]\d+$', place) else []:
                if not quote.startswith('different: ') and (record, place, quote) not in quoted:
                    complain('%s: above field %s stands "%s", and no row quotes it' % (record, place, quote))


def check_source(page):
    """the documents' folder if its text was compared"""
    folder = os.environ.get('SHARED_DOCS') or os.path.join(ROOT, '..', 'shared', 'docs')
    for doc, file in SOURCES.items():
        path = os.path.join(folder, 'src', file)
        if not os.path.isfile(path):
            if os.environ.get('CI'):
                complain('no upstream text: %s is not there, and CI is set' % path)
            return None
        with open(path, encoding='utf-8') as text:
            found, definitions = source(text.read())
        if [doc + '.' + f for f in found] != [f for f in page.headings() if f.startswith(doc)]:
            complain('the functions of the page are not those of document %s, in its order' % doc)
        for function, mine in found.items():
            rows = [r for r in page.rows if r.function == doc + '.' + function]
            for kind, want in mine.items():
                agree(doc + '.' + function, kind, want, [r.quote for r in rows if r.kind == kind])
        if definitions != [n for d, n, _, _ in page.definitions if d == doc]:
            complain('the definitions of the page are not those of document %s, in its order' % doc)
    return folder


def check_loops(page, listed):
    for row in page.rows:
        if row.kind not in 'id':
            continue
        if row.last != listed.rows.get(row.name):
            complain('%s: the page says %s, tests/contracts.txt %s' % (row.name, row.last, listed.rows.get(row.name)))
        if row.last == '-':
            if not row.here.startswith('nothing to keep'):
                complain('%s: no field, and it does not say that there is nothing to keep' % row.name)
            continue
        place = re.match(r'(\w+): (\w+)\.(\w+)\.(\w+)$', row.last)
        crate, file, record, field = place.groups() if place else ('', '', '', '')
        if not places(crate, file):
            complain('%s: no such file: %s' % (row.name, row.last))
        elif field not in fields(tuple(specs(crate, file).decls.get(record, ()))):
            complain('%s: record %s of crate %s, file %s, has no field %s' % (row.name, record, crate, file, field))


def check_made(page, listed, crate):
    _, stale, shown = made(page, crate)
    for what in stale:
        complain('%s: the page is not what the crate says; python3 tests/contracts.py fill' % what)
    for record in crate.home:
        if shown.count(record) != 1:
            complain('records %s: %d blocks on the page' % (record, shown.count(record)))
        proved = [line for _, line in crate.theorems(record)[0]]
        name = snake(record)
        need = ['pub promise_%s : Promise%s perform' % (name, record)]
        if 'Contract' + record in crate.records(record):
            need += ['pub implied_%s : (b : Build) → Promise%s b → Contract%s b' % (name, record, record),
                     'pub meets_%s : Contract%s perform' % (name, record)]
        for line in need:
            if line not in proved:
                complain('records %s: the crate does not say "%s"' % (record, line))
        met = 'pub met_%s : Requires%s ' % (name, record)
        if 'Requires' + record in crate.records(record) and not any(line.startswith(met) for line in proved):
            complain('records %s: no arguments meet what is required, by the name met_%s' % (record, name))
    for record in sorted({r for _, rs in listed.functions.values() for r in rs} ^ set(crate.home)):
        complain('records %s: of no function, or not in the crate' % record)


def check_lists(page, crate):
    lacking = {r.name for r in page.rows if r.verdict in ('different', 'left out')}
    for name in sorted(lacking - set(page.unget)):
        complain('%s: not in the list of what a user does not get' % name)
    for name in sorted(set(page.unget) - lacking):
        complain('%s: in the list of what a user does not get, and it is neither different nor left out' % name)
    ours = set(crate.files['Premises'].order) | {w.split('.')[1] for w in FURTHER}
    texts = [crate.texts[file].split('\n\n', 1)[1] for file in set(crate.home.values())]
    used = set(re.findall(r"[^\s(){};,.]+", '\n'.join(texts))) & ours
    for name in sorted(used - set(page.premises)):
        complain('%s: not in the table of premises' % name)
    for name in sorted(set(page.premises) - ours):
        complain('%s: in the table of premises, and no word of the records' % name)


def check_names(page, crate):
    for path in sorted('docs/' + name for name in os.listdir(os.path.join(ROOT, 'docs')) if name.endswith('.md')):
        for home, label in sorted(set(re.findall(r'`([a-z]+)/([a-z0-9_]+)`', read(path)))):
            edit = os.path.join(ROOT, 'crates', home, 'must-fail', label + '.edit')
            if os.path.isdir(os.path.join(ROOT, 'crates', home)) and not os.path.isfile(edit):
                complain('%s names %s/%s, and there is no such must-fail edit' % (path, home, label))
    for file, name in sorted(set(re.findall(r'`([A-Z]\w+)\.([\w-]+)`', '\n'.join(page.lines)))):
        if file in crate.files and name not in crate.files[file].decls:
            complain('%s.%s: no such declaration' % (file, name))
    for doc, name, here, lemma in page.definitions:
        if lemma != '-' and lemma.split('.')[1] not in crate.files['Vocabulary'].decls:
            complain('%s.%s: %s is not declared' % (doc, name, lemma))
    table = re.search(r"(?ms)^\| upstream.s contract allows .*?\n\n", read('docs', 'DIFFERENCES.md')).group(0)
    builds = [b for line in table.split('\n')[2:] if line for b in re.findall(r'`([a-z_-]+)`', cells_of(line)[-1])]
    for build in builds:
        for fate in ('accepted_', 'rejected_'):
            if not any(fate + build in f.decls for f in crate.files.values()):
                complain('docs/DIFFERENCES.md names %s, and the crate has no %s%s' % (build, fate, build))


def filled():
    """the page with its made parts written anew"""
    crate = Upstream()
    return '\n'.join(made(Page(), crate)[0])


def check():
    """what is wrong, and how much there is"""
    wrong.clear()
    crate, page = Upstream(), Page()
    listed = Listed()
    check_list(page, listed)
    check_calls(page, listed, crate)
    check_fields(page, listed, crate)
    compared = check_source(page)
    check_loops(page, listed)
    check_made(page, listed, crate)
    check_lists(page, crate)
    check_names(page, crate)
    counted = ', '.join('%d %s' % (n, v) for v, n in tally(clause_rows(page.rows), lambda r: r.verdict))
    return list(wrong), '%s: %d rows (%s), %d definitions, %d contracts and promises; %s' % (
        PAGE, len(page.rows), counted, len(page.definitions), len(crate.home),
        'every quote is of upstream\'s text' if compared else 'no upstream text, so no quote is compared with it')


def main(args):
    if args == ['fill']:
        text = filled()
        with open(os.path.join(ROOT, PAGE), 'w', encoding='utf-8') as file:
            file.write(text)
        return 0
    if args != ['check']:
        sys.exit(__doc__)
    said, summary = check()
    print('\n'.join(said) if said else summary)
    return 1 if said else 0


if __name__ == '__main__':
    sys.exit(main(sys.argv[1:]))
