#!/usr/bin/env python3
"""The test of tests/contracts.py: page, crates, list or surroundings are damaged in one way after the other, in memory,
and each time the test must refuse it and say why. Damages that only upstream's text shows are left out where that text
is not there, and said so. Prints how many were refused; ends with 1 if one was not, or was for another reason."""
import os
import re
import sys

import contracts

PAGE, LIST = contracts.PAGE, 'tests/contracts.txt'
# records stand in specs/, theorems in proofs/
LOCK, CELLS, BORROWS = (contracts.places('upstream', file)[0] for file in ('ContractLock', 'ContractCells', 'ContractBorrows'))
MEETS, MET = (contracts.places('upstream', file)[-1] for file in ('MeetsLock', 'AllMet'))
RETRYING = contracts.places('bucket', 'Laws')[0]

# files, how, what is replaced (a pattern), by what, and what the test must say. `fill`: the made parts of the page are
# written anew before the test, so that nothing is refused for being out of date. `text`: so too, and only upstream's
# text shows it
DAMAGES = [
    # a verdict changed, a row left out
    (PAGE, 'fill', r'(\| 000\.try_lock\.e2 \|.*\|) stronger \(', r'\1 same (',
     '000.try_lock.e2: the page says same, tests/contracts.txt stronger'),
    (PAGE, 'fill', r'(\| 000\.try_lock\.e2 \|.*\|) stronger .*', r'\1 left out (not asked for) |',
     '000.try_lock.e2: the page says left out'),
    (PAGE, 'fill', r'\| 000\.drop_lease\.e5 .*\n', '', '000.drop_lease.e5: the page has no such row'),
    (PAGE, 'fill', r'\| 000\.release_all\.i9 .*\n', '', '000.release_all.i9: the page has no such row'),
    (PAGE + ' ' + LIST, 'text', r'(\| )?000\.drop_lease\.e5 .*\n', '',
     '000.drop_lease: clause 5 of its ensures has no row'),
    (PAGE, 'fill', r'\| `valid` \|(.*)\| same \|', r'| `valid` |\1| different (weaker) |',
     '000.valid: the page says different'),
    # a quote changed: of the row, above the field, of both, to another clause of the function
    (PAGE, 'fill', r'(\| 000\.try_acquire\.e7 \|.*)bit == 1', r'\1bit == 2', '000.try_acquire.e7: the row quotes'),
    (LOCK, 'fill', r'-- result\.is_some\(\) ==> lease_key.*', '-- result.is_some() ==> true',
     '000.try_lock.e4: the row quotes'),
    (PAGE + ' ' + CELLS, 'text', r'\[key\]\.bit == 1 ==> result\.is_none\(\)', '[key].bit == 2 ==> result.is_none()',
     '000.try_acquire: clause 5 of its ensures is'),
    (PAGE + ' ' + CELLS, 'text', r'result\.is_some\(\) ==> cells\(old\(authority\)\)\[key\]\.bit == 0',
     'result.is_some() ==> valid(final(authority))',
     '000.try_acquire: clause 6 of its ensures is'),
    (BORROWS, 'fill', r'-- different: at most 64 held leases, else 3\n',
     '-- different: at most 65 held leases, else 3\n',
     '000.drop_preserving_borrows.e5: the row says'),
    # a part that is made changed: a block, the index, the words; a record changed in the crate
    (PAGE, 'as it is', r'pub e3 : dom \(final m\) ≡ dom w', 'pub e3 : dom w ≡ dom w',
     'records TryLock: the page is not what the crate says'),
    (LOCK, 'as it is', r'pub r1 : valid w', 'pub r1 : Fits w',
     'records TryLock: the page is not what the crate says'),
    (PAGE, 'as it is', r'(\| \[000\.try_lock\].*)5 stronger', r'\g<1>5 same',
     'index: the page is not what the crate says'),
    (PAGE, 'as it is', r'(\nFits w = .*)true', r'\1false', 'words: the page is not what the crate says'),
    (PAGE, 'as it is', r'(?s)<!-- records TryLock -->.*?<!-- end of records -->', '',
     'records TryLock: 0 blocks on the page'),
    # a theorem missing
    (MEETS, 'fill', r'pub meets_try_lock : ContractTryLock perform',
     'pub meets_try_lock : ContractGuardsTryLock perform',
     'records TryLock: the crate does not say "pub meets_try_lock'),
    (MEETS, 'fill', r'(pub implied_try_lock : .*) → Contract', r'\1 → Promise',
     'records TryLock: the crate does not say "pub implied_try_lock'),
    (MET, 'fill', r'pub met_try_lock : RequiresTryLock',
     'pub met_try_lock : EnsuresTryLock',
     'records TryLock: no arguments meet what is required'),
    # a call swapped, or named where all is left out: on the page, on page and list, in the promise
    (PAGE, 'fill', r'(### 000\.try_lock\n\n.* Call: )`try_lock`', r'\1`drop_lease`',
     '000.try_lock: its call is `drop_lease`'),
    (PAGE, 'fill', r'(### 000\.spin_loop\n\n.*)', r'\1 Call: `try_lock`.', '000.spin_loop: its call is `try_lock`'),
    (PAGE, 'fill', r'(### 000\.try_lock\n\n.*) Call: .*', r'\1', '000.try_lock: its call is -'),
    (PAGE + ' ' + LIST, 'fill', r'(000\.read_permission(?:\n\n.* Call:)?) `?read_permission`?(\.\n|:)',
     r'\1 drop_lease\2',
     '000.read_permission: its promise is about read_permission'),
    (CELLS, 'fill', r'(PromiseReadPermission b = .*)\(read_permission l\)', r'\1(drop_lease l)',
     '000.read_permission: its promise is about drop_lease'),
    # a field weakened, and the page with it; a row's words that its field does not say
    (BORROWS, 'fill', r'(EnsuresEnvironmentForBorrows \(m(?:.*\n)*?.*pub e3 : ).*', r'\1Unit {0}',
     '000.environment_for_borrows.e3: elsewhere its clause is said so'),
    (PAGE, 'fill', r'(\| 000\.drop_lease\.r2 \|.*)\(12\)', r'\1(13)', '000.drop_lease.r2: refused with 13'),
    (PAGE, 'fill', r'(\| 000\.try_lock\.e2 \|.*)\(needs only the held leases\)',
     r'\1(always)',
     '000.try_lock.e2: "always'),
    (PAGE, 'fill', r'(\| 000\.drop_lease\.e4 \|.*)\(always\)', r'\1(its cell only)',
     '000.drop_lease.e4: "its cell only'),
    # a loop's field renamed: in the row, in row and list, in the crate
    (PAGE, 'fill', r'(\| 001\.acquire_index_locks\.i2 \|.*)as_many', r'\1as_few',
     '001.acquire_index_locks.i2: the page says'),
    (PAGE + ' ' + LIST, 'fill', r'(001\.acquire_index_locks\.i2 .*)as_many', r'\1as_few',
     '001.acquire_index_locks.i2: record Matches of crate upstream, file Guards, has no field as_few'),
    (RETRYING, 'fill', r'pub few : i ≤ 4096', 'pub fewer : i ≤ 4096',
     '000.acquire_index_bucket.i1: record Retrying of crate bucket, file Laws, has no field few'),
    # names that are not there
    ('docs/DIFFERENCES.md', 'fill', r'`never_locks`', '`never_unlocks`', 'docs/DIFFERENCES.md names never_unlocks'),
    (PAGE, 'fill', r'`Every\.every_environment`', '`Every.any_environment`',
     'Every.any_environment: no such declaration'),
    (PAGE, 'fill', r'# Upstream\'s contracts\n', "# Upstream's contracts\n\n`model/never_there`\n",
     'docs/CONTRACTS.md names model/never_there'),
    # a list of the page with a hole
    (PAGE, 'fill', r'(\| Bit 0 is granted.*)000\.try_acquire\.e10, ', r'\1',
     '000.try_acquire.e10: not in the list of what a user does not get'),
    (PAGE, 'fill', r'\n\| `Fits` \|.*', '', 'Fits: not in the table of premises'),
]


def refused(name, complaint):
    said, _ = contracts.check()
    if not said:
        sys.exit('not refused: ' + name)
    if not any(line.startswith(complaint) for line in said):
        sys.exit('refused for another reason: %s\n%s' % (name, '\n'.join(said)))


def damage(files, how, old, new, complaint):
    for path in files.split():
        before = contracts.read(path)
        contracts.changed[path] = re.sub(old, new, before)
        if contracts.changed[path] == before:
            sys.exit('%s: there is no %s' % (path, old))
    if how != 'as it is':
        contracts.changed[PAGE] = contracts.filled()
    refused('%s in %s' % (old, files), complaint)
    contracts.changed.clear()


def main():
    given = os.environ.pop('CI', None)
    said, summary = contracts.check()
    if said:
        sys.exit('undamaged, and refused:\n' + '\n'.join(said))
    with_text = 'every quote' in summary
    if given and not with_text:
        sys.exit('no upstream text, and CI is set')
    tried = [d for d in DAMAGES if with_text or d[1] != 'text']
    for d in tried:
        damage(*d)
    os.environ.update(CI='1', SHARED_DOCS=os.path.join(contracts.ROOT, 'tests'))
    refused('no upstream text, and CI is set', 'no upstream text')
    left = len(DAMAGES) - len(tried)
    rest = '; %d that only upstream\'s text shows are left out' % left if left else ''
    print('contracts: %d damages, each refused%s' % (len(tried) + 1, rest))


main()
