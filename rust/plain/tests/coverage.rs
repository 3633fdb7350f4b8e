//! The random histories reach every call, and with every call each answer that it can give; the reasons of a Busy, also
//! where they change between attempts; the two readings of health in all their cases; keys in any order and doubles;
//! boot numbers, used and used again, and stale leases at all places of all lists; the book's damages, its room and what
//! it keeps, and its faults two at a time; the counters of a crew at work; what a salvage finds and what room it has, and
//! the leases from before it; and echo, map and trace in all theirs.

use console::desk::Desk;
use console::histories;
use console::line::{number, Line};
use console::show::Look;
use plain::book::{self, BookRefusal};
use plain::rules::{self, Answer, Lease};
use plain::salvage::{salvage, Salvaged};
use plain::Plain;
use std::collections::{BTreeMap, BTreeSet};
use std::sync::OnceLock;

const CALLS: usize = 10_000;

/// What each call can answer: a Busy by its reason, a setpoint by its kind, the refusals by number, in the order of
/// document 01's table, and 11 with its reason, or by name, where they have no number.
const ANSWERS: [(&str, &str); 25] = [
    ("prepare", "done 1"),
    ("try_acquire", "granted held 1 8 9 10"),
    ("drop_lease", "done 1 12 16"),
    ("read_permission", "cell 1 12 16"),
    ("competing_acquire_is_excluded", "held 1 12 16"),
    ("release_then_handoff", "granted 1 10 12 16"),
    (
        "foreign_release_between_attempts",
        "granted 1 3 10 12 13 16",
    ),
    ("acquire_preserving_borrows", "granted held 1 3 8 9 10 16"),
    ("drop_preserving_borrows", "done 1 3 12 13 16"),
    ("environment", "done 1 2 3 16"),
    ("environment_for_borrows", "done 1 2 3 16"),
    ("try_lock", "granted held before after 1 2 3 7 8 9 10 16"),
    (
        "other_mutex_preserves_leases",
        "granted held before after 1 2 3 7 8 9 10 16",
    ),
    (
        "transactional_try_lock_bucket",
        "granted held before after 1 2 3 5 6 7 8 9 10 16",
    ),
    (
        "acquire_index_bucket",
        "granted 1 2 3 5 6 7 8 9 10 11held 11before 11after 16",
    ),
    ("release_all", "done 1 2 4 12 14 16"),
    (
        "acquire_index_locks",
        "granted 1 2 3 4 5 6 7 8 9 10 11held 11before 11after 16",
    ),
    (
        "acquire_sorted_locks",
        "granted 1 2 3 4 5 6 7 8 9 10 11held 11before 11after 16",
    ),
    ("crew", "crew 1 15"),
    ("crew_at_work", "crew 1 15"),
    ("salvage", "done 1 ReportFull"),
    ("prepare_book", "done 1 BadSlot"),
    (
        "write_setpoint",
        "done 1 BadSlot 16 12 NotFinite DamagedBook VersionsSpent BookFull",
    ),
    (
        "read_setpoint",
        "pressure speed valve 1 BadSlot DamagedBook NeverWritten",
    ),
    (
        "read_version",
        "pressure speed valve 1 BadSlot DamagedBook NeverWritten",
    ),
];

/// A history, made anew.
fn fresh_history(seed: usize) -> Vec<u8> {
    let mut text = Vec::new();
    histories::write(seed as u64, CALLS, Plain, &mut text).expect("a vector takes every byte");
    text
}

/// The history of one of the seeds 1 to 6, made once for all tests.
fn history(seed: usize) -> &'static [u8] {
    static HISTORIES: [OnceLock<Vec<u8>>; 7] = [const { OnceLock::new() }; 7];
    HISTORIES[seed].get_or_init(|| fresh_history(seed))
}

/// A word of a line.
fn word(line: &str, at: usize) -> &str {
    line.split([' ', '\n']).nth(at).unwrap_or("")
}

/// What a call answered, as `ANSWERS` has it.
fn answer_of(out: &str) -> String {
    match (word(out, 0), word(out, 1)) {
        ("refused", "11") => format!("11{}", word(out, 4)),
        ("refused" | "busy" | "setpoint", answer) => answer.to_string(),
        (answer, _) => answer.to_string(),
    }
}

#[test]
fn every_answer_of_every_call() {
    let mut seen: BTreeMap<String, BTreeSet<String>> = BTreeMap::new();
    let mut calls = 0;
    let mut failures = 0;
    let mut not_understood = 0;
    for seed in [1, 2] {
        let text = history(seed);
        let mut console = Desk::new();
        let mut own_calls = 0;
        for line in text.split(|&byte| byte == b'\n') {
            let mut out = Vec::new();
            match console
                .line(&mut Plain, line, &mut out)
                .expect("a vector takes every byte")
            {
                Line::NotUnderstood => not_understood += 1,
                Line::Call(_) => {
                    let line = String::from_utf8_lossy(line).into_owned();
                    let out = String::from_utf8_lossy(&out).into_owned();
                    own_calls += 1;
                    failures += usize::from(out.starts_with("refused 11 "));
                    let call = word(&line, 0).to_string();
                    seen.entry(call).or_default().insert(answer_of(&out));
                }
                Line::Command | Line::Look(_) | Line::Skipped => {}
            }
        }
        assert!(own_calls >= CALLS);
        calls += own_calls;
    }
    for (call, answers) in ANSWERS {
        let expected: BTreeSet<String> = answers.split(' ').map(String::from).collect();
        assert_eq!(seen.get(call), Some(&expected), "{call}");
    }
    assert_eq!(seen.len(), ANSWERS.len());
    assert!(not_understood > CALLS / 100);
    // calls with 4,096 attempts are dear: at most one in forty
    assert!(failures * 40 <= calls, "{failures} of {calls}");
}

/// The case files of bench/ show each answer of each call too: their .out files have each line behind `> `, and what it
/// printed below it. The script that brings 11 with the reason `after` is too long for them: tests/bad-input.sh has it.
#[test]
fn every_answer_in_a_case_file() {
    let folder = concat!(env!("CARGO_MANIFEST_DIR"), "/../../bench");
    let mut shown = BTreeSet::new();
    for entry in std::fs::read_dir(folder).expect("the case files") {
        let path = entry.expect("a case file").path();
        if path.extension().is_none_or(|end| end != "out") {
            continue;
        }
        let bytes = std::fs::read(path).expect("a case file");
        let text = String::from_utf8_lossy(&bytes).into_owned();
        for played in text.split("\n> ") {
            if let Some((line, out)) = played.split_once('\n') {
                shown.insert((word(line, 0).to_string(), answer_of(out)));
            }
        }
    }
    for (call, answers) in ANSWERS {
        for answer in answers.split(' ').filter(|&answer| answer != "11after") {
            let pair = (call.to_string(), answer.to_string());
            assert!(shown.contains(&pair), "no case file shows {pair:?}");
        }
    }
}

/// How the first and the last attempt of an `acquire_index_bucket` that failed were Busy, or of a multi-lock that failed
/// at its first key. `console` is what it was given.
fn change_of_reason(console: &Desk, line: &str, out: &str) -> Option<String> {
    let [binding, bucket] = match word(line, 0) {
        "acquire_index_bucket" => [word(line, 1).to_string(), word(line, 2).to_string()],
        "acquire_index_locks" if behind(out, "at") == Some(0) => {
            [console.keys[0].to_string(), console.keys[1].to_string()]
        }
        _ => return None,
    };
    let first = format!("transactional_try_lock_bucket {binding} {bucket}");
    let mut first_out = Vec::new();
    console
        .clone()
        .line(&mut Plain, first.as_bytes(), &mut first_out)
        .expect("a vector takes every byte");
    let first = String::from_utf8_lossy(&first_out).into_owned();
    let (from, to) = (word(&first, 1), word(out, 4));
    // held by two owners is a change too
    let other = from == "held" && to == "held" && word(&first, 2) != word(out, 5);
    Some(format!(
        "{from} to {}{to}",
        if other { "other " } else { "" }
    ))
}

/// "the reason of the last Busy attempt": histories in which it is another than that of the first.
#[test]
fn every_change_of_reason() {
    let mut seen = BTreeSet::new();
    for seed in 1..=6 {
        let mut console = Desk::new();
        for line in history(seed).split(|&byte| byte == b'\n') {
            let retrying = line.starts_with(b"acquire_index_");
            let (before, mut out) = (retrying.then(|| console.clone()), Vec::new());
            console
                .line(&mut Plain, line, &mut out)
                .expect("a vector takes every byte");
            if let Some(before) = before.filter(|_| out.starts_with(b"refused 11 ")) {
                let line = String::from_utf8_lossy(line);
                let out = String::from_utf8_lossy(&out);
                seen.extend(change_of_reason(&before, &line, &out));
            }
        }
    }
    let expected = [
        "held to held",
        "held to other held",
        "held to before",
        "before to held",
        "before to before",
        "before to after",
        "after to held",
        "after to before",
    ];
    assert_eq!(seen, expected.map(String::from).into());
}

/// The number behind a word of what a call printed.
fn behind(out: &str, word: &str) -> Option<u32> {
    let mut words = out.split([' ', '\n']);
    words.find(|&one| one == word)?;
    words.next()?.parse().ok()
}

/// Which reading of health a lock met, and how: for a refusal by 7, and for a grant by cell under a header that was
/// poisoned before. None where the counts do not tell, or health was nothing to it.
fn health_case(health: &[u8], console: &Desk, line: &str, out: &str) -> Option<String> {
    let poisoned = out.starts_with("refused 7 ");
    let call = line.split(' ').next()?;
    let attempts = behind(out, "attempts")?;
    let boundaries = behind(out, "boundaries")?;
    let case = match call {
        "try_lock" | "other_mutex_preserves_leases" => {
            let cell = behind(line, call)?;
            let header = cell.checked_div(console.head.buckets)?;
            let before = *health.get(header as usize)? != 0;
            match (poisoned, before) {
                (true, _) => {
                    assert_eq!((attempts, boundaries), (1, 3), "{line}: {out}");
                    assert_eq!(behind(out, "Poisoned"), Some(header), "{line}: {out}");
                    let waited = console.table[3 * cell as usize + 2] != 0;
                    let when = if before { "before" } else { "meanwhile" };
                    format!("{when}{}", if waited { ", waited for" } else { "" })
                }
                (false, true) if out.starts_with("granted ") => "mended in time".to_string(),
                _ => return None,
            }
        }
        "transactional_try_lock_bucket" | "acquire_index_bucket" if poisoned => {
            match (attempts, boundaries) {
                (1, 0) => "first reading".to_string(),
                (1, 3) => "second reading".to_string(),
                // a Busy attempt has one to three boundaries, and one with its spin
                (2, 2..=4) => "first reading of attempt 1".to_string(),
                (2, 5..=7) => "second reading of attempt 1".to_string(),
                (1 | 2, _) => panic!("{line}: {out}"),
                _ => return None,
            }
        }
        "acquire_index_locks" if poisoned => {
            let position = behind(out, "at")?;
            let above = if position > 0 { "above" } else { "at" };
            // each key before it got at once, and given back with a boundary
            match boundaries.checked_sub(4 * position) {
                Some(0) if attempts == position + 1 => format!("first reading {above} 0"),
                Some(3) if attempts == position + 1 => format!("second reading {above} 0"),
                _ => return None,
            }
        }
        _ => return None,
    };
    Some(format!("{call}: {case}"))
}

#[test]
fn every_case_of_health() {
    let mut seen = BTreeSet::new();
    for seed in [1, 2] {
        let mut console = Desk::new();
        for line in history(seed).split(|&byte| byte == b'\n') {
            let (health, mut out) = (console.health.clone(), Vec::new());
            let kind = console
                .line(&mut Plain, line, &mut out)
                .expect("a vector takes every byte");
            if matches!(kind, Line::Call(_)) {
                let line = String::from_utf8_lossy(line);
                let out = String::from_utf8_lossy(&out);
                seen.extend(health_case(&health, &console, &line, &out));
            }
        }
    }
    let by_cell = [
        "before",
        "before, waited for",
        "meanwhile",
        "meanwhile, waited for",
        "mended in time",
    ];
    let by_key = ["first reading", "second reading"];
    let retrying = [
        "first reading",
        "second reading",
        "first reading of attempt 1",
        "second reading of attempt 1",
    ];
    let locks = [
        "first reading at 0",
        "first reading above 0",
        "second reading at 0",
        "second reading above 0",
    ];
    let calls: [(&str, &[&str]); 5] = [
        ("try_lock", &by_cell),
        ("other_mutex_preserves_leases", &by_cell),
        ("transactional_try_lock_bucket", &by_key),
        ("acquire_index_bucket", &retrying),
        ("acquire_index_locks", &locks),
    ];
    let expected: BTreeSet<String> = calls
        .iter()
        .flat_map(|(call, cases)| cases.iter().map(move |case| format!("{call}: {case}")))
        .collect();
    assert_eq!(seen, expected);
}

#[test]
fn the_seed_decides() {
    let one = fresh_history(5);
    assert!(one == history(5));
    let other = history(6);
    let behind_the_first_line = |text: &[u8]| {
        let end = text.iter().position(|&byte| byte == b'\n').unwrap_or(0);
        text[end..].to_vec()
    };
    assert!(behind_the_first_line(&one) != behind_the_first_line(other));
}

/// Whether a head keeps document 01's rules.
fn good_head(head: rules::Head) -> bool {
    (1..=64).contains(&head.headers)
        && (1..=1024).contains(&head.buckets)
        && head.headers * head.buckets <= 4096
        && head.next > 0
}

/// Why there is no arena, or what characters and states the map has.
fn map_cases(console: &Desk, map: &str, cases: &mut BTreeSet<String>) {
    if map == "no arena\n" {
        let rules::Head {
            headers, buckets, ..
        } = console.head;
        let (words, bytes) = console.lent(console.head);
        let right_words = words as u128 == 3 * u128::from(headers) * u128::from(buckets);
        let right_bytes = bytes as u64 == u64::from(headers);
        cases.insert(match (good_head(console.head), right_words, right_bytes) {
            (false, true, true) => "no arena: the head alone".to_string(),
            (false, _, _) => "no arena: the head and more".to_string(),
            (true, false, true) => "no arena: the table".to_string(),
            (true, true, false) => "no arena: the health".to_string(),
            (true, false, false) => "no arena: table and health".to_string(),
            (true, true, true) => "no arena without a reason".to_string(),
        });
    }
    for line in map.lines().filter(|line| line.starts_with("header ")) {
        let words: Vec<&str> = line.split(' ').collect();
        cases.insert(words[2].to_string());
        cases.extend(words[3].chars().map(String::from));
    }
}

#[test]
fn every_case_of_map_and_echo() {
    let mut maps = BTreeSet::new();
    let mut echoes = BTreeSet::new();
    for seed in [1, 2] {
        let mut console = Desk::new();
        for line in history(seed).split(|&byte| byte == b'\n') {
            let (before, mut out) = (console.echo, Vec::new());
            let kind = console
                .line(&mut Plain, line, &mut out)
                .expect("a vector takes every byte");
            let word = line.split(|&byte| byte == b' ').next().unwrap_or_default();
            let what = match word {
                b"map" if kind == Line::Look(Look::Map) => {
                    map_cases(&console, &String::from_utf8_lossy(&out), &mut maps);
                    "map".to_string()
                }
                b"echo" if kind == Line::Command => format!("echo {}", u32::from(console.echo)),
                b"echo" => "echo not understood".to_string(),
                b"help" => {
                    // its text is free
                    assert_eq!(kind, Line::NotUnderstood);
                    continue;
                }
                _ => match kind {
                    Line::Skipped => "Skipped",
                    Line::Command | Line::Look(_) => "Command",
                    Line::Call(_) => "Call",
                    Line::NotUnderstood => "NotUnderstood",
                }
                .to_string(),
            };
            echoes.insert(format!("{what} while {}", u32::from(before)));
        }
    }
    let expected = [
        ".",
        "#",
        "!",
        "w",
        "W",
        "healthy",
        "poisoned",
        "no arena: the head alone",
        "no arena: the head and more",
        "no arena: the table",
        "no arena: the health",
        "no arena: table and health",
    ];
    assert_eq!(maps, expected.map(String::from).into());
    let kinds = [
        "Skipped",
        "Command",
        "Call",
        "NotUnderstood",
        "map",
        "echo 0",
        "echo 1",
        "echo not understood",
    ];
    let expected: BTreeSet<String> = kinds
        .iter()
        .flat_map(|kind| [format!("{kind} while 0"), format!("{kind} while 1")])
        .collect();
    assert_eq!(echoes, expected);
}

/// The lent book of a desk, and how many slots it has.
fn lent_book(console: &Desk) -> (&[u8], usize) {
    let slots = book::slots_of(console.head.headers * console.head.buckets);
    (&console.book[..console.lent_book], slots as usize)
}

/// Place, length and version of a slot's line; 0 is the newest.
fn line_of(book: &[u8], slot: usize, age: usize) -> [u32; 3] {
    let line = &book[32 * slot + 8 * age..][..8];
    let number = |bytes: &[u8]| {
        let bytes = bytes.iter().rev();
        bytes.fold(0, |number, &byte| 256 * number + u32::from(byte))
    };
    [number(&line[..2]), number(&line[2..4]), number(&line[4..])]
}

/// A line in use: its slot, its version, and the place of its body.
#[derive(Clone, Copy)]
struct Body {
    slot: usize,
    version: u32,
    place: usize,
}

/// Each line that is to be in use: as many as a slot had settings, four at most.
fn bodies_of(book: &[u8], slots: usize) -> Vec<Body> {
    let lines = (0..slots).flat_map(|slot| {
        let used = line_of(book, slot, 0)[2].min(4) as usize;
        (0..used).map(move |age| {
            let [place, _, version] = line_of(book, slot, age);
            let place = place as usize;
            Body {
                slot,
                version,
                place,
            }
        })
    });
    lines.collect()
}

/// What is wrong with a body.
fn damage_of_body(body: &[u8]) -> Option<&'static str> {
    let number = u32::from_le_bytes([body[1], body[2], body[3], body[4]]);
    match body[0] {
        1 if !f32::from_bits(number).is_finite() => Some("not finite"),
        3 if number > 1 => Some("valve"),
        1..=3 => None,
        0 => Some("kind 0"),
        _ => Some("kind"),
    }
}

/// What is wrong with the lines and bodies of a slot.
fn damages_of_slot(book: &[u8], slots: usize, slot: usize) -> Vec<&'static str> {
    let newest = line_of(book, slot, 0)[2];
    let mut damages = Vec::new();
    for age in 0..4 {
        let [place, length, version] = line_of(book, slot, age);
        let at = place as usize;
        if age as u32 >= newest {
            if [place, length, version] != [0; 3] {
                damages.push("an unused line with bytes");
            }
        } else if [place, length, version] == [0; 3] {
            damages.push("no line for a setting");
        } else {
            if version != newest - age as u32 {
                damages.push("versions not falling by one");
            }
            if length != 5 {
                damages.push("length");
            }
            match at {
                _ if at < 32 * slots => damages.push("place before the contents"),
                _ if at + 5 > book.len() => damages.push("place past the end"),
                _ => damages.extend(damage_of_body(&book[at..at + 5])),
            }
        }
    }
    damages
}

/// Every rule that the book breaks, and the slots in which it is broken: of an overlap both.
fn damages(book: &[u8], slots: usize) -> Vec<(&'static str, [usize; 2])> {
    let mut damages: Vec<(&str, [usize; 2])> = (0..slots)
        .flat_map(|slot| {
            let damages = damages_of_slot(book, slots, slot).into_iter();
            damages.map(move |damage| (damage, [slot; 2]))
        })
        .collect();
    let bodies = bodies_of(book, slots);
    for (at, one) in bodies.iter().enumerate() {
        for other in &bodies[..at] {
            let both = [one.slot, other.slot];
            match one.place.abs_diff(other.place) {
                0 => damages.push(("overlap: at one place", both)),
                1..=3 => damages.push(("overlap: by some bytes", both)),
                4 => damages.push(("overlap: by one byte", both)),
                _ => {}
            }
        }
    }
    damages
}

/// What a call that was refused by DamagedBook met, if one rule alone is broken.
fn cases_of_damage(console: &Desk, line: &str) -> Vec<String> {
    let slot = number(word(line, 1).as_bytes()).expect("a slot") as usize;
    let (book, slots) = lent_book(console);
    let damages = damages(book, slots);
    assert!(!damages.is_empty(), "{line}");
    match damages[..] {
        [(damage, damaged)] => {
            let own = damaged.contains(&slot);
            let whose = if own { "own slot" } else { "other slot" };
            [whose, word(line, 0)]
                .map(|met| format!("{met}: {damage}"))
                .into()
        }
        _ => Vec::new(),
    }
}

/// Each rule of the book is broken alone, and met by a read of the newest, a read of a version and a write, of that slot
/// and of another, not once but often.
#[test]
fn every_damage_of_the_book() {
    let mut seen: BTreeMap<String, usize> = BTreeMap::new();
    for seed in 1..=6 {
        let mut console = Desk::new();
        for line in history(seed).split(|&byte| byte == b'\n') {
            let mut out = Vec::new();
            console
                .line(&mut Plain, line, &mut out)
                .expect("a vector takes every byte");
            if out.starts_with(b"refused DamagedBook\n") {
                for case in cases_of_damage(&console, &String::from_utf8_lossy(line)) {
                    *seen.entry(case).or_default() += 1;
                }
            }
        }
    }
    for damage in [
        "versions not falling by one",
        "no line for a setting",
        "an unused line with bytes",
        "length",
        "place before the contents",
        "place past the end",
        "not finite",
        "valve",
        "kind 0",
        "kind",
        "overlap: at one place",
        "overlap: by some bytes",
        "overlap: by one byte",
    ] {
        for met in [
            "own slot",
            "other slot",
            "read_setpoint",
            "read_version",
            "write_setpoint",
        ] {
            let case = format!("{met}: {damage}");
            assert!(seen.get(&case) >= Some(&10), "{case}: {seen:#?}");
        }
    }
}

/// A sound book for a write to a slot: what it keeps once the slot's oldest of four is dropped, and that one.
struct Room<'a> {
    book: &'a [u8],
    front: usize,
    kept: Vec<Body>,
    dropped: Option<Body>,
}

impl Room<'_> {
    fn of(console: &Desk, slot: usize) -> Room<'_> {
        let (book, slots) = lent_book(console);
        let newest = line_of(book, slot, 0)[2];
        let mut kept = bodies_of(book, slots);
        let oldest = |body: &Body| newest >= 4 && body.slot == slot && body.version == newest - 3;
        let dropped = kept.iter().position(oldest).map(|at| kept.remove(at));
        let front = 32 * slots;
        Room {
            book,
            front,
            kept,
            dropped,
        }
    }

    /// Whether kept bodies leave fewer than 5 bytes.
    fn is_full(&self) -> bool {
        self.front + 5 * self.kept.len() + 5 > self.book.len()
    }

    /// Where the last kept body ends.
    fn behind_last(&self) -> usize {
        let ends = self.kept.iter().map(|body| body.place + 5);
        ends.max().unwrap_or(self.front)
    }

    /// Whether there is a free byte that is not zero.
    fn has_rubbish(&self) -> bool {
        let bodies = self.kept.iter().chain(&self.dropped);
        let mut free = self.book[self.front..].to_vec();
        for body in bodies {
            free[body.place - self.front..][..5].fill(0);
        }
        free.iter().any(|&byte| byte != 0)
    }

    /// What a write met that found the book full.
    fn case_of_full(&self) -> &'static str {
        assert!(self.is_full());
        match (self.kept.len(), (self.book.len() - self.front) % 5) {
            (0, _) => "full: room for no body",
            (_, 0) => "full: no byte left",
            _ => "full: some bytes left",
        }
    }

    /// What a write met that was done, with so many bytes moved.
    fn cases_of_done(&self, moved: usize) -> Vec<&'static str> {
        let (last, end) = (self.behind_last(), self.book.len());
        assert_eq!(moved > 0, last + 5 > end);
        let kind = match (moved, self.kept.len()) {
            (0, 0) => "the first body",
            (0, _) => "appended",
            (moved, kept) if moved == 5 * kept => "all bodies slide",
            _ => "some bodies slide",
        };
        let dropped = self.dropped.map(|body| body.place);
        let lay_last = dropped.is_some_and(|place| last <= place);
        let room_again = dropped.is_some_and(|place| last == place && place + 10 > end);
        let room_behind = dropped.is_some_and(|place| last <= place && place + 10 <= end);
        let rubbish = self.has_rubbish();
        let cases = [
            (kind, true),
            ("dropped, slide", dropped.is_some() && moved > 0),
            ("dropped, append", dropped.is_some() && moved == 0),
            ("the dropped body lay last", lay_last),
            (
                "the dropped body lay last, and has room behind",
                room_behind,
            ),
            (
                "only the dropped body's room is behind the last",
                room_again,
            ),
            ("free bytes not zero, slide", rubbish && moved > 0),
            ("free bytes not zero, append", rubbish && moved == 0),
            ("exactly 5 bytes behind the last", last + 5 == end),
            (
                "1 to 4 bytes behind the last",
                (1..5).contains(&(end - last)),
            ),
        ];
        let there = cases.iter().filter(|(_, there)| *there);
        there.map(|&(case, _)| case).collect()
    }
}

/// Which version a read of a sound book asked for, and whether it was there. `before` is what it was given.
fn case_of_reading(before: &Desk, line: &str, out: &str) -> String {
    let (book, slots) = lent_book(before);
    let numbers = |at| number(word(line, at).as_bytes()).expect("a number");
    let slot = numbers(1) as usize;
    assert!(slot < slots, "{line}");
    let newest = line_of(book, slot, 0)[2];
    let asked = match word(line, 0) {
        "read_setpoint" => newest,
        _ => numbers(2),
    };
    let kept = (1..=newest).contains(&asked) && newest - asked < 4;
    assert_eq!(kept, out.starts_with("setpoint "), "{line}: {out}");
    let which = match asked {
        _ if kept => return format!("{}: age {}", word(line, 0), newest - asked),
        0 => "0",
        _ if asked < newest => "dropped",
        _ if asked - 1 == newest => "the next",
        _ => "to come",
    };
    format!("{}: {which}, of {} settings", word(line, 0), newest.min(1))
}

/// What a write of the book, or a read that is not DamagedBook, met. `before` is what it was given; `full` is the length
/// of the book when a write found it full, up to the next that is done.
fn cases_of_room(before: &Desk, full: &mut Option<usize>, line: &str, out: &str) -> Vec<String> {
    let slot = number(word(line, 1).as_bytes()).unwrap_or(0) as usize;
    let cases = match (word(line, 0), answer_of(out).as_str()) {
        ("write_setpoint", "done") => {
            let moved = behind(out, "moved").expect("a number");
            let mut cases = Room::of(before, slot).cases_of_done(moved as usize);
            if behind(out, "version") == Some(u32::MAX) {
                cases.push("the last version");
            }
            cases.extend(full.take().map(|length| match before.lent_book > length {
                true => "done behind full, in a longer book",
                false => "done behind full",
            }));
            cases
        }
        ("write_setpoint", "BookFull") => {
            *full = Some(before.lent_book);
            vec![Room::of(before, slot).case_of_full()]
        }
        ("write_setpoint", "VersionsSpent") => vec!["versions spent"],
        ("read_setpoint" | "read_version", "pressure" | "speed" | "valve" | "NeverWritten") => {
            return vec![case_of_reading(before, line, out)];
        }
        _ => Vec::new(),
    };
    cases.into_iter().map(String::from).collect()
}

/// The room of the book, and what is read of it: each case not once but often.
#[test]
fn every_case_of_room_and_reading() {
    let mut seen: BTreeMap<String, usize> = BTreeMap::new();
    for seed in 1..=6 {
        let mut console = Desk::new();
        let mut full = None;
        for line in history(seed).split(|&byte| byte == b'\n') {
            let call = line.starts_with(b"write_setpoint ") || line.starts_with(b"read_");
            let (before, mut out) = (call.then(|| console.clone()), Vec::new());
            let kind = console
                .line(&mut Plain, line, &mut out)
                .expect("a vector takes every byte");
            if line.starts_with(b"prepare") {
                full = None;
            }
            if let Some(before) = before.filter(|_| matches!(kind, Line::Call(_))) {
                let line = String::from_utf8_lossy(line);
                let out = String::from_utf8_lossy(&out);
                for case in cases_of_room(&before, &mut full, &line, &out) {
                    *seen.entry(case).or_default() += 1;
                }
            }
        }
    }
    for case in ROOM_AND_READING {
        assert!(seen.get(case) >= Some(&10), "{case}: {seen:#?}");
    }
}

/// The cases of that test.
const ROOM_AND_READING: [&str; 32] = [
    "the first body",
    "appended",
    "some bodies slide",
    "all bodies slide",
    "dropped, append",
    "dropped, slide",
    "the dropped body lay last",
    "the dropped body lay last, and has room behind",
    "only the dropped body's room is behind the last",
    "free bytes not zero, append",
    "free bytes not zero, slide",
    "exactly 5 bytes behind the last",
    "1 to 4 bytes behind the last",
    "full: room for no body",
    "full: no byte left",
    "full: some bytes left",
    "done behind full",
    "done behind full, in a longer book",
    "the last version",
    "versions spent",
    "read_setpoint: age 0",
    "read_setpoint: 0, of 0 settings",
    "read_version: age 0",
    "read_version: age 1",
    "read_version: age 2",
    "read_version: age 3",
    "read_version: dropped, of 1 settings",
    "read_version: 0, of 1 settings",
    "read_version: 0, of 0 settings",
    "read_version: the next, of 1 settings",
    "read_version: the next, of 0 settings",
    "read_version: to come, of 1 settings",
];

/// Every fault of a `write_setpoint` under a good head, in the order of its refusals. Damage can be looked for only where
/// there is such a slot.
fn faults_of_a_write(console: &Desk, line: &str) -> Vec<&'static str> {
    let numbers = |at| number(word(line, at).as_bytes()).unwrap_or(0);
    let head = console.head;
    let (words, _) = console.lent(head);
    let (slot, boot) = (numbers(1), numbers(4));
    // as it would be with the right boot number
    let lease = Lease {
        cell: numbers(2),
        serial: numbers(3),
        boot: head.boot,
    };
    let table = console.table[..words].to_vec();
    let (book, slots) = lent_book(console);
    let mut faults = Vec::new();
    let permission = rules::read_permission(head, &table, lease).answer;
    if permission == Answer::Refused(rules::Refusal::BadShape) {
        faults.push("1");
    }
    let read = book::read_setpoint(head, book, slot);
    if read == Err(BookRefusal::BadSlot) {
        faults.push(match book.len() {
            length if length < 32 * slots => "too short",
            length if length > 32_768 => "over the limit",
            _ => "no such slot",
        });
    }
    if boot != head.boot {
        faults.push("16");
    }
    if permission != Answer::Cell(slot) && faults.first() != Some(&"1") {
        faults.push("12");
    }
    if word(line, 5) == "pressure" && !f32::from_bits(numbers(6)).is_finite() {
        faults.push("NotFinite");
    }
    match read {
        Err(BookRefusal::DamagedBook) => faults.push("DamagedBook"),
        Ok(kept) if kept.version == u32::MAX => faults.push("VersionsSpent"),
        Ok(_) | Err(BookRefusal::NeverWritten) if Room::of(console, slot as usize).is_full() => {
            faults.push("BookFull");
        }
        _ => {}
    }
    faults
}

/// Each two faults of a `write_setpoint` that can be there at once, and there are no more than these two.
#[test]
fn every_two_faults_of_a_write() {
    let mut seen = BTreeSet::new();
    for seed in 1..=6 {
        let mut console = Desk::new();
        for line in history(seed).split(|&byte| byte == b'\n') {
            let write = line.starts_with(b"write_setpoint ") && good_head(console.head);
            let (before, mut out) = (write.then(|| console.clone()), Vec::new());
            let kind = console
                .line(&mut Plain, line, &mut out)
                .expect("a vector takes every byte");
            if let Some(before) = before.filter(|_| matches!(kind, Line::Call(_))) {
                let line = String::from_utf8_lossy(line);
                seen.insert(faults_of_a_write(&before, &line).join(" "));
            }
        }
    }
    for expected in [
        "",
        "1",
        "too short",
        "over the limit",
        "no such slot",
        "16",
        "12",
        "NotFinite",
        "DamagedBook",
        "VersionsSpent",
        "BookFull",
        "1 too short",
        "1 no such slot",
        "1 NotFinite",
        "1 DamagedBook",
        "1 BookFull",
        "too short 12",
        "too short NotFinite",
        "over the limit 12",
        "over the limit NotFinite",
        "no such slot 12",
        "1 16",
        "too short 16",
        "over the limit 16",
        "no such slot 16 12",
        "16 12",
        "16 NotFinite",
        "16 DamagedBook",
        "16 VersionsSpent",
        "16 BookFull",
        "12 NotFinite",
        "12 DamagedBook",
        "12 VersionsSpent",
        "12 BookFull",
        "NotFinite DamagedBook",
        "NotFinite VersionsSpent",
        "NotFinite BookFull",
    ] {
        assert!(seen.contains(expected), "{expected}: not in {seen:?}");
    }
}

/// The letters of stale leases.
const STALE: [char; 3] = ['s', 'S', 't'];

/// How the leases of a list are, one letter each: l live; d not live; s stale, and live but for that; S stale and not
/// live; r live, and earlier in the list too; t stale, and but for that earlier in the list too. Behind them `+` if the
/// length is wrong: no whole leases, or over 64.
fn letters(console: &Desk, list: &[u32]) -> String {
    let head = console.head;
    let cells = head.headers * head.buckets;
    let is_live = |lease: &[u32]| {
        let (cell, serial) = (lease[0], lease[1]);
        cell < cells
            && console.table[3 * cell as usize..][..2] == [1, serial]
            && (1..head.next).contains(&serial)
    };
    let letter = |(at, lease): (usize, &[u32])| {
        let same = |one: &[u32]| one[..2] == lease[..2] && one[2] == head.boot;
        let again = list.chunks_exact(3).take(at).any(same);
        match (lease[2] == head.boot, is_live(lease), again) {
            (true, false, _) => 'd',
            (true, true, false) => 'l',
            (true, true, true) => 'r',
            (false, false, _) => 'S',
            (false, true, false) => 's',
            (false, true, true) => 't',
        }
    };
    let mut letters: String = list.chunks_exact(3).enumerate().map(letter).collect();
    if list.len() % 3 != 0 || list.len() > 3 * 64 {
        letters.push('+');
    }
    letters
}

/// Whether the letters are these, where `*` is any number of live leases, `!` a stale one and `?` anything but a wrong
/// length.
fn fits(letters: &str, pattern: &str) -> bool {
    let mut rest = letters;
    for (at, one) in pattern.char_indices() {
        rest = match one {
            '*' => rest.trim_start_matches('l'),
            '!' => match rest.strip_prefix(STALE) {
                Some(behind) => behind,
                None => return false,
            },
            '?' => {
                let end = rest.find('+').unwrap_or(rest.len());
                return (0..=end).any(|from| fits(&rest[from..], &pattern[at + 1..]));
            }
            _ => match rest.strip_prefix(one) {
                Some(behind) => behind,
                None => return false,
            },
        };
    }
    rest.is_empty()
}

/// Leases of a call, by `letters`, and the refusal that it must answer, past 1 and 2: "after the length tests, position by
/// position, before 3 and 12 at that place". `one` is the lease of a call, `held` a held list, `locks` that of a
/// multi-lock, `leases` a list to release; where a call is given both, the held list stands before the one lease.
const BOOTS: [(&str, &str, &str); 42] = [
    ("one", "s", "16"),
    ("one", "S", "16"),
    ("one", "d", "12"),
    ("held", "s?", "16"),
    ("held", "S?", "16"),
    ("held", "l*s?", "16"),
    ("held", "l*S?", "16"),
    ("held", "*s?d?", "16"),
    ("held", "*S?d?", "16"),
    ("held", "*d?s?", "3"),
    ("held", "*d?S?", "3"),
    ("held", "?s?+", "3"),
    ("held", "?S?+", "3"),
    ("locks", "s?", "16"),
    ("locks", "S?", "16"),
    ("locks", "l*s?", "16"),
    ("locks", "l*S?", "16"),
    ("locks", "*!?d?", "16"),
    ("locks", "*d?!?", "3"),
    ("locks", "?!?+", "3"),
    ("held and one", "* s", "16"),
    ("held and one", "* S", "16"),
    ("held and one", "l* s", "16"),
    ("held and one", "l* S", "16"),
    ("held and one", "*s? l", "16"),
    ("held and one", "*S? l", "16"),
    ("held and one", "ls? l", "16"),
    ("held and one", "lS? l", "16"),
    ("held and one", "*!? d", "16"),
    ("held and one", "*d? !", "3"),
    ("held and one", "?!?+ l", "3"),
    ("held and one", "?!?+ !", "3"),
    ("leases", "s?", "16"),
    ("leases", "S?", "16"),
    ("leases", "l*s?", "16"),
    ("leases", "l*S?", "16"),
    ("leases", "*t?", "16"),
    ("leases", "*!?d?", "16"),
    ("leases", "*!?r?", "16"),
    ("leases", "*d?!?", "12"),
    ("leases", "l*r?!?", "14"),
    ("leases", "?!?+", "4"),
];

/// The calls with a held list.
const WITH_HELD: [&str; 11] = [
    "foreign_release_between_attempts",
    "acquire_preserving_borrows",
    "drop_preserving_borrows",
    "environment",
    "environment_for_borrows",
    "try_lock",
    "other_mutex_preserves_leases",
    "transactional_try_lock_bucket",
    "acquire_index_bucket",
    "acquire_index_locks",
    "acquire_sorted_locks",
];

/// What a call with a held list can have wrong besides its held leases, of what is tested behind them and before any
/// step.
const BESIDE: [(&str, &[&str]); 7] = [
    ("acquire_preserving_borrows", &["8"]),
    ("try_lock", &["8"]),
    ("other_mutex_preserves_leases", &["8"]),
    ("transactional_try_lock_bucket", &["5"]),
    ("acquire_index_bucket", &["5"]),
    (
        "acquire_index_locks",
        &["4 by odd keys", "4 by held and keys", "4 by grants", "5"],
    ),
    (
        "acquire_sorted_locks",
        &[
            "4 by odd keys",
            "4 by held and keys",
            "4 by grants",
            "5",
            "6",
            "8",
        ],
    ),
];

/// Those of `BESIDE` that a call has.
fn faults_beside(before: &Desk, line: &str) -> Vec<&'static str> {
    let head = before.head;
    let named = number(word(line, 1).as_bytes());
    let keys = before.keys.len() / 2;
    let [binding, header, bucket] = faults_of_keys(before).map(|position| position.is_some());
    let sorted = word(line, 0) == "acquire_sorted_locks";
    let faults: &[(bool, &str)] = match word(line, 0) {
        "acquire_preserving_borrows" | "try_lock" | "other_mutex_preserves_leases" => {
            &[(named >= Some(head.headers * head.buckets), "8")]
        }
        "transactional_try_lock_bucket" | "acquire_index_bucket" => {
            &[(named >= Some(before.registry.len() as u32), "5")]
        }
        "acquire_index_locks" | "acquire_sorted_locks" => &[
            (before.keys.len() % 2 != 0, "4 by odd keys"),
            (before.held.len() / 3 + keys > 64, "4 by held and keys"),
            (before.grants.len() != 3 * keys, "4 by grants"),
            (binding, "5"),
            (sorted && header, "6"),
            (sorted && bucket, "8"),
        ],
        _ => &[],
    };
    let there = faults.iter().filter(|(there, _)| *there);
    there.map(|&(_, fault)| fault).collect()
}

/// What the leases were that a call was given, and what it answered. `before` is what it was given, under a good head.
fn cases_of_boot(before: &Desk, line: &str, out: &str) -> Vec<String> {
    let (call, answer) = (word(line, 0), answer_of(out));
    // in a held list a lease may stand twice
    let held = letters(before, &before.held)
        .replace('r', "l")
        .replace('t', "s");
    let lease: Vec<u32> = (1..4)
        .filter_map(|at| number(word(line, at).as_bytes()))
        .collect();
    let one = || letters(before, &lease);
    let mut cases = Vec::new();
    let (name, list) = match call {
        "drop_lease"
        | "read_permission"
        | "competing_acquire_is_excluded"
        | "release_then_handoff" => ("one", one()),
        "foreign_release_between_attempts" | "drop_preserving_borrows" => {
            let list = format!("{held} {}", one());
            let mut leases = before.held.chunks_exact(3);
            if fits(&list, "l* s") && leases.any(|held| held[..2] == lease[..2]) {
                cases.push(format!(
                    "in the held list but for its boot number: {answer}"
                ));
            }
            ("held and one", list)
        }
        "acquire_index_locks" | "acquire_sorted_locks" => ("locks", held),
        "acquire_preserving_borrows"
        | "environment"
        | "environment_for_borrows"
        | "try_lock"
        | "other_mutex_preserves_leases"
        | "transactional_try_lock_bucket"
        | "acquire_index_bucket" => ("held", held),
        "release_all" => ("leases", letters(before, &before.leases)),
        _ => return cases,
    };
    if ["1", "2"].contains(&answer.as_str()) {
        // they come before
        let stale = list.contains(STALE);
        return stale
            .then(|| format!("{name}: stale, {answer}"))
            .into_iter()
            .collect();
    }
    let fitting = BOOTS
        .iter()
        .filter(|&&(of, pattern, _)| of == name && fits(&list, pattern));
    for (_, pattern, expected) in fitting {
        assert_eq!(answer, *expected, "{line}: {list}: {out}");
        cases.push(format!("{name} {pattern}"));
    }
    assert_eq!(answer == "16", is_16(&list), "{line}: {list}: {out}");
    if answer == "16" {
        // the one lease of a call stands behind its held ones, and has position 0
        let at = list.find(STALE).unwrap_or(0);
        let position = if list[..at].contains(' ') { 0 } else { at };
        let wanted = format!("refused 16 StaleBoot {position} next ");
        let counts = " attempts 0 boundaries 0 yields 0 dropped 0";
        assert!(
            out.starts_with(&wanted) && out.contains(counts),
            "{line}: {list}: {out}"
        );
        if position > 0 {
            cases.push(format!("{call}: 16 above position 0"));
        }
        // with two of them, a call that is refused wrongly by one would not tell which
        if let &[fault] = faults_beside(before, line).as_slice() {
            cases.push(format!("{call}: 16 beside {fault}"));
        }
    }
    cases
}

/// Whether the first fault of the leases is a boot number, and no length is wrong.
fn is_16(list: &str) -> bool {
    let behind = list.trim_start_matches(['l', ' ']);
    behind.starts_with(STALE) && !list.contains('+')
}

/// What the boot number of a preparation that was done is to the one before it and to all those `used`.
fn cases_of_preparation(before: u32, boot: u32, used: &BTreeSet<u32>) -> Vec<String> {
    let mut cases = vec![match boot {
        _ if boot == before => "prepare: the boot number in force",
        _ if used.contains(&boot) => "prepare: a boot number used before",
        _ => "prepare: a new boot number",
    }];
    match boot {
        0 => cases.push("prepare: boot number 0"),
        u32::MAX => cases.push("prepare: the greatest boot number"),
        _ => {}
    }
    cases.into_iter().map(String::from).collect()
}

/// Whether a line begins with a call that can answer 16: one that is given leases.
fn can_be_16(line: &str) -> bool {
    let mut calls = ANSWERS.iter().filter(|(call, _)| *call == word(line, 0));
    calls.any(|(_, answers)| answers.split(' ').any(|answer| answer == "16"))
}

/// Stale leases: alone, in each list, at each place and with the faults that come before them and behind; and boot numbers
/// of preparations, not once but often.
#[test]
fn every_case_of_boot() {
    let mut seen: BTreeMap<String, usize> = BTreeMap::new();
    for seed in 1..=6 {
        let mut console = Desk::new();
        let mut used = BTreeSet::new();
        // leases as they were granted, with the count of preparations before
        let mut granted: BTreeMap<Vec<u32>, usize> = BTreeMap::new();
        let mut preparations = 0;
        for line in history(seed).split(|&byte| byte == b'\n') {
            let (bytes, line) = (line, String::from_utf8_lossy(line));
            // the lease of a write is tested with its other faults, and behind a salvage
            let by_lease = can_be_16(&line) && word(&line, 0) != "write_setpoint";
            let before = (by_lease && good_head(console.head)).then(|| console.clone());
            let (boot, mut out) = (console.head.boot, Vec::new());
            let kind = console
                .line(&mut Plain, bytes, &mut out)
                .expect("a vector takes every byte");
            if !matches!(kind, Line::Call(_)) {
                continue;
            }
            let out = String::from_utf8_lossy(&out);
            let mut cases = Vec::new();
            if let Some(before) = &before {
                cases = cases_of_boot(before, &line, &out);
            }
            if line.starts_with("prepare ") && out.starts_with("done ") {
                cases.extend(cases_of_preparation(boot, console.head.boot, &used));
                used.insert(console.head.boot);
                preparations += 1;
            }
            let numbers = |text: &str| -> Vec<u32> {
                (1..4)
                    .filter_map(|at| number(word(text, at).as_bytes()))
                    .collect()
            };
            let lease = numbers(&out);
            if out.starts_with("granted ") && lease.len() == 3 {
                assert_eq!(lease[2], console.head.boot);
                match lease[2] {
                    0 => cases.push("granted under boot number 0".to_string()),
                    u32::MAX => cases.push("granted under the greatest boot number".to_string()),
                    _ => {}
                }
                granted.insert(lease, preparations);
            }
            // "A lease from before a preparation was accepted after it because the first serial was the same."
            let lease = numbers(&line);
            let from_before = granted.get(&lease).is_some_and(|&then| then < preparations);
            let calls = ["drop_lease", "read_permission", "release_then_handoff"];
            let read = calls.contains(&word(&line, 0)) && !out.starts_with("refused 1 ");
            if let Some(before) = before.filter(|_| from_before && read) {
                let then = match letters(&before, &lease).as_str() {
                    "l" => "the boot number is used again, accepted",
                    "d" => "the boot number is used again, dead",
                    "s" => "another boot number, the same serial",
                    _ => "another boot number, dead",
                };
                cases.push(format!("from before a preparation: {then}"));
            }
            for case in cases {
                *seen.entry(case).or_default() += 1;
            }
        }
    }
    let more = [
        "in the held list but for its boot number: 16",
        "one: stale, 1",
        "held: stale, 1",
        "held: stale, 2",
        "locks: stale, 1",
        "locks: stale, 2",
        "leases: stale, 1",
        "leases: stale, 2",
        "prepare: the boot number in force",
        "prepare: a boot number used before",
        "prepare: a new boot number",
        "prepare: boot number 0",
        "prepare: the greatest boot number",
        "granted under boot number 0",
        "granted under the greatest boot number",
        "from before a preparation: the boot number is used again, accepted",
        "from before a preparation: the boot number is used again, dead",
        "from before a preparation: another boot number, the same serial",
        "from before a preparation: another boot number, dead",
    ];
    let lists = BOOTS.map(|(name, pattern, _)| format!("{name} {pattern}"));
    let with_list = WITH_HELD.iter().chain(&["release_all"]);
    let above = with_list.map(|call| format!("{call}: 16 above position 0"));
    let beside = BESIDE.iter().flat_map(|(call, faults)| {
        let case = move |fault| format!("{call}: 16 beside {fault}");
        faults.iter().map(case)
    });
    let more = more.map(String::from).into_iter();
    for case in more.chain(lists).chain(above).chain(beside) {
        assert!(seen.get(&case) >= Some(&10), "{case}: {seen:?}");
    }
}

/// The numbers behind a word of each line that has it.
fn each_behind(out: &str, word: &str) -> Vec<u32> {
    out.lines().filter_map(|line| behind(line, word)).collect()
}

/// What a `crew_at_work` met. `before` is what it was given.
fn cases_of_work(before: &Desk, after: &Desk, out: &str) -> Vec<&'static str> {
    let mut cases = Vec::new();
    let cells = before.head.headers.saturating_mul(before.head.buckets) as usize;
    if out.starts_with("refused 1 ") && good_head(before.head) && before.lent.is_none() {
        let mut right = before.clone();
        right.counters = vec![0; cells];
        let mut other = Vec::new();
        right
            .line(&mut Plain, b"crew_at_work", &mut other)
            .expect("a vector takes every byte");
        cases.push(match before.counters.len() {
            0 => "no counters",
            count if count < cells => "too few counters",
            _ => "too many counters",
        });
        if other.starts_with(b"refused 15 ") {
            cases.push("a wrong count, and 15 too");
        }
    }
    if !out.starts_with("crew ") {
        assert_eq!(before.counters, after.counters);
        return cases;
    }
    let (taken, released) = (each_behind(out, "taken"), each_behind(out, "released"));
    let moving = behind(out, "moving").expect("a count");
    let added = moving - taken.iter().sum::<u32>() - released.iter().sum::<u32>();
    let lists = before.members.iter().zip(taken.iter().zip(&released));
    // cells of those who have released, who have added to all; and of those who hold all, who may have added
    let (mut least, mut most) = (0, 0);
    for (&list, (&taken, &released)) in lists {
        least += if released > 0 { list } else { 0 };
        most += if taken == list { list } else { 0 };
    }
    assert!(least <= added && added <= most, "{out}");
    if added > least {
        cases.push("it ended before all that hold all had released");
    }
    if added > least && added < most {
        cases.push("it ended between two adds");
    }
    if before.members.iter().sum::<u32>() == released.iter().sum()
        && released.len() > 1
        && added > 0
    {
        cases.push("several members finished");
    }
    let pairs = before.counters.iter().zip(&after.counters);
    if pairs.clone().any(|(old, new)| new < old) {
        cases.push("a sum wrapped");
    }
    if pairs.clone().any(|(old, new)| new > old) {
        cases.push("a sum did not wrap");
    }
    if added > 0 && pairs.clone().all(|(old, new)| new == old) {
        cases.push("nothing but 0 was added");
    }
    cases
}

#[test]
fn every_case_of_work() {
    let mut seen = BTreeSet::new();
    for seed in [1, 2] {
        let mut console = Desk::new();
        for line in history(seed).split(|&byte| byte == b'\n') {
            let work = line == b"crew_at_work";
            let (before, mut out) = (work.then(|| console.clone()), Vec::new());
            console
                .line(&mut Plain, line, &mut out)
                .expect("a vector takes every byte");
            if let Some(before) = before {
                seen.extend(cases_of_work(
                    &before,
                    &console,
                    &String::from_utf8_lossy(&out),
                ));
            }
        }
    }
    let expected = [
        "no counters",
        "too few counters",
        "too many counters",
        "a wrong count, and 15 too",
        "it ended before all that hold all had released",
        "it ended between two adds",
        "several members finished",
        "a sum wrapped",
        "a sum did not wrap",
        "nothing but 0 was added",
    ];
    assert_eq!(seen, expected.into());
}

/// The faults that a sorted call's keys have by themselves, each with the first position that has it.
fn faults_of_keys(console: &Desk) -> [Option<usize>; 3] {
    let header = |key: &[u32]| console.registry.get(key[0] as usize);
    let keys = || console.keys.chunks_exact(2);
    [
        keys().position(|key| header(key).is_none()),
        keys().position(|key| header(key).is_some_and(|&header| header >= console.head.headers)),
        keys().position(|key| key[1] >= console.head.buckets),
    ]
}

/// What an `acquire_sorted_locks` met that got past refusal 4. `before` is what it was given.
fn cases_of_sorted(before: &Desk, out: &str) -> Vec<&'static str> {
    let mut cases = Vec::new();
    let answer = answer_of(out);
    let [binding, header, bucket] = faults_of_keys(before);
    let at = behind(out, "at").map(|at| at as usize);
    match answer.as_str() {
        "5" if header.min(bucket) < binding && header.min(bucket).is_some() => {
            cases.push("5 behind 6 or 8");
        }
        "6" if header == bucket => cases.push("6 and 8 of one key"),
        "6" if bucket.is_some_and(|bucket| Some(bucket) > header) => cases.push("6 before 8"),
        "8" if header.is_some_and(|header| Some(header) > bucket) => cases.push("8 before 6"),
        _ => {}
    }
    if ["1", "2", "3", "4", "5", "6", "8", "16"].contains(&answer.as_str()) {
        assert!(
            out.contains(" attempts 0 boundaries 0 yields 0 dropped 0\n"),
            "{out}"
        );
        return cases;
    }
    let keys = before.keys.chunks_exact(2);
    let cells: Vec<u32> = keys
        .map(|key| before.registry[key[0] as usize] * before.head.buckets + key[1])
        .collect();
    let distinct: BTreeSet<u32> = cells.iter().copied().collect();
    if let Some(at) = at {
        assert!(!cells[..at].contains(&cells[at]), "{out}");
        if cells[at + 1..].contains(&cells[at]) {
            cases.push("refused at a doubled key");
        }
        if distinct.first() != Some(&cells[at]) {
            cases.push("refused behind a lower cell");
        }
        if cells[..at].iter().any(|&cell| cell > cells[at]) {
            cases.push("refused before a higher cell that stands before it");
        }
        return cases;
    }
    if cells.len() > distinct.len() {
        cases.push("doubled keys");
        let keys: BTreeSet<&[u32]> = before.keys.chunks_exact(2).collect();
        if keys.len() > distinct.len() {
            cases.push("a cell by two bindings");
        }
    }
    if cells.len() > 1 && cells.windows(2).all(|two| two[0] > two[1]) {
        cases.push("falling keys");
    }
    if cells.len() > 1 && cells.windows(2).all(|two| two[0] < two[1]) {
        cases.push("rising keys");
    }
    if before.held.len() > 1 {
        cases.push("leases held");
    }
    cases
}

/// Each answer of the sorted call and each case of its keys, not once but often.
#[test]
fn every_case_of_sorted_keys() {
    let mut seen: BTreeMap<String, usize> = BTreeMap::new();
    for seed in 1..=6 {
        let mut console = Desk::new();
        for line in history(seed).split(|&byte| byte == b'\n') {
            let sorted = line == b"acquire_sorted_locks";
            let (before, mut out) = (sorted.then(|| console.clone()), Vec::new());
            console
                .line(&mut Plain, line, &mut out)
                .expect("a vector takes every byte");
            if let Some(before) = before {
                let out = String::from_utf8_lossy(&out);
                let cases = cases_of_sorted(&before, &out);
                for case in cases.into_iter().map(String::from).chain([answer_of(&out)]) {
                    *seen.entry(case).or_default() += 1;
                }
            }
        }
    }
    for case in [
        "granted",
        "1",
        "2",
        "3",
        "4",
        "5",
        "6",
        "7",
        "8",
        "9",
        "10",
        "11held",
        "11before",
        "16",
        "5 behind 6 or 8",
        "6 and 8 of one key",
        "6 before 8",
        "8 before 6",
        "refused at a doubled key",
        "refused behind a lower cell",
        "refused before a higher cell that stands before it",
        "doubled keys",
        "a cell by two bindings",
        "falling keys",
        "rising keys",
        "leases held",
    ] {
        assert!(seen.get(case) >= Some(&20), "{case}: {seen:?}");
    }
}

/// What a salvage found in each cell and byte. `before` is what it was given, and it is an arena.
fn finds(before: &Desk, after: &Desk) -> BTreeSet<&'static str> {
    let mut finds = BTreeSet::new();
    let next = before.head.next;
    let (words, bytes) = before.lent(before.head);
    let cells = before.table[..words].chunks_exact(3);
    let mut owners = BTreeSet::new();
    for (old, new) in cells.zip(after.table.chunks_exact(3)) {
        let (bit, owner, waiters) = (old[0], old[1], old[2] != 0);
        let (cell, waited) = match (bit, owner) {
            (0, 0) => ("free", "free, waited for"),
            (1, 1..) if owner < next => ("held", "held, waited for"),
            (0, _) => ("damaged: bit 0 with an owner", "damaged, waited for"),
            (1, 0) => ("damaged: bit 1 without owner", "damaged, waited for"),
            (1, _) if owner == next => ("damaged: owner next", "damaged, waited for"),
            (1, _) => ("damaged: owner above next", "damaged, waited for"),
            (_, 0) => ("damaged: another bit alone", "damaged, waited for"),
            _ => ("damaged: another bit with an owner", "damaged, waited for"),
        };
        finds.insert(if waiters { waited } else { cell });
        let mended = if cell == "held" {
            [1, owner, 0]
        } else {
            [0; 3]
        };
        assert_eq!(new, mended);
        if cell == "held" && !owners.insert(owner) {
            finds.insert("one owner of two cells");
        }
    }
    for (&old, &new) in before.health[..bytes].iter().zip(&after.health) {
        finds.insert(match old {
            0 => "health 0",
            1 => "health 1",
            _ => "another health",
        });
        assert_eq!(new, old.min(1));
    }
    finds
}

/// What a salvage with room for all would find; nothing where it is refused by 1.
fn found(console: &Desk) -> Salvaged {
    let (words, bytes) = console.lent(console.head);
    let reply = salvage(
        console.head,
        &mut console.table[..words].to_vec(),
        &mut console.health[..bytes].to_vec(),
        &mut [0; 37_200],
        &mut [0; 4_200],
    );
    reply.answer.unwrap_or_default()
}

/// What a salvage met. `before` is what it was given; `again`: a salvage that was done stands right before it.
fn cases_of_salvage(before: &Desk, after: &Desk, out: &str, again: bool) -> Vec<String> {
    let mut cases = BTreeSet::new();
    let Salvaged { changed, held } = found(before);
    let (report, list) = (before.report.len(), before.unconfirmed.len());
    // "Salvage keeps the boot number of the head it was given."
    assert_eq!(before.head, after.head, "{out}");
    if !out.starts_with("done ") {
        assert!(before.table == after.table && before.health == after.health);
        assert!(before.report == after.report && before.unconfirmed == after.unconfirmed);
    }
    match answer_of(out).as_str() {
        "1" if report == 0 || list == 0 => {
            cases.insert("1, and little room");
        }
        "ReportFull" => {
            let (full, short) = (report / 3 < changed, list < held);
            assert!(full || short, "{out}");
            cases.insert(match (full, short) {
                (true, false) => "full: the report",
                (false, _) => "full: the list",
                (true, true) => "full: both",
            });
            if report + 1 == 3 * changed {
                cases.insert("full: one word short");
            }
            if report / 3 + 1 == changed && report % 3 == 0 {
                cases.insert("full: one entry short");
            }
            if list + 1 == held && !full {
                cases.insert("full: one cell short");
            }
            if changed > 0 && report == 0 {
                cases.insert("full: an empty report");
            }
            if held > 0 && list == 0 {
                cases.insert("full: an empty list");
            }
        }
        "done" => {
            cases.extend(finds(before, after));
            cases.insert(match (changed, report) {
                (0, 0) => "no report, none needed",
                (0, _) => "a report, none needed",
                _ if report == 3 * changed => "report: exactly enough",
                _ if report / 3 == changed => "report: a word or two behind",
                _ => "report: more than enough",
            });
            cases.insert(match (held, list) {
                (0, 0) => "no list, none needed",
                (0, _) => "a list, none needed",
                _ if list == held => "list: exactly enough",
                _ => "list: more than enough",
            });
            if again {
                assert_eq!(changed, 0, "{out}");
                cases.insert("a second salvage");
            }
            match before.head.next {
                1 => drop(cases.insert("next 1")),
                u32::MAX => drop(cases.insert("no serial")),
                _ => {}
            }
        }
        _ => {}
    }
    cases
        .into_iter()
        .map(String::from)
        .chain([answer_of(out)])
        .collect()
}

/// Each answer of the salvage, each find and each room, not once but often.
#[test]
fn every_case_of_salvage() {
    let mut seen: BTreeMap<String, usize> = BTreeMap::new();
    for seed in 1..=6 {
        let mut console = Desk::new();
        // the last line that was no command for the rooms was a salvage, and it was done
        let mut again = false;
        for line in history(seed).split(|&byte| byte == b'\n') {
            let before = (line == b"salvage").then(|| console.clone());
            let mut out = Vec::new();
            console
                .line(&mut Plain, line, &mut out)
                .expect("a vector takes every byte");
            let rooms = line.starts_with(b"report ") || line.starts_with(b"unconfirmed ");
            if let Some(before) = before {
                let out = String::from_utf8_lossy(&out);
                for case in cases_of_salvage(&before, &console, &out, again) {
                    *seen.entry(case).or_default() += 1;
                }
                again = out.starts_with("done ");
            } else if !rooms {
                again = false;
            }
        }
    }
    for case in [
        "done",
        "1",
        "ReportFull",
        "1, and little room",
        "full: the report",
        "full: the list",
        "full: both",
        "full: one word short",
        "full: one entry short",
        "full: one cell short",
        "full: an empty report",
        "full: an empty list",
        "no report, none needed",
        "a report, none needed",
        "report: exactly enough",
        "report: a word or two behind",
        "report: more than enough",
        "no list, none needed",
        "a list, none needed",
        "list: exactly enough",
        "list: more than enough",
        "a second salvage",
        "next 1",
        "no serial",
        "free",
        "free, waited for",
        "held",
        "held, waited for",
        "damaged, waited for",
        "damaged: bit 0 with an owner",
        "damaged: bit 1 without owner",
        "damaged: owner next",
        "damaged: owner above next",
        "damaged: another bit alone",
        "damaged: another bit with an owner",
        "one owner of two cells",
        "health 0",
        "health 1",
        "another health",
    ] {
        assert!(seen.get(case) >= Some(&20), "{case}: {seen:?}");
    }
}

/// A salvage that was done.
struct Dip {
    /// The boot number of the head before the paper's, if it was another.
    before: Option<u32>,
    /// Cell and serial of the cells left held.
    left: BTreeSet<[u32; 2]>,
}

/// What a call behind a salvage said to leases from before it: to those with the boot number that the salvage kept, or
/// to one that is live but for its boot number, which is that of the head before if the paper's was another. `before`
/// is what the call was given, under a good head.
fn case_behind_salvage(dip: &Dip, before: &Desk, line: &str, out: &str) -> Option<String> {
    let call = word(line, 0);
    let lease = |from: usize| -> Vec<u32> {
        (from..from + 3)
            .filter_map(|at| number(word(line, at).as_bytes()))
            .collect()
    };
    let (way, list) = match call {
        "write_setpoint" => (call, lease(2)),
        "release_all" => (call, before.leases.clone()),
        _ if !WITH_HELD.contains(&call) => ("alone", lease(1)),
        _ => ("in a held list", before.held.clone()),
    };
    let leases: Vec<&[u32]> = list.chunks_exact(3).collect();
    let is_left = |lease: &[u32]| dip.left.contains(&[lease[0], lease[1]]);
    let paper = match dip.before {
        None => "the boot number in force",
        Some(_) => "another boot number",
    };
    if !out.starts_with("refused ") {
        assert!(leases.iter().all(|lease| lease[2] == before.head.boot));
        let all = !leases.is_empty() && leases.iter().all(|lease| is_left(lease));
        return all.then(|| format!("{paper}, {way}: accepted"));
    }
    // the one lease behind a held list has position 0 too, and the list has no stale one then
    let lease = leases.get(behind(out, "StaleBoot")? as usize)?;
    let stale = lease[2] != before.head.boot && dip.before.is_none_or(|boot| lease[2] == boot);
    let live = letters(before, &[lease[0], lease[1], before.head.boot]) == "l";
    (stale && live && is_left(lease)).then(|| format!("{paper}, {way}: 16"))
}

/// "Salvage keeps the boot number of the head it was given", the one in force or another, and knows no other: leases
/// from before it are accepted with that one, and stale with any other, not once but often.
#[test]
fn every_case_of_boot_behind_a_salvage() {
    let mut seen: BTreeMap<String, usize> = BTreeMap::new();
    for seed in 1..=6 {
        let mut console = Desk::new();
        // the boot number of the head in the last call but for salvages, if another head was put in force since
        let mut paper = None;
        // up to the next head and the next preparation
        let mut dip: Option<Dip> = None;
        for line in history(seed).split(|&byte| byte == b'\n') {
            let (bytes, line) = (line, String::from_utf8_lossy(line));
            let by_lease = dip.is_some() && can_be_16(&line) && good_head(console.head);
            let before = by_lease.then(|| console.clone());
            let (boot, mut out) = (console.head.boot, Vec::new());
            let kind = console
                .line(&mut Plain, bytes, &mut out)
                .expect("a vector takes every byte");
            let out = String::from_utf8_lossy(&out);
            let mut case = None;
            match (word(&line, 0), kind) {
                ("head", Line::Command) => {
                    paper = paper.or(Some(boot));
                    dip = None;
                }
                ("salvage", Line::Call(_)) if out.starts_with("done ") => {
                    let before = paper.filter(|&old| old != boot);
                    case = before.map(|_| "done under another boot number".to_string());
                    let (words, _) = console.lent(console.head);
                    let cells = (0..).zip(console.table[..words].chunks_exact(3));
                    let left = cells
                        .filter(|(_, words)| words[0] == 1)
                        .map(|(cell, words)| [cell, words[1]])
                        .collect();
                    dip = Some(Dip { before, left });
                }
                ("salvage", Line::Call(_)) => {}
                (_, Line::Call(_)) => {
                    paper = None;
                    if line.starts_with("prepare ") && out.starts_with("done ") {
                        dip = None;
                    }
                    if let (Some(dip), Some(before)) = (&dip, &before) {
                        case = case_behind_salvage(dip, before, &line, &out);
                    }
                }
                _ => {}
            }
            if let Some(case) = case {
                *seen.entry(case).or_default() += 1;
            }
        }
    }
    let mut expected = vec!["done under another boot number".to_string()];
    for paper in ["the boot number in force", "another boot number"] {
        for way in ["alone", "in a held list", "release_all", "write_setpoint"] {
            expected.extend(["accepted", "16"].map(|said| format!("{paper}, {way}: {said}")));
        }
    }
    for case in expected {
        assert!(seen.get(&case) >= Some(&10), "{case}: {seen:?}");
    }
}

/// What each call can do to bits: kinds of `step` lines that its trace can have. Behind the kind `+` if there can be
/// several.
const STEPS: [(&str, &str); 25] = [
    ("prepare", "0 2 2+"),
    ("try_acquire", "0 1"),
    ("drop_lease", "0 2"),
    ("read_permission", "0"),
    ("competing_acquire_is_excluded", "0"),
    ("release_then_handoff", "0 2"),
    ("foreign_release_between_attempts", "0 2"),
    ("acquire_preserving_borrows", "0 1"),
    ("drop_preserving_borrows", "0 2"),
    ("environment", "0 1 1+ 2 2+"),
    ("environment_for_borrows", "0 1 1+ 2 2+"),
    ("try_lock", "0 1 1+ 2 2+"),
    ("other_mutex_preserves_leases", "0 1 1+ 2 2+"),
    ("transactional_try_lock_bucket", "0 1 1+ 2 2+"),
    ("acquire_index_bucket", "0 1 1+ 2 2+"),
    ("release_all", "0 1 1+ 2 2+"),
    ("acquire_index_locks", "0 1 1+ 2 2+"),
    ("acquire_sorted_locks", "0 1 1+ 2 2+"),
    ("crew", "0 1 1+"),
    ("crew_at_work", "0 1 1+"),
    ("salvage", "0 2 2+"),
    ("prepare_book", "0"),
    ("write_setpoint", "0"),
    ("read_setpoint", "0"),
    ("read_version", "0"),
];

#[test]
fn every_case_of_trace() {
    let mut seen: BTreeMap<String, BTreeSet<String>> = BTreeMap::new();
    let mut lines = BTreeSet::new();
    for seed in 1..=6 {
        let mut console = Desk::new();
        for line in history(seed).split(|&byte| byte == b'\n') {
            let (before, mut out) = (console.trace, Vec::new());
            let kind = console
                .line(&mut Plain, line, &mut out)
                .expect("a vector takes every byte");
            let out = String::from_utf8_lossy(&out).into_owned();
            let steps: Vec<&str> = out
                .lines()
                .filter_map(|line| line.strip_prefix("step "))
                .collect();
            assert_eq!(steps.is_empty(), !before || !matches!(kind, Line::Call(_)));
            let word = line.split(|&byte| byte == b' ').next().unwrap_or_default();
            let word = String::from_utf8_lossy(word).into_owned();
            if word == "trace" {
                lines.insert(format!("{kind:?} while {}", u32::from(before)));
            }
            for step in &steps {
                let several = if steps.len() > 1 { "+" } else { "" };
                let kind = format!("{}{several}", &step[..1]);
                seen.entry(word.clone()).or_default().insert(kind);
            }
        }
    }
    for (call, kinds) in STEPS {
        let expected: BTreeSet<String> = kinds.split(' ').map(String::from).collect();
        assert_eq!(seen.get(call), Some(&expected), "{call}");
    }
    assert_eq!(seen.len(), STEPS.len());
    assert_eq!(lines.len(), 4, "{lines:?}");
}
