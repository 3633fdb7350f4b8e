//! Random histories in the console's language. The same seed gives the same history.
//!
//! The writer plays each line as it writes it, so it knows the arena: it can name live leases, damage a cell that is in
//! use, and keep the calls with 4,096 attempts few. What it plays them through is a build, so a history can be played
//! through both builds while it is written.

mod arenas;
mod bad_lines;
mod book;
mod book_bytes;
mod calls;
mod lists;
mod locks;
mod numbers;
mod odd;
mod salvage;
mod scripts;
mod stale;

use crate::build::Build;
use crate::desk::{self, Desk};
use crate::dice::Dice;
use crate::line::Line;
use std::io::{self, Write};

/// Writes a history with at least so many calls, as this build answers them.
pub fn write(
    seed: u64,
    calls: usize,
    build: impl Build + Clone,
    out: &mut impl Write,
) -> io::Result<()> {
    let mut wrote = Ok(());
    let judge = build.clone();
    let mut writer = Writer::new(seed, build, judge, |_: &mut _, line: &[u8], _: &[u8]| {
        wrote = out.write_all(line).and_then(|()| out.write_all(b"\n"));
        wrote.is_ok()
    });
    writer.history(calls);
    drop(writer);
    wrote.and_then(|()| out.flush())
}

/// Every call with the count of its numbers, but for two of the book's: `write_setpoint`, which takes a word too, and
/// `read_version`, which is written beside what the book keeps.
const CALLS: [(&str, usize); 23] = [
    ("prepare", 4),
    ("try_acquire", 1),
    ("drop_lease", 3),
    ("read_permission", 3),
    ("competing_acquire_is_excluded", 3),
    ("release_then_handoff", 3),
    ("foreign_release_between_attempts", 3),
    ("acquire_preserving_borrows", 1),
    ("drop_preserving_borrows", 3),
    ("environment", 0),
    ("environment_for_borrows", 0),
    ("try_lock", 1),
    ("other_mutex_preserves_leases", 1),
    ("transactional_try_lock_bucket", 2),
    ("acquire_index_bucket", 2),
    ("release_all", 0),
    ("acquire_index_locks", 0),
    ("acquire_sorted_locks", 0),
    ("crew", 0),
    ("crew_at_work", 0),
    ("salvage", 0),
    ("prepare_book", 0),
    ("read_setpoint", 1),
];

pub struct Writer<B, J, K> {
    build: B,
    /// What a line would answer is tried with this build, on a copy of the RAM.
    judge: J,
    /// Is shown every line behind which it was played, and what it answered. False: enough.
    keep: K,
    enough: bool,
    dice: Dice,
    desk: Desk,
    pub calls: usize,
    /// Calls with 4,096 attempts or more; those of `write_restless` apart.
    failures: usize,
    restless: usize,
    /// The last line written, for bad copies of it.
    last: Vec<u8>,
    /// The last new boot number, those of the last preparations, and leases from before some of them.
    new_boot: u32,
    boots: Vec<u32>,
    old: Vec<[u32; 3]>,
}

impl<B: Build, J: Build + Clone, K: FnMut(&mut B, &[u8], &[u8]) -> bool> Writer<B, J, K> {
    pub fn new(seed: u64, build: B, judge: J, keep: K) -> Self {
        Writer {
            build,
            judge,
            keep,
            enough: false,
            dice: Dice(seed),
            desk: Desk::new(),
            calls: 0,
            failures: 0,
            restless: 0,
            last: Vec::new(),
            new_boot: 0,
            boots: Vec::new(),
            old: Vec::new(),
        }
    }

    /// Writes a history with at least so many calls, or up to where it was enough.
    pub fn history(&mut self, calls: usize) {
        // every call once before any preparation
        for (name, numbers) in CALLS {
            let list: Vec<u32> = (0..numbers).map(|_| self.dice.number(3)).collect();
            if name != "prepare" {
                self.write(name, &list);
            }
        }
        self.write("map", &[]);
        self.write_setpoint(0, [0, 1, 0], "speed", 1);
        self.write("read_version", &[0, 1]);
        // long lines are dear: one for each 3,000 calls
        let mut long = 3_000;
        while self.calls < calls && !self.enough {
            self.arena();
            for _ in 0..self.dice.below(60) + 5 {
                self.turn();
            }
            if self.calls >= long {
                long += 3_000;
                self.long();
                self.fail_late();
            }
            if self.dice.once_in(6) {
                self.show();
            }
        }
    }

    // ---- Lines

    fn line(&mut self, line: &[u8]) {
        // its text is free, so it is not to be compared
        if line == b"help" || self.enough {
            return;
        }
        let mut answer = Vec::new();
        let kind = self
            .desk
            .line(&mut self.build, line, &mut answer)
            .expect("a vector takes every byte");
        self.enough = !(self.keep)(&mut self.build, line, &answer);
        if matches!(kind, Line::Call(_)) {
            self.calls += 1;
            self.failures += usize::from(answer.starts_with(b"refused 11 "));
        }
        self.last = line.to_vec();
    }

    fn write(&mut self, word: &str, numbers: &[u32]) {
        let line = line_of(word, numbers);
        self.line(&line);
    }

    /// Writes a call unless it would have 4,096 attempts and such calls are many already. True: it was written.
    fn write_retrying(&mut self, word: &str, numbers: &[u32]) -> bool {
        let line = line_of(word, numbers);
        if self.failures * 60 >= self.calls && self.would_fail(&line) {
            return false;
        }
        self.line(&line);
        true
    }

    /// The same for a call under a restless script, counted apart, so that neither kind takes the other's room.
    fn write_restless(&mut self, word: &str, numbers: &[u32]) -> bool {
        let line = line_of(word, numbers);
        if self.restless * 200 >= self.calls && self.would_fail(&line) {
            return false;
        }
        let failures = self.failures;
        self.line(&line);
        self.restless += self.failures - failures;
        self.failures = failures;
        true
    }

    /// Whether a call would have 4,096 attempts.
    fn would_fail(&self, line: &[u8]) -> bool {
        let mut trial = self.desk.clone();
        let mut answer = Vec::new();
        let played = trial.line(&mut self.judge.clone(), line, &mut answer);
        played.is_err() || answer.starts_with(b"refused 11 ")
    }

    /// `show`, of big arenas now and then.
    fn show(&mut self) {
        let (words, _) = self.desk.lent(self.desk.head);
        if words <= 600 || self.dice.once_in(8) {
            self.write("show", &[]);
        }
    }

    /// `map`, of big arenas now and then.
    fn map(&mut self) {
        let (words, _) = self.desk.lent(self.desk.head);
        if words <= 600 || self.dice.once_in(8) {
            self.write("map", &[]);
        }
    }

    /// Echo on or off, or said again as it is. It is off for most of a history.
    fn echo(&mut self) {
        let echo = self.dice.once_in(3);
        self.write("echo", &[u32::from(echo)]);
    }

    /// Trace on or off, or said again as it is.
    fn trace(&mut self) {
        let trace = self.dice.once_in(2);
        self.write("trace", &[u32::from(trace)]);
    }

    fn write_setpoint(&mut self, slot: u32, lease: [u32; 3], kind: &str, value: u32) {
        let [cell, serial, boot] = lease;
        let line = format!("write_setpoint {slot} {cell} {serial} {boot} {kind} {value}");
        self.line(line.as_bytes());
    }

    fn prepare(&mut self, headers: u32, buckets: u32, first: u32) {
        let boot = self.next_boot();
        self.prepare_under(boot, headers, buckets, first);
    }

    /// A preparation, before which some of the live leases are remembered.
    fn prepare_under(&mut self, boot: u32, headers: u32, buckets: u32, first: u32) {
        self.remember();
        self.write("prepare", &[headers, buckets, first, boot]);
        self.boots.push(boot);
        let over = self.boots.len().saturating_sub(12);
        self.boots.drain(..over);
    }

    /// The head in force, with another next serial.
    fn write_next(&mut self, next: u32) {
        let numbers = [self.headers(), self.buckets(), next, self.boot()];
        self.write("head", &numbers);
    }

    /// `show_book`, of long books seldom: before it is prepared it may be full of rubbish.
    fn show_book(&mut self) {
        if self.desk.lent_book <= 900 || self.dice.once_in(60) {
            self.write("show_book", &[]);
        }
    }

    // ---- What the arena has

    fn headers(&self) -> u32 {
        self.desk.head.headers.clamp(1, 70)
    }

    fn buckets(&self) -> u32 {
        self.desk.head.buckets.clamp(1, 1030)
    }

    fn cells(&self) -> u32 {
        (self.headers() * self.buckets()).min(4200)
    }

    fn next(&self) -> u32 {
        self.desk.head.next
    }

    fn boot(&self) -> u32 {
        self.desk.head.boot
    }

    /// The three words of a cell of the table.
    fn words(&self, cell: u32) -> [u32; 3] {
        let at = 3 * (cell as usize).min(desk::TABLE / 3 - 1);
        let table = &self.desk.table;
        [table[at], table[at + 1], table[at + 2]]
    }

    fn is_live(&self, cell: u32, serial: u32) -> bool {
        cell < self.cells()
            && self.words(cell)[..2] == [1, serial]
            && serial != 0
            && serial < self.next()
    }

    /// Every live lease, the first 80 of them.
    fn live(&self) -> Vec<[u32; 3]> {
        (0..self.cells())
            .map(|cell| [cell, self.words(cell)[1], self.boot()])
            .filter(|lease| self.is_live(lease[0], lease[1]))
            .take(80)
            .collect()
    }

    /// Keeps some of the live leases for later, and a few of those that were kept before.
    fn remember(&mut self) {
        let live = self.some_live(4);
        let leases = live.chunks_exact(3);
        self.old.extend(leases.map(|one| [one[0], one[1], one[2]]));
        let over = self.old.len().saturating_sub(16);
        self.old.drain(..over);
    }
}

/// The numbers below `bound`, rising.
fn counting(bound: u32) -> Vec<u32> {
    (0..bound).collect()
}

/// Puts a lease between the leases of a list, before or behind them.
fn insert(list: &mut Vec<u32>, dice: &mut Dice, lease: [u32; 3]) {
    let at = 3 * dice.below(list.len() / 3 + 1);
    list.splice(at..at, lease);
}

/// The leases as they were written before they had boot numbers: two words each.
fn without_boots(list: &[u32]) -> Vec<u32> {
    list.chunks_exact(3)
        .flat_map(|lease| [lease[0], lease[1]])
        .collect()
}

fn line_of(word: &str, numbers: &[u32]) -> Vec<u8> {
    let mut line = word.to_string();
    for number in numbers {
        line.push(' ');
        line.push_str(&number.to_string());
    }
    line.into_bytes()
}
