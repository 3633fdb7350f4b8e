//! The proved library and plain Rust on the same cases. bench/speed.sh builds it, counts and times it.
//!
//! `speed say SIDE CASE SIZE` makes the call twice, and prints the second reply's counts and a sum of its words and of
//! all that was lent.
//!
//! `speed count SIDE CASE SIZE REPEATS call` makes the call so often and prints nothing; `none` in place of `call` does
//! all but the call. The difference of their instructions is that of the calls.
//!
//! `speed time CASE SIZE` prints nanoseconds a call, of the proved side and of the plain one: they take turns, and the
//! best counts.
//!
//! SIDE is `proved` or `plain`. Both get the same arguments from the same desk, through the same loop.

mod cases;
mod desk;
mod plainly;
mod proved;
mod side;

use desk::Desk;
use plainly::Plain;
use proved::Proved;
use side::*;
use std::env;
use std::process::ExitCode;
use std::time::{Duration, Instant};

/// The cases by name: the call, and the desk before it.
macro_rules! cases {
    ($($name:literal $call:ident $desk:ident;)*) => {
        fn said(words: &[&str]) -> Option<String> {
            match *words {
                $(
                    ["say", "proved", $name, size] => Some(say::<$call, Proved>(cases::$desk(size.parse().ok()?))),
                    ["say", "plain", $name, size] => Some(say::<$call, Plain>(cases::$desk(size.parse().ok()?))),
                    ["count", "proved", $name, size, repeats, how] => count::<$call, Proved>(cases::$desk(size.parse().ok()?), repeats, how),
                    ["count", "plain", $name, size, repeats, how] => count::<$call, Plain>(cases::$desk(size.parse().ok()?), repeats, how),
                    ["time", $name, size] => {
                        let size = size.parse().ok()?;
                        Some(time::<$call>(cases::$desk(size), cases::$desk(size)))
                    }
                )*
                _ => None,
            }
        }
    };
}
cases! {
    "refusal" AcquireIndexBucket refusal;
    "crew" Crew crew;
    "crew_at_work" CrewAtWork crew;
    "try_lock" TryLock free;
    "transactional" TransactionalTryLockBucket free;
    "bucket" AcquireIndexBucket free;
    "drop_lease" DropLease lease;
    "drop_preserving" DropPreservingBorrows lease;
    "waiters" Environment waiters;
    "release" Environment release;
    "releases" Environment releases;
    "steps" Environment steps;
    "locks" AcquireIndexLocks keys;
    "sorted" AcquireSortedLocks falling;
    "release_all" ReleaseAll given;
    "prepare" Prepare cold;
    "salvage_sound" Salvage sound;
    "salvage_dipped" Salvage dipped;
    "salvage_broken" Salvage broken;
    "write" WriteSpeed book;
    "slide" WriteSpeed crammed;
    "read" ReadVersion last_slot;
    "write_dump" WriteDump history;
    "read_dump" ReadDump dump;
}

/// The measured loop, alike for both sides.
#[inline(never)]
fn calls<C: Call, S: Side>(desk: &mut Desk, repeats: u64) {
    for _ in 0..repeats {
        desk.hidden().restore();
        C::call::<S>(desk.hidden(), &mut Blind);
    }
}

/// The same without the call.
#[inline(never)]
fn none(desk: &mut Desk, repeats: u64) {
    for _ in 0..repeats {
        desk.hidden().restore();
        desk.hidden();
    }
}

/// FNV-1a, a word at a time.
struct Sum(u64);

impl Sum {
    fn add(&mut self, words: impl IntoIterator<Item = impl Into<u64>>) {
        for word in words {
            self.0 = (self.0 ^ word.into()).wrapping_mul(0x0100_0000_01b3);
        }
    }
}

fn say<C: Call, S: Side>(mut desk: Desk) -> String {
    let mut kept = Kept(None);
    for _ in 0..2 {
        desk.restore();
        C::call::<S>(&mut desk, &mut kept);
    }
    let told = kept.0.expect("the call was made");
    let mut sum = Sum(0xcbf2_9ce4_8422_2325);
    sum.add(told.words);
    sum.add(desk.table);
    sum.add(desk.health);
    sum.add(desk.grants);
    sum.add(desk.counters);
    sum.add(desk.report);
    sum.add(desk.unconfirmed);
    sum.add(desk.book);
    sum.add(desk.text);
    sum.add(desk.history);
    format!("{} [{:016x}]\n", told.counts, sum.0)
}

fn count<C: Call, S: Side>(mut desk: Desk, repeats: &str, how: &str) -> Option<String> {
    let repeats = repeats.parse().ok()?;
    match how {
        "call" => calls::<C, S>(&mut desk, repeats),
        "none" => none(&mut desk, repeats),
        _ => return None,
    }
    Some(String::new())
}

/// How long a batch takes at least: so short that many are not disturbed.
const BATCH: Duration = Duration::from_micros(100);
/// How long the rounds of a case go on.
const ROUNDS: Duration = Duration::from_millis(1500);

/// A loop over a desk, how many repeats a batch has, and the best batch so far.
struct Timed<'a> {
    calls: fn(&mut Desk, u64),
    desk: &'a mut Desk,
    repeats: u64,
    best: Duration,
}

impl<'a> Timed<'a> {
    fn new(calls: fn(&mut Desk, u64), desk: &'a mut Desk) -> Self {
        let mut timed = Timed {
            calls,
            desk,
            repeats: 1,
            best: Duration::MAX,
        };
        while timed.batch() < BATCH {
            timed.repeats *= 2;
            timed.best = Duration::MAX;
        }
        timed
    }

    fn batch(&mut self) -> Duration {
        let start = Instant::now();
        (self.calls)(self.desk, self.repeats);
        let taken = start.elapsed();
        self.best = self.best.min(taken);
        taken
    }

    fn nanoseconds(&self) -> f64 {
        self.best.as_nanos() as f64 / self.repeats as f64
    }
}

fn time<C: Call>(mut one: Desk, mut other: Desk) -> String {
    let restore = {
        let mut timed = Timed::new(none, &mut one);
        for _ in 0..1000 {
            timed.batch();
        }
        timed.nanoseconds()
    };
    let mut proved = Timed::new(calls::<C, Proved>, &mut one);
    let mut plain = Timed::new(calls::<C, Plain>, &mut other);
    let start = Instant::now();
    while start.elapsed() < ROUNDS {
        proved.batch();
        plain.batch();
    }
    let alone = |timed: &Timed| timed.nanoseconds() - restore;
    format!("{:.2} {:.2}\n", alone(&proved), alone(&plain))
}

fn main() -> ExitCode {
    let words: Vec<String> = env::args().skip(1).collect();
    let words: Vec<&str> = words.iter().map(String::as_str).collect();
    match said(&words) {
        Some(text) => {
            print!("{text}");
            ExitCode::SUCCESS
        }
        None => {
            eprintln!("speed say SIDE CASE SIZE | count SIDE CASE SIZE REPEATS call|none | time CASE SIZE");
            ExitCode::from(2)
        }
    }
}
