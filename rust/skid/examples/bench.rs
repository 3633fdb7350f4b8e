//! Document 01's bench cases, through the crate `skid`, and of document 02 keys in any order, salvage, boot numbers, the
//! crew at work and the setpoint book, and edges of the calls. A line for each case; exit 1 if a figure is not the
//! documents'.
use skid::{
    Answer, Arena, BookAnswer, BookRefusal, Change, Counts, Head, Key, Lease, Played, Reason,
    Refusal, Reply, SalvageRefusal, Salvaged, Script, Setpoint, Step, LONGEST_BOOK, NO_SERIAL,
    ROOMY_BYTES, SLOT_BYTES,
};
use std::fmt::Debug;
use std::process::exit;

const REGISTRY: [u32; 3] = [0, 1, 1];
const CELL_2: Key = Key {
    binding: 0,
    bucket: 2,
};
const GUARD: u32 = 77;
const BOOT: u32 = 5;
const NO_COUNTS: Counts = Counts {
    attempts: 0,
    boundaries: 0,
    yields: 0,
    dropped: 0,
};

/// What is checked, and how many cases passed.
struct Bench {
    passed: usize,
    failed: usize,
    bad: bool,
}

impl Bench {
    fn check<T: Debug + PartialEq>(&mut self, what: &str, got: T, want: T) {
        print!("{what} {got:?}, ");
        if got != want {
            print!("BUT NOT {want:?}, ");
            self.bad = true;
        }
    }

    fn case(&mut self, name: &str, run: fn(&mut Bench)) {
        self.bad = false;
        print!("{name}: ");
        run(self);
        println!("{}", if self.bad { "FAILED" } else { "as it must be" });
        if self.bad {
            self.failed += 1;
        } else {
            self.passed += 1;
        }
    }

    /// A lease of the key (0,2), as the first case takes it.
    fn first_lease(&mut self, played: Played) {
        self.check("answer", played.answer, granted(2, 1));
        self.check("next", played.head.next, 2);
        self.check("attempts", played.counts.attempts, 1);
        self.check("boundaries", played.counts.boundaries, 3);
    }

    /// All of a reply without a script.
    fn replied(&mut self, got: Reply, next: u32, attempts: usize, answer: Answer) {
        self.check("answer", got.answer, answer);
        self.check("next", got.head.next, next);
        self.check("attempts", got.counts.attempts, attempts);
        let head = Head {
            headers: 2,
            buckets: 4,
            next,
            boot: BOOT,
        };
        let counts = Counts {
            attempts,
            ..NO_COUNTS
        };
        let want = Reply {
            head,
            counts,
            answer,
        };
        self.bad |= got != want;
    }

    fn all_free(&mut self, arena: &Arena) {
        let free = arena
            .table()
            .chunks(3)
            .filter(|cell| cell[0] == 0 && cell[1] == 0)
            .count();
        self.check("free cells", free, 8);
    }
}

/// A lease of the bench's boot number.
const fn leased(cell: u32, serial: u32) -> Lease {
    Lease {
        cell,
        serial,
        boot: BOOT,
    }
}

fn granted(cell: u32, serial: u32) -> Answer {
    Answer::Granted(leased(cell, serial))
}

/// Refusal 11, with the reason of the last attempt.
fn failed(why: Reason) -> Answer {
    Answer::Refused(Refusal::SerializationFailure(why))
}

/// The arena of the bench, H 2 and B 4, prepared over rubbish, between guards.
fn with_arena(serial: u32, run: impl FnOnce(&mut Arena)) {
    let mut table = [0x5a5a_5a5a; 26];
    let mut health = [0x5a; 4];
    (table[0], table[25]) = (GUARD, GUARD);
    let mut arena =
        Arena::prepare(2, 4, serial, BOOT, &mut table[1..25], &mut health[1..3]).expect("prepared");
    run(&mut arena);
    assert_eq!(
        (table[0], table[25], health[0], health[3]),
        (GUARD, GUARD, 0x5a, 0x5a),
        "a word outside the runs"
    );
}

/// The retry on the key (0, bucket).
fn acquire(arena: &mut Arena, steps: &[Step], held: &[Lease], bucket: u32) -> Played {
    arena.acquire_index_bucket(
        &REGISTRY,
        &mut Script::new(steps),
        held,
        Key { binding: 0, bucket },
    )
}

/// One boundary that runs one foreign step.
fn foreign(arena: &mut Arena, step: Step) {
    let played = arena.environment(&mut Script::new(&[step]), &[]);
    assert_eq!(
        (played.answer, played.counts.dropped),
        (Answer::Done, 0),
        "the step is legal"
    );
}

// ---- the bench cases, in document 01's order

fn key(b: &mut Bench) {
    with_arena(1, |arena| b.first_lease(acquire(arena, &[], &[], 2)));
    with_arena(1, |arena| {
        b.first_lease(arena.transactional_try_lock_bucket(
            &REGISTRY,
            &mut Script::quiet(),
            &[],
            CELL_2,
        ))
    });
    with_arena(1, |arena| {
        let mut grants = [Lease {
            cell: 7,
            serial: 7,
            boot: 7,
        }];
        let played =
            arena.acquire_index_locks(&REGISTRY, &mut Script::quiet(), &[], &[CELL_2], &mut grants);
        b.check("answer", played.answer, Answer::AllGranted);
        b.check("grants", grants, [leased(2, 1)]);
        b.check("next", played.head.next, 2);
        b.check("attempts", played.counts.attempts, 1);
        b.check("boundaries", played.counts.boundaries, 3);
    });
}

fn again(b: &mut Bench) {
    with_arena(1, |arena| {
        let first = acquire(arena, &[], &[], 2);
        b.check("answer", first.answer, granted(2, 1));
        let played = acquire(arena, &[], &[leased(2, 1)], 2);
        b.check("answer", played.answer, failed(Reason::Held(1)));
        b.check("boundaries", played.counts.boundaries, 12352);
        b.check("yields", played.counts.yields, 64);
        b.check("next", played.head.next, 2);
    });
}

fn waiters(b: &mut Bench) {
    with_arena(1, |arena| {
        foreign(arena, Step::waiters(2, 1));
        let played = acquire(arena, &[], &[], 2);
        b.check("answer", played.answer, failed(Reason::Before));
        b.check("boundaries", played.counts.boundaries, 8256);
        b.check("yields", played.counts.yields, 64);
        b.check("next", played.head.next, 1);
    });
}

fn late_waiters(b: &mut Bench) {
    with_arena(1, |arena| {
        let steps = [Step::END, Step::END, Step::waiters(2, 1), Step::END];
        let mut script = Script::new(&steps);
        let played = arena.try_lock(&mut script, &[], 2);
        b.check("answer", played.answer, Answer::Busy(Reason::After(1)));
        b.check("boundaries", played.counts.boundaries, 3);
        b.check("place", (played.place, script.place()), (4, 4));
        b.check("next", played.head.next, 2);
        b.all_free(arena);
    });
}

fn bucket_4(b: &mut Bench) {
    with_arena(1, |arena| {
        let played = acquire(arena, &[], &[], 4);
        b.check(
            "answer",
            played.answer,
            Answer::Refused(Refusal::InvalidBucket(4)),
        );
        b.check("boundaries", played.counts.boundaries, 0);
    });
}

fn bucket_3(b: &mut Bench) {
    with_arena(1, |arena| {
        b.check("answer", acquire(arena, &[], &[], 3).answer, granted(3, 1))
    });
}

fn poisoned(b: &mut Bench) {
    with_arena(1, |arena| {
        foreign(arena, Step::health(0, true));
        b.check(
            "answer",
            acquire(arena, &[], &[], 4).answer,
            Answer::Refused(Refusal::Poisoned(0)),
        );
    });
}

fn no_serial(b: &mut Bench) {
    with_arena(NO_SERIAL, |arena| {
        let played = acquire(arena, &[], &[], 2);
        b.check(
            "answer",
            played.answer,
            Answer::Refused(Refusal::SerialsSpent(2)),
        );
        b.check("boundaries", played.counts.boundaries, 2);
    });
}

fn last_serial(b: &mut Bench) {
    with_arena(NO_SERIAL - 1, |arena| {
        b.check(
            "answer",
            acquire(arena, &[], &[], 2).answer,
            granted(2, NO_SERIAL - 1),
        )
    });
}

fn spent_and_held(b: &mut Bench) {
    with_arena(NO_SERIAL - 1, |arena| {
        b.check(
            "answer",
            acquire(arena, &[], &[], 2).answer,
            granted(2, NO_SERIAL - 1),
        );
        let played = acquire(arena, &[], &[leased(2, NO_SERIAL - 1)], 2);
        b.check("answer", played.answer, failed(Reason::Held(NO_SERIAL - 1)));
    });
}

/// Cell 2 is foreign 1's, and the script releases it after the first attempt.
fn releasing(b: &mut Bench, held: &[Lease], check: fn(&mut Bench, Played)) {
    let lease = leased(2, 1);
    let steps = [Step::END, Step::END, Step::release(lease), Step::END];
    with_arena(1, |arena| {
        foreign(arena, Step::take(2));
        let played = acquire(arena, &steps, held, 2);
        check(b, played);
    });
}

fn foreign_release(b: &mut Bench) {
    releasing(b, &[], |b, played| {
        b.check("answer", played.answer, granted(2, 2));
        b.check("attempts", played.counts.attempts, 2);
        b.check("boundaries", played.counts.boundaries, 6);
    });
}

fn release_of_held(b: &mut Bench) {
    releasing(b, &[leased(2, 1)], |b, played| {
        b.check("answer", played.answer, failed(Reason::Held(1)));
        b.check("dropped", played.counts.dropped, 1);
    });
}

fn two_keys(b: &mut Bench) {
    with_arena(1, |arena| {
        let keys = [
            Key {
                binding: 1,
                bucket: 0,
            },
            Key {
                binding: 2,
                bucket: 0,
            },
        ];
        let mut grants = [Lease {
            cell: 7,
            serial: 7,
            boot: 7,
        }; 2];
        let played =
            arena.acquire_index_locks(&REGISTRY, &mut Script::quiet(), &[], &keys, &mut grants);
        b.check(
            "answer",
            played.answer,
            Answer::RefusedAt(Refusal::SerializationFailure(Reason::Held(1)), 1),
        );
        b.check("attempts", played.counts.attempts, 4097);
        b.check("boundaries", played.counts.boundaries, 12356);
        b.check("yields", played.counts.yields, 64);
        b.check("next", played.head.next, 2);
        b.check(
            "grants",
            grants,
            [Lease {
                cell: 7,
                serial: 7,
                boot: 7,
            }; 2],
        );
        b.all_free(arena);
    });
}

fn no_keys(b: &mut Bench) {
    with_arena(1, |arena| {
        let played = arena.acquire_index_locks(&REGISTRY, &mut Script::quiet(), &[], &[], &mut []);
        b.check("answer", played.answer, Answer::AllGranted);
        b.check("counts", played.counts, NO_COUNTS);
    });
}

fn crew(b: &mut Bench) {
    with_arena(1, |arena| {
        let turns = [0, 1, 0, 1, 0, 1, 0, 1, 0, 1, 0, 1, 0, 1];
        let reply = arena.crew(&[2, 2], &[2, 5, 2, 5], &turns);
        let mut each = [0; 16];
        (each[0], each[1]) = (2, 2);
        b.check("answer", reply.answer, Answer::Done);
        b.check("moving", reply.moving, 8);
        b.check("idle", reply.idle, 6);
        b.check("next", reply.head.next, 5);
        b.check("taken", reply.taken, each);
        b.check("released", reply.released, each);
        b.all_free(arena);
    });
}

fn falling_list(b: &mut Bench) {
    with_arena(1, |arena| {
        let reply = arena.crew(&[2, 2], &[2, 5, 5, 2], &[0, 1]);
        b.check("answer", reply.answer, Answer::Refused(Refusal::BadCrew(1)));
    });
}

// ---- keys in any order, and doubles

const NINES: Lease = Lease {
    cell: 9,
    serial: 9,
    boot: 9,
};

fn keys_of<const N: usize>(keys: [(u32, u32); N]) -> [Key; N] {
    keys.map(|(binding, bucket)| Key { binding, bucket })
}

fn leases_of<const N: usize>(leases: [(u32, u32); N]) -> [Lease; N] {
    leases.map(|(cell, serial)| leased(cell, serial))
}

/// These keys with a quiet script, and the grant buffer afterwards.
fn sorted<const N: usize>(
    arena: &mut Arena,
    registry: &[u32],
    keys: [(u32, u32); N],
) -> (Played, [Lease; N]) {
    let mut grants = [NINES; N];
    let quiet = &mut Script::quiet();
    let played = arena.acquire_sorted_locks(registry, quiet, &[], &keys_of(keys), &mut grants);
    (played, grants)
}

fn doubles(b: &mut Bench) {
    with_arena(1, |arena| {
        let (played, grants) = sorted(arena, &REGISTRY, [(1, 0), (2, 0)]);
        b.check("answer", played.answer, Answer::AllGranted);
        b.check("grants", grants, leases_of([(4, 1), (4, 1)]));
        b.check("attempts", played.counts.attempts, 1);
        b.check("next", played.head.next, 2);
    });
    with_arena(1, |arena| {
        let (played, grants) = sorted(arena, &REGISTRY, [(1, 0), (0, 2), (2, 0)]);
        b.check("answer", played.answer, Answer::AllGranted);
        b.check("grants", grants, leases_of([(4, 2), (2, 1), (4, 2)]));
        b.check("attempts", played.counts.attempts, 2);
        b.check("boundaries", played.counts.boundaries, 6);
        let played = arena.release_all(&mut Script::quiet(), &grants);
        b.check(
            "answer",
            played.answer,
            Answer::Refused(Refusal::Repeated(2)),
        );
        let played = arena.release_all(&mut Script::quiet(), &grants[..2]);
        b.check("answer", played.answer, Answer::Done);
        b.all_free(arena);
    });
}

fn falling_keys(b: &mut Bench) {
    with_arena(1, |arena| {
        let (played, grants) = sorted(arena, &REGISTRY, [(1, 1), (0, 3), (0, 0)]);
        b.check("answer", played.answer, Answer::AllGranted);
        b.check("grants", grants, leases_of([(5, 3), (3, 2), (0, 1)]));
        b.check("boundaries", played.counts.boundaries, 9);
    });
}

fn refused_keys(b: &mut Bench) {
    with_arena(1, |arena| {
        let strangers = [0, 9, 1];
        let (played, grants) = sorted(arena, &strangers, [(0, 4), (1, 0)]);
        b.check(
            "answer",
            played.answer,
            Answer::RefusedAt(Refusal::InvalidBucket(4), 0),
        );
        b.check("grants", grants, [NINES; 2]);
        b.check("attempts", played.counts.attempts, 0);
        let (played, _) = sorted(arena, &strangers, [(2, 0), (1, 7)]);
        b.check(
            "answer",
            played.answer,
            Answer::RefusedAt(Refusal::BadHeader(9), 1),
        );
        let (played, _) = sorted(arena, &strangers, [(0, 4), (1, 0), (3, 0)]);
        b.check(
            "answer",
            played.answer,
            Answer::Refused(Refusal::BadBinding(2)),
        );
        foreign(arena, Step::take(4));
        let (played, grants) = sorted(arena, &REGISTRY, [(0, 2), (2, 0), (1, 0)]);
        b.check(
            "answer",
            played.answer,
            Answer::RefusedAt(Refusal::SerializationFailure(Reason::Held(1)), 1),
        );
        b.check("grants", grants, [NINES; 3]);
        b.check("attempts", played.counts.attempts, 4097);
        b.check("next", played.head.next, 3);
    });
}

// ---- salvage after a warm restart

const PAPER: Head = Head {
    headers: 2,
    buckets: 4,
    next: 3,
    boot: BOOT,
};
const EMPTY: Change = Change {
    place: 9,
    old: 9,
    new: 9,
};

/// Serials 1 and 2 hold cells 2 and 6; then power dips: cell 0's bit is 7, cell 4 has an owner that was never issued,
/// somebody waits for cell 6, header 1's health is 200.
fn after_a_dip(run: impl FnOnce(&mut [u32], &mut [u8])) {
    let (mut table, mut health) = ([0; 26], [0x5a; 4]);
    (table[0], table[25]) = (GUARD, GUARD);
    let cells = &mut table[1..25];
    cells[6..8].copy_from_slice(&[1, 1]);
    cells[18..21].copy_from_slice(&[1, 2, 3]);
    cells[0] = 7;
    cells[12..14].copy_from_slice(&[1, 3]);
    (health[1], health[2]) = (1, 200);
    run(cells, &mut health[1..3]);
    assert_eq!(
        (table[0], table[25], health[0], health[3]),
        (GUARD, GUARD, 0x5a, 0x5a),
        "a word outside the runs"
    );
}

fn salvage(b: &mut Bench) {
    after_a_dip(|table, health| {
        let (mut report, mut list) = ([EMPTY; 6], [9; 3]);
        {
            let (mut arena, found) =
                Arena::salvage(PAPER, table, health, &mut report, &mut list).expect("salvaged");
            let want = Salvaged {
                changed: 5,
                held: 2,
            };
            b.check("found", found, want);
            b.check("head", arena.head(), PAPER);
            b.check("health", arena.health(), &[1, 1]);
            b.check("dropped", arena.drop_lease(GOVERNOR).answer, Answer::Done);
            b.check("taken", arena.try_acquire(4).answer, granted(4, 3));
        }
        let words = report.map(|c| (c.place, c.old, c.new));
        let want = [
            (0, 7, 0),
            (12, 1, 0),
            (13, 3, 0),
            (20, 3, 0),
            (25, 200, 1),
            (9, 9, 9),
        ];
        b.check("report", words, want);
        b.check("list", list, [2, 6, 9]);
    });
}

fn second_salvage(b: &mut Bench) {
    after_a_dip(|table, health| {
        let first = Arena::salvage(PAPER, table, health, &mut [EMPTY; 5], &mut [9; 2]);
        b.check("first", first.is_ok(), true);
        let mut list = [9; 2];
        let second = Arena::salvage(PAPER, table, health, &mut [], &mut list);
        let want = Salvaged {
            changed: 0,
            held: 2,
        };
        b.check("second", second.map(|(_, found)| found).ok(), Some(want));
        b.check("list", list, [2, 6]);
    });
}

fn refused_salvage(b: &mut Bench) {
    after_a_dip(|table, health| {
        let mut before = [0; 24];
        before.copy_from_slice(table);
        for (changes, cells) in [(4, 2), (5, 1), (0, 0)] {
            let (mut report, mut list) = ([EMPTY; 5], [9; 2]);
            let refused = Arena::salvage(
                PAPER,
                table,
                health,
                &mut report[..changes],
                &mut list[..cells],
            );
            b.check("refused", refused.err(), Some(SalvageRefusal::ReportFull));
            b.check("report", (report, list), ([EMPTY; 5], [9; 2]));
        }
        let short = Arena::salvage(PAPER, &mut table[1..], health, &mut [], &mut []);
        b.check("refused", short.err(), Some(SalvageRefusal::BadShape));
        b.check("words as they were", *table == before, true);
        b.check("bytes as they were", health, &mut [1, 200]);
    });
}

// ---- boot numbers: cells 2 and 5 are held by serials 1 and 2; a lease of another number is refused, live or dead

fn stale(cell: u32, serial: u32) -> Lease {
    Lease {
        cell,
        serial,
        boot: BOOT - 1,
    }
}

fn with_two(run: impl FnOnce(&mut Arena)) {
    with_arena(1, |arena| {
        assert_eq!(arena.try_acquire(2).answer, granted(2, 1));
        assert_eq!(arena.try_acquire(5).answer, granted(5, 2));
        run(arena);
    });
}

fn stale_leases(b: &mut Bench) {
    with_two(|arena| {
        let refused = Answer::Refused(Refusal::StaleBoot(0));
        let later = Lease {
            boot: BOOT + 1,
            ..GOVERNOR
        };
        b.replied(arena.drop_lease(stale(2, 1)), 3, 0, refused);
        b.replied(arena.drop_lease(stale(9, 9)), 3, 0, refused);
        b.replied(arena.read_permission(later), 3, 0, refused);
        b.replied(arena.competing_acquire_is_excluded(later), 3, 0, refused);
        b.replied(arena.release_then_handoff(stale(2, 1)), 3, 0, refused);
        let call = arena.foreign_release_between_attempts(&[], stale(2, 1));
        b.replied(call, 3, 0, refused);
        let call = arena.drop_preserving_borrows(&[GOVERNOR], stale(2, 1));
        b.replied(call, 3, 0, refused);
        b.replied(arena.drop_lease(GOVERNOR), 3, 0, Answer::Done);
    });
}

/// A call with a held list: its script, the list, room for a grant. Cell 1 is free, and serial 3 holds cell 3.
type HeldCall = fn(&mut Arena, &mut Script, &[Lease], &mut [Lease]) -> Played;

/// A reply without a script leaves the script where it is.
fn beside(script: &Script, reply: Reply) -> Played {
    Played {
        head: reply.head,
        place: script.place(),
        counts: reply.counts,
        answer: reply.answer,
    }
}

const CELL_1: Key = Key {
    binding: 0,
    bucket: 1,
};
const HELD_CALLS: [(&str, HeldCall); 11] = [
    ("environment", |a, s, held, _| a.environment(s, held)),
    ("environment_for_borrows", |a, s, held, _| {
        a.environment_for_borrows(s, held)
    }),
    ("try_lock", |a, s, held, _| a.try_lock(s, held, 1)),
    ("other_mutex_preserves_leases", |a, s, held, _| {
        a.other_mutex_preserves_leases(s, held, 1)
    }),
    ("transactional_try_lock_bucket", |a, s, held, _| {
        a.transactional_try_lock_bucket(&REGISTRY, s, held, CELL_1)
    }),
    ("acquire_index_bucket", |a, s, held, _| {
        a.acquire_index_bucket(&REGISTRY, s, held, CELL_1)
    }),
    ("acquire_index_locks", |a, s, held, grants| {
        a.acquire_index_locks(&REGISTRY, s, held, &[CELL_1], grants)
    }),
    ("acquire_sorted_locks", |a, s, held, grants| {
        a.acquire_sorted_locks(&REGISTRY, s, held, &[CELL_1], grants)
    }),
    ("acquire_preserving_borrows", |a, s, held, _| {
        beside(s, a.acquire_preserving_borrows(held, 1))
    }),
    ("drop_preserving_borrows", |a, s, held, _| {
        beside(s, a.drop_preserving_borrows(held, leased(3, 3)))
    }),
    ("foreign_release_between_attempts", |a, s, held, _| {
        beside(s, a.foreign_release_between_attempts(held, leased(3, 3)))
    }),
];

fn stale_in_held_lists(b: &mut Bench) {
    let steps = [Step::take(6), Step::waiters(7, 4)];
    for (name, call) in HELD_CALLS {
        with_two(|arena| {
            assert_eq!(arena.try_acquire(3).answer, granted(3, 3));
            foreign(arena, Step::waiters(0, 6));
            foreign(arena, Step::health(1, true));
            let mut script = Script::starting_at(&steps, 1);
            let (before, mut grants) = (arena.table().to_vec(), [NINES]);
            let want = Played {
                head: arena.head(),
                place: 1,
                counts: NO_COUNTS,
                answer: Answer::Refused(Refusal::StaleBoot(1)),
            };
            let played = call(arena, &mut script, &[GOVERNOR, stale(5, 2)], &mut grants);
            b.check(name, played, want);
            b.check("head", arena.head(), want.head);
            b.check("place", script.place(), 1);
            b.check("table as it was", arena.table() == before, true);
            b.check("health", arena.health(), &[0, 1]);
            b.check("grants", grants, [NINES]);
            // but for that number nothing is wrong
            let played = call(arena, &mut script, &[GOVERNOR, leased(5, 2)], &mut grants);
            let refused = matches!(played.answer, Answer::Refused(_) | Answer::RefusedAt(..));
            b.check("else refused", refused, false);
        });
    }
}

fn stale_in_lists(b: &mut Bench) {
    with_two(|arena| {
        let held = arena.acquire_preserving_borrows(&[GOVERNOR, stale(5, 2)], 9);
        b.replied(held, 3, 0, Answer::Refused(Refusal::StaleBoot(1)));
        let held = arena.acquire_preserving_borrows(&[leased(2, 7), stale(5, 2)], 9);
        b.replied(held, 3, 0, Answer::Refused(Refusal::BadHeld(0)));
        let list = [GOVERNOR, stale(2, 1), GOVERNOR];
        let played = arena.release_all(&mut Script::quiet(), &list);
        b.check(
            "answer",
            played.answer,
            Answer::Refused(Refusal::StaleBoot(1)),
        );
        let played = arena.release_all(&mut Script::quiet(), &[GOVERNOR, leased(5, 2)]);
        b.check("answer", played.answer, Answer::Done);
        b.all_free(arena);
    });
}

fn second_preparation(b: &mut Bench) {
    let (mut table, mut health) = ([0; 24], [0; 2]);
    let mut arena = Arena::prepare(2, 4, 1, BOOT, &mut table, &mut health).expect("prepared");
    b.check("taken", arena.try_acquire(2).answer, granted(2, 1));
    let mut arena = Arena::prepare(2, 4, 1, BOOT + 1, &mut table, &mut health).expect("prepared");
    let newer = Lease {
        boot: BOOT + 1,
        ..GOVERNOR
    };
    b.check("taken", arena.try_acquire(2).answer, Answer::Granted(newer));
    let old = arena.drop_lease(GOVERNOR).answer;
    b.check("old", old, Answer::Refused(Refusal::StaleBoot(0)));
    b.check("new", arena.drop_lease(newer).answer, Answer::Done);
}

// ---- the crew at work: cell 2's counter is 40,000, cell 5's 30,000, all others 7

const COUNTERS: [u16; 8] = [7, 7, 40_000, 7, 7, 30_000, 7, 7];
const TURNS: [u32; 22] = [
    0, 1, 0, 1, 0, 1, 0, 1, 0, 1, 0, 1, 0, 1, 0, 1, 0, 1, 0, 1, 0, 1,
];

fn at_work(b: &mut Bench) {
    with_arena(1, |arena| {
        let mut counters = COUNTERS;
        let reply = arena.crew_at_work(&[2, 2], &[2, 5, 2, 5], &TURNS, &mut counters);
        let mut each = [0; 16];
        (each[0], each[1]) = (2, 2);
        b.check("answer", reply.answer, Answer::Done);
        b.check("moving", reply.moving, 12);
        b.check("idle", reply.idle, 10);
        b.check("next", reply.head.next, 5);
        b.check("taken", reply.taken, each);
        b.check("released", reply.released, each);
        b.check("counters", counters, [7, 7, 28_928, 7, 7, 18_928, 7, 7]);
        b.all_free(arena);
    });
}

fn some_work(b: &mut Bench) {
    with_arena(1, |arena| {
        let mut counters = COUNTERS;
        let reply = arena.crew_at_work(&[1], &[2], &[0, 0, 0], &mut counters);
        b.check("moving", reply.moving, 3);
        b.check("counters", counters, [7, 7, 14_464, 7, 7, 30_000, 7, 7]);
        b.all_free(arena);
        let mut counters = COUNTERS;
        let reply = arena.crew_at_work(&[2, 2], &[2, 5, 2, 5], &TURNS[..6], &mut counters);
        b.check("answer", reply.answer, Answer::Done);
        b.check("moving", (reply.moving, reply.idle), (3, 3));
        b.check("taken", (reply.taken[0], reply.released[0]), (2, 0));
        b.check("counters", counters, [7, 7, 14_464, 7, 7, 30_000, 7, 7]);
    });
}

fn refused_work(b: &mut Bench) {
    with_arena(1, |arena| {
        let mut counters = COUNTERS;
        let short = arena.crew_at_work(&[2, 2], &[2, 5, 5, 2], &TURNS, &mut counters[1..]);
        b.check("answer", short.answer, Answer::Refused(Refusal::BadShape));
        let falling = arena.crew_at_work(&[2, 2], &[2, 5, 5, 2], &TURNS, &mut counters);
        b.check(
            "answer",
            falling.answer,
            Answer::Refused(Refusal::BadCrew(1)),
        );
        b.check("counters", counters, COUNTERS);
        b.all_free(arena);
    });
}

// ---- the setpoint book: the governor holds cell 2 by serial 1, the panel reads

const GOVERNOR: Lease = leased(2, 1);
const BAR: Setpoint = Setpoint::Pressure(1.5);

/// Eight slots: where the bodies begin, and the bytes with room for every version.
const FRONT: usize = 8 * SLOT_BYTES;
const ROOMY: usize = 8 * ROOMY_BYTES;

/// A book of eight slots with room for every version.
fn with_book(run: impl FnOnce(&mut Arena, &mut [u8])) {
    with_book_of(ROOMY, run);
}

/// A book of eight slots and so many bytes, prepared over rubbish, between guards.
fn with_book_of(length: usize, run: impl FnOnce(&mut Arena, &mut [u8])) {
    with_arena(1, |arena| {
        assert_eq!(acquire(arena, &[], &[], 2).answer, granted(2, 1));
        let mut bytes = [0x5a; ROOMY + 2];
        let book = &mut bytes[1..length + 1];
        assert_eq!(arena.prepare_book(book), BookAnswer::Done);
        run(arena, book);
        let outside = |byte: &u8| *byte == 0x5a;
        assert!(
            bytes[..1].iter().chain(&bytes[length + 1..]).all(outside),
            "a byte outside the book"
        );
    });
}

/// A done write.
fn written(version: u32, moved: u32) -> BookAnswer {
    BookAnswer::Written { version, moved }
}

/// Versions 1 to `last` of slot 2, each the speed of its own number.
fn speeds_to(b: &mut Bench, arena: &Arena, book: &mut [u8], last: u32) {
    for version in 1..=last {
        let write = arena.write_setpoint(book, 2, GOVERNOR, Setpoint::Speed(version));
        b.check("write", write, written(version, 0));
    }
}

/// Versions 0 to 7 of slot 2: these are kept, the others are not.
fn keeps(b: &mut Bench, arena: &Arena, book: &[u8], versions: std::ops::RangeInclusive<u32>) {
    for version in 0..8 {
        let want = match versions.contains(&version) {
            true => BookAnswer::Setting(Setpoint::Speed(version), version),
            false => not(BookRefusal::NeverWritten),
        };
        b.check("version", arena.read_version(book, 2, version), want);
    }
}

fn not(refusal: BookRefusal) -> BookAnswer {
    BookAnswer::Refused(refusal)
}

/// The bits of a pressure, since -0.0 equals 0.0.
fn bits(answer: BookAnswer) -> Option<(u32, u32)> {
    match answer {
        BookAnswer::Setting(Setpoint::Pressure(bar), version) => Some((bar.to_bits(), version)),
        _ => None,
    }
}

fn never_written(b: &mut Bench) {
    with_book(|arena, book| {
        b.check("bytes not 0", book.iter().filter(|x| **x != 0).count(), 0);
        for slot in 0..8 {
            let read = arena.read_setpoint(book, slot);
            b.check("read", read, not(BookRefusal::NeverWritten));
            let read = arena.read_version(book, slot, 1);
            b.check("read", read, not(BookRefusal::NeverWritten));
        }
        book.fill(0x5a);
        let read = arena.read_setpoint(book, 2);
        b.check("not prepared", read, not(BookRefusal::DamagedBook));
    });
}

fn governor_writes(b: &mut Bench) {
    with_book(|arena, book| {
        let write = arena.write_setpoint(book, 2, GOVERNOR, BAR);
        b.check("write", write, written(1, 0));
        b.check("line", &book[64..72], &[0, 1, 5, 0, 1, 0, 0, 0]);
        b.check("body", &book[FRONT..FRONT + 5], &[1, 0, 0, 192, 63]);
        let read = arena.read_setpoint(book, 2);
        b.check("read", read, BookAnswer::Setting(BAR, 1));
        for (version, pattern) in [(2, 0x8000_0000), (3, 1), (4, 0x7f7f_ffff)] {
            let setpoint = Setpoint::Pressure(f32::from_bits(pattern));
            let write = arena.write_setpoint(book, 2, GOVERNOR, setpoint);
            b.check("write", write, written(version, 0));
            let read = arena.read_setpoint(book, 2);
            b.check("bits", bits(read), Some((pattern, version)));
        }
        let others = [
            Setpoint::Speed(u32::MAX),
            Setpoint::Valve(true),
            Setpoint::Valve(false),
        ];
        for (version, setpoint) in (5..).zip(others) {
            let write = arena.write_setpoint(book, 2, GOVERNOR, setpoint);
            b.check("write", write, written(version, 0));
            let read = arena.read_setpoint(book, 2);
            b.check("read", read, BookAnswer::Setting(setpoint, version));
        }
        let read = arena.read_setpoint(book, 3);
        b.check("slot 3", read, not(BookRefusal::NeverWritten));
    });
}

fn refused_writes(b: &mut Bench) {
    with_book(|arena, book| {
        let dead = leased(2, 7);
        let stale = Lease { boot: 4, ..dead };
        let earlier = Lease {
            boot: 4,
            ..GOVERNOR
        };
        let nan = Setpoint::Pressure(f32::NAN);
        let below = Setpoint::Pressure(f32::NEG_INFINITY);
        let _ = arena.write_setpoint(book, 2, GOVERNOR, BAR);
        book[FRONT] = 4;
        let mut before = [0; ROOMY];
        before.copy_from_slice(book);
        let bare =
            Arena::resume(arena.head(), &mut [], &mut []).write_setpoint(book, 8, stale, nan);
        b.check("no table", bare, not(BookRefusal::BadShape));
        for (slot, lease, setpoint, refusal) in [
            (8, stale, nan, BookRefusal::BadSlot),
            (2, stale, nan, BookRefusal::StaleBoot),
            (2, earlier, nan, BookRefusal::StaleBoot),
            (2, dead, nan, BookRefusal::NotHeld),
            (3, GOVERNOR, BAR, BookRefusal::NotHeld),
            (2, GOVERNOR, nan, BookRefusal::NotFinite),
            (2, GOVERNOR, below, BookRefusal::NotFinite),
            (2, GOVERNOR, BAR, BookRefusal::DamagedBook),
        ] {
            let write = arena.write_setpoint(book, slot, lease, setpoint);
            b.check("write", write, not(refusal));
        }
        b.check("bytes as they were", *book == before, true);
        // damage of slot 2 is damage of the book
        let read = arena.read_setpoint(book, 3);
        b.check("slot 3", read, not(BookRefusal::DamagedBook));
        let read = arena.read_version(book, 3, 1);
        b.check("slot 3", read, not(BookRefusal::DamagedBook));
        let short = arena.prepare_book(&mut book[..FRONT - 1]);
        b.check("too short", short, not(BookRefusal::BadSlot));
        let long = arena.prepare_book(&mut [0; LONGEST_BOOK + 1]);
        b.check("too long", long, not(BookRefusal::BadSlot));
    });
}

fn last_version(b: &mut Bench) {
    with_book(|arena, book| {
        speeds_to(b, arena, book, 4);
        for (line, low) in [(64, 0xff), (72, 0xfe), (80, 0xfd), (88, 0xfc)] {
            book[line + 4..line + 8].copy_from_slice(&[low, 0xff, 0xff, 0xff]);
        }
        let write = arena.write_setpoint(book, 2, GOVERNOR, BAR);
        b.check("write", write, not(BookRefusal::VersionsSpent));
        let read = arena.read_setpoint(book, 2);
        let newest = BookAnswer::Setting(Setpoint::Speed(4), u32::MAX);
        b.check("read", read, newest);
        let read = arena.read_version(book, 2, u32::MAX - 3);
        let oldest = BookAnswer::Setting(Setpoint::Speed(1), u32::MAX - 3);
        b.check("read", read, oldest);
    });
}

/// The fifth write drops the first; each kept version is read, and none that is not.
fn fifth_write(b: &mut Bench) {
    with_book(|arena, book| {
        speeds_to(b, arena, book, 4);
        keeps(b, arena, book, 1..=4);
        let write = arena.write_setpoint(book, 2, GOVERNOR, Setpoint::Speed(5));
        b.check("write", write, written(5, 0));
        keeps(b, arena, book, 2..=5);
        b.check("dropped body", &book[FRONT..FRONT + 5], &[0; 5]);
    });
}

/// Room for five bodies: the sixth write slides three of them, and not the new one.
fn slide(b: &mut Bench) {
    with_book_of(FRONT + 25, |arena, book| {
        speeds_to(b, arena, book, 5);
        let write = arena.write_setpoint(book, 2, GOVERNOR, Setpoint::Speed(6));
        b.check("write", write, written(6, 15));
        keeps(b, arena, book, 3..=6);
        b.check("first body", &book[FRONT..FRONT + 5], &[2, 3, 0, 0, 0]);
        b.check("last bytes", &book[FRONT + 20..], &[0; 5]);
    });
}

/// Room for three bodies and four bytes more: the fourth write is refused and changes nothing.
fn full_book(b: &mut Bench) {
    with_book_of(FRONT + 19, |arena, book| {
        speeds_to(b, arena, book, 3);
        let before = book.to_vec();
        let write = arena.write_setpoint(book, 2, GOVERNOR, Setpoint::Speed(4));
        b.check("write", write, not(BookRefusal::BookFull));
        b.check("bytes as they were", *book == *before, true);
        keeps(b, arena, book, 1..=3);
    });
}

/// Two bodies that share one byte, of slot 2; then every slot is refused, until the book is prepared.
fn overlap(b: &mut Bench) {
    with_book(|arena, book| {
        speeds_to(b, arena, book, 2);
        // the newest begins on the last byte of the other, which is a speed still
        book.copy_within(FRONT + 5..FRONT + 10, FRONT + 4);
        book[64] = 4;
        let read = arena.read_version(book, 2, 2);
        b.check("overlap", read, not(BookRefusal::DamagedBook));
        for slot in 0..8 {
            let read = arena.read_setpoint(book, slot);
            b.check("slot", read, not(BookRefusal::DamagedBook));
        }
        let write = arena.write_setpoint(book, 2, GOVERNOR, BAR);
        b.check("write", write, not(BookRefusal::DamagedBook));
        b.check("prepared", arena.prepare_book(book), BookAnswer::Done);
        let write = arena.write_setpoint(book, 2, GOVERNOR, BAR);
        b.check("write", write, written(1, 0));
    });
}

// ---- edges: each call by its own name, empty lists, refused preparations

fn without_script(b: &mut Bench) {
    with_arena(1, |arena| {
        let (five, six) = (leased(5, 1), leased(6, 2));
        let newer = leased(6, 3);
        b.replied(arena.try_acquire(5), 2, 1, granted(5, 1));
        b.replied(
            arena.try_acquire(8),
            2,
            0,
            Answer::Refused(Refusal::InvalidBucket(8)),
        );
        b.replied(arena.read_permission(five), 2, 0, Answer::Cell(5));
        b.replied(
            arena.read_permission(six),
            2,
            0,
            Answer::Refused(Refusal::NotHeld(0)),
        );
        b.replied(
            arena.competing_acquire_is_excluded(five),
            2,
            1,
            Answer::Busy(Reason::Held(1)),
        );
        b.replied(
            arena.acquire_preserving_borrows(&[five], 6),
            3,
            1,
            granted(6, 2),
        );
        b.replied(
            arena.drop_preserving_borrows(&[five], five),
            3,
            0,
            Answer::Refused(Refusal::Protected),
        );
        b.replied(
            arena.foreign_release_between_attempts(&[five], six),
            4,
            2,
            granted(6, 3),
        );
        b.replied(
            arena.acquire_preserving_borrows(&[five, six], 7),
            4,
            0,
            Answer::Refused(Refusal::BadHeld(1)),
        );
        b.replied(arena.release_then_handoff(five), 5, 1, granted(5, 4));
        b.replied(arena.drop_lease(leased(5, 4)), 5, 0, Answer::Done);
        b.replied(
            arena.drop_preserving_borrows(&[], newer),
            5,
            0,
            Answer::Done,
        );
        b.all_free(arena);
    });
}

fn with_script(b: &mut Bench) {
    with_arena(1, |arena| {
        let three = leased(3, 1);
        b.replied(arena.try_acquire(3), 2, 1, granted(3, 1));
        let unknown = Step {
            kind: 9,
            place: 9,
            number: 9,
        };
        let steps = [
            Step::OBSERVE,
            Step::release(three),
            unknown,
            Step::health(1, true),
        ];
        let mut script = Script::starting_at(&steps, 1);
        let played = arena.environment_for_borrows(&mut script, &[three]);
        b.check("answer", played.answer, Answer::Done);
        b.check("dropped", played.counts.dropped, 2);
        b.check("place", script.place(), 4);
        b.check("health", arena.health(), &[0, 1]);

        let played = arena.environment(&mut Script::starting_at(&steps, 5), &[three]);
        b.check("answer", played.answer, Answer::Refused(Refusal::BadScript));
        b.check("place", played.place, 5);
        let played = arena.other_mutex_preserves_leases(&mut Script::quiet(), &[three], 4);
        b.check(
            "answer",
            played.answer,
            Answer::Refused(Refusal::Poisoned(1)),
        );
        b.check("boundaries", played.counts.boundaries, 3);
        let mended = [Step::health(1, false)];
        let played = arena.environment(&mut Script::starting_at(&mended, 0), &[three]);
        b.check("answer", played.answer, Answer::Done);
        let played = arena.other_mutex_preserves_leases(&mut Script::quiet(), &[three], 4);
        b.check("answer", played.answer, granted(4, 3));
        let leases = [three, leased(4, 3)];
        let played = arena.release_all(&mut Script::quiet(), &[leases[0], leases[1], leases[0]]);
        b.check(
            "answer",
            played.answer,
            Answer::Refused(Refusal::Repeated(2)),
        );
        let played = arena.release_all(&mut Script::quiet(), &leases);
        b.check("answer", played.answer, Answer::Done);
        b.check("boundaries", played.counts.boundaries, 2);
        b.all_free(arena);
        let played = arena.release_all(&mut Script::quiet(), &[]);
        b.check("answer", played.answer, Answer::Done);
        let played = arena.transactional_try_lock_bucket(&[], &mut Script::quiet(), &[], CELL_2);
        b.check(
            "answer",
            played.answer,
            Answer::Refused(Refusal::BadBinding(0)),
        );
    });
}

fn nothing_lent(b: &mut Bench) {
    let (mut table, mut health) = ([0x5a5a_5a5au32; 23], [0x5au8; 2]);
    let refused = Arena::prepare(2, 4, 1, BOOT, &mut table, &mut health).err();
    b.check(
        "prepare with one word too few",
        refused,
        Some(Refusal::BadShape),
    );
    let as_they_were = table == [0x5a5a_5a5a; 23] && health == [0x5a; 2];
    b.check("words as they were", as_they_were, true);

    let head = Head {
        headers: 2,
        buckets: 4,
        next: 1,
        boot: BOOT,
    };
    let mut arena = Arena::resume(head, &mut [], &mut []);
    let played = arena.try_lock(&mut Script::quiet(), &[], 2);
    b.check("answer", played.answer, Answer::Refused(Refusal::BadShape));
    b.check("head", arena.head(), head);
    with_arena(1, |arena| {
        b.check(
            "answer",
            arena.crew(&[], &[], &[]).answer,
            Answer::Refused(Refusal::BadCrew(0)),
        )
    });
}

fn main() {
    let mut b = Bench {
        passed: 0,
        failed: 0,
        bad: false,
    };
    b.case("key (0,2)", key);
    b.case("again, lease 1 held", again);
    b.case("waiters of cell 2 stay 1", waiters);
    b.case(
        "try_lock of cell 2, script 5; 5; set waiters of 2 to 1; 5",
        late_waiters,
    );
    b.case("bucket 4", bucket_4);
    b.case("bucket 3", bucket_3);
    b.case("header 0 poisoned, bucket 4", poisoned);
    b.case("next 4,294,967,295, cell free", no_serial);
    b.case("next 4,294,967,294", last_serial);
    b.case("spent and held", spent_and_held);
    b.case(
        "cell 2 held by foreign 1, script 5; 5; release (2,1); 5",
        foreign_release,
    );
    b.case("the same with (2,1) in the held list", release_of_held);
    b.case("keys (1,0),(2,0)", two_keys);
    b.case("no keys", no_keys);
    b.case("crew {2,5},{2,5}, turns 0,1 seven times", crew);
    b.case("crew {2,5},{5,2}", falling_list);
    let cases = b.passed;
    b.case("keys of one cell share a lease", doubles);
    b.case("falling keys", falling_keys);
    b.case("refused keys", refused_keys);
    let sorts = b.passed - cases;
    b.case("a salvage, and work goes on", salvage);
    b.case("a second salvage", second_salvage);
    b.case("refused salvages", refused_salvage);
    let salvages = b.passed - cases - sorts;
    b.case("calls by a lease of another boot number", stale_leases);
    b.case("held lists with such a lease", stale_in_held_lists);
    b.case("lists with such a lease", stale_in_lists);
    b.case("a lease from before a preparation", second_preparation);
    let boots = b.passed - cases - sorts - salvages;
    b.case("crew {2,5},{2,5} at work, turns 0,1 eleven times", at_work);
    b.case("one cell, and turns that run out", some_work);
    b.case("refused work", refused_work);
    let works = b.passed - cases - sorts - salvages - boots;
    b.case("a book read before anybody wrote", never_written);
    b.case("the governor writes", governor_writes);
    b.case("refused writes, in order", refused_writes);
    b.case("the last version", last_version);
    b.case("the fifth write of a slot", fifth_write);
    b.case("a slide that moves three bodies", slide);
    b.case("a book that is full", full_book);
    b.case("two bodies that share a byte", overlap);
    let books = b.passed - cases - sorts - salvages - boots - works;
    b.case("calls without a script", without_script);
    b.case("calls with a script", with_script);
    b.case("nothing lent", nothing_lent);
    if b.failed != 0 {
        println!("bench cases in Rust: {} failed", b.failed);
        exit(1);
    }
    println!("keys in any order in Rust: {sorts} passed");
    println!("salvage in Rust: {salvages} passed");
    println!("boot numbers in Rust: {boots} passed");
    println!("crew at work in Rust: {works} passed");
    println!("setpoint book in Rust: {books} passed");
    let edges = b.passed - cases - sorts - salvages - boots - works - books;
    println!("edges in Rust: {edges} passed");
    println!("bench cases in Rust: {cases} passed");
}
