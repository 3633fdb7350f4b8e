//! Request L8 of document 02: a boot number in every lease. In the console's language, and over many random days; what is
//! expected was worked out from the documents.

use console::dice::Dice;
use plain::rules::{self, Answer, Head, Lease, Refusal};
use std::collections::BTreeSet;

/// Arena: H 2, B 4, registry 0, 1, 1, first serial 1, boot number 70; cells 2, 5 and 6 held by serials 1, 2 and 3. The
/// leases are live, so what is wrong with one is its boot number alone, where nothing else is said.
const ARENA: &str = "prepare 2 4 1 70\nregistry 0 1 1\ntry_acquire 2\ntry_acquire 5\ntry_acquire 6";
const SHOWN: &str = "head 2 4 4 70\ncell 2 1 1 0\ncell 5 1 2 0\ncell 6 1 3 0";
const NO_COUNTS: &str = "attempts 0 boundaries 0 yields 0 dropped 0";

/// The calls by one lease, without a held list and with one.
const BY_LEASE: [&str; 4] = [
    "drop_lease",
    "read_permission",
    "competing_acquire_is_excluded",
    "release_then_handoff",
];
const BY_HELD_AND_LEASE: [&str; 2] = [
    "foreign_release_between_attempts",
    "drop_preserving_borrows",
];

/// The other calls with a held list, each as it would be granted or done.
const WITH_HELD: [&str; 9] = [
    "acquire_preserving_borrows 0",
    "environment",
    "environment_for_borrows",
    "try_lock 0",
    "other_mutex_preserves_leases 0",
    "transactional_try_lock_bucket 0 0",
    "acquire_index_bucket 0 0",
    "acquire_index_locks",
    "acquire_sorted_locks",
];

fn printed(input: &str) -> String {
    let mut out = Vec::new();
    let end = console::play::play(&mut plain::Plain, &mut input.as_bytes(), &mut out);
    assert_eq!(end.lost, None);
    String::from_utf8(out).expect("the console prints text")
}

/// What the lines print in that arena.
fn bench(lines: &[&str]) -> String {
    let arena = printed(ARENA);
    let all = printed(&format!("{ARENA}\n{}", lines.join("\n")));
    all[arena.len()..].trim_end().to_string()
}

/// The call, behind these lines, is refused so: nothing is changed, and all counts are 0. Script and place stay.
fn refused(lines: &[&str], call: &str, refusal: &str) {
    let script = "script 5 0 0 1 0 0 4 1 1 5 0 0";
    let all = [
        &[script, "place 1"],
        lines,
        &["trace 1", call, "trace 0", "show"],
    ]
    .concat();
    let grants = match call {
        "acquire_index_locks" | "acquire_sorted_locks" => bench(&[lines, &[call]].concat())
            .lines()
            .last()
            .map(|grants| format!("{grants}\n"))
            .filter(|grants| !grants.contains(|one: char| one.is_ascii_digit() && one != '9'))
            .expect("a grant buffer that nobody has written"),
        _ => String::new(),
    };
    assert_eq!(
        bench(&all),
        format!("refused {refusal} next 4 place 1 {NO_COUNTS}\n{grants}step 0 0 0\n{SHOWN}"),
        "{lines:?} {call}"
    );
}

/// "A lease from before a preparation was accepted after it because the first serial was the same."
#[test]
fn from_before_a_preparation() {
    let counts = "next 2 place 0 attempts 1 boundaries 0 yields 0 dropped 0";
    for (boot, answer) in [
        (71, "refused 16 StaleBoot 0"),
        (0, "refused 16 StaleBoot 0"),
        // the owner has used a boot number twice
        (70, "cell 2"),
    ] {
        let lines = format!(
            "prepare 2 4 1 70\ntry_acquire 2\nprepare 2 4 1 {boot}\ntry_acquire 2\n\
             read_permission 2 1 70\nread_permission 2 1 {boot}"
        );
        let prepared = format!("done next 1 place 0 {NO_COUNTS}");
        assert_eq!(
            printed(&lines),
            format!(
                "{prepared}\ngranted 2 1 70 {counts}\n{prepared}\ngranted 2 1 {boot} {counts}\n\
                 {answer} next 2 place 0 {NO_COUNTS}\ncell 2 next 2 place 0 {NO_COUNTS}\n"
            )
        );
    }
}

/// "A lease with another boot number is refused as StaleBoot (16), with its position": 0 for one lease.
#[test]
fn one_lease() {
    for call in BY_LEASE.iter().chain(&BY_HELD_AND_LEASE) {
        for boot in [0, 1, 69, 71, u32::MAX] {
            refused(&[], &format!("{call} 2 1 {boot}"), "16 StaleBoot 0");
            refused(&[], &format!("{call} 6 3 {boot}"), "16 StaleBoot 0");
        }
        // "before 3 and 12 at that place": stale, and not live by its serial, by its cell, or out of range
        for lease in ["2 2 71", "2 0 71", "3 1 71", "8 1 71", "4294967295 1 71"] {
            refused(&[], &format!("{call} {lease}"), "16 StaleBoot 0");
        }
        for lease in ["2 2 70", "3 1 70", "8 1 70"] {
            refused(&[], &format!("{call} {lease}"), "12 NotHeld 0");
        }
    }
    // with the right one they go on
    for (call, answer) in [
        ("drop_lease 2 1 70", "done next 4"),
        ("read_permission 2 1 70", "cell 2 next 4"),
        ("competing_acquire_is_excluded 2 1 70", "busy held 1 next 4"),
        ("release_then_handoff 2 1 70", "granted 2 4 70 next 5"),
        (
            "foreign_release_between_attempts 2 1 70",
            "granted 2 4 70 next 5",
        ),
        ("drop_preserving_borrows 2 1 70", "done next 4"),
    ] {
        assert!(
            bench(&[call]).starts_with(&format!("{answer} place 0 ")),
            "{call}"
        );
    }
}

/// "position by position": a stale lease alone, behind live ones, behind a double, before and behind one that is not live.
#[test]
fn in_a_held_list() {
    for call in WITH_HELD {
        for (held, refusal) in [
            ("2 1 71", "16 StaleBoot 0"),
            ("2 1 70 5 2 71", "16 StaleBoot 1"),
            ("2 1 70 5 2 70 6 3 0", "16 StaleBoot 2"),
            ("2 1 70 2 1 70 2 1 69", "16 StaleBoot 2"),
            ("2 1 71 5 2 71", "16 StaleBoot 0"),
            // stale and dead
            ("2 9 71", "16 StaleBoot 0"),
            ("2 1 70 8 1 71", "16 StaleBoot 1"),
            // a dead one behind it, and before it
            ("2 1 71 5 9 70", "16 StaleBoot 0"),
            ("2 1 70 5 2 71 6 9 70", "16 StaleBoot 1"),
            ("5 9 70 2 1 71", "3 BadHeld 0"),
            ("2 1 70 5 9 70 6 3 71", "3 BadHeld 1"),
        ] {
            refused(&[&format!("held {held}")], call, refusal);
        }
        let good = bench(&["held 2 1 70 5 2 70 6 3 70", call]);
        assert!(
            good.starts_with("granted") || good.starts_with("done"),
            "{call}: {good}"
        );
    }
    // 8 comes behind the held list
    for call in ["acquire_preserving_borrows 8", "try_lock 8"] {
        refused(&["held 2 1 71"], call, "16 StaleBoot 0");
        refused(&["held 2 1 70"], call, "8 InvalidBucket 8");
    }
}

/// "after the length tests": a list whose length does not divide by three is 3, which "carries the lease count rounded
/// down", and so is one of over 64 leases, all of them stale.
#[test]
fn lengths_of_a_held_list() {
    let many = |count| format!("held{}", " 2 1 71".repeat(count));
    for call in WITH_HELD {
        for (held, count) in [
            ("2", 0),
            // two words a lease, as before L8
            ("2 1", 0),
            ("2 1 5 2", 1),
            ("2 1 71 5", 1),
            ("2 1 70 5 2", 1),
            ("2 1 5 2 6 3 0 0", 2),
        ] {
            let held = format!("held {held}");
            refused(&[&held], call, &format!("3 BadHeld {count}"));
        }
        // three leases of two words are two leases of three
        refused(&["held 2 1 5 2 6 3"], call, "16 StaleBoot 0");
        refused(&[&many(64)], call, "16 StaleBoot 0");
        refused(&[&many(65)], call, "3 BadHeld 65");
        refused(&[&many(100)], call, "3 BadHeld 100");
        refused(&[&format!("{} 2", many(64))], call, "3 BadHeld 64");
        refused(&[&format!("{} 2 1", many(63))], call, "3 BadHeld 63");
    }
}

/// Before it come 1 and, where there is a script, 2.
#[test]
fn behind_1_and_2() {
    for call in WITH_HELD {
        for wrong in ["head 2 4 0 70", "head 65 4 4 70", "lend 23 2"] {
            let out = bench(&["held 2 1 71", wrong, call]);
            assert!(
                out.starts_with("refused 1 BadShape 0 next "),
                "{call}: {out}"
            );
        }
        let out = bench(&["held 2 1 71", "place 1", call]);
        let first = if call.starts_with("acquire_preserving") {
            "refused 16 StaleBoot 0 next 4 place 1 "
        } else {
            "refused 2 BadScript 0 next 4 place 1 "
        };
        assert!(out.starts_with(first), "{call}: {out}");
    }
    for call in BY_LEASE.iter().chain(&BY_HELD_AND_LEASE) {
        let out = bench(&["head 2 4 0 70", &format!("{call} 2 1 71")]);
        assert!(
            out.starts_with("refused 1 BadShape 0 next 0 "),
            "{call}: {out}"
        );
    }
    let out = bench(&["leases 2 1 71", "place 1", "release_all"]);
    assert!(
        out.starts_with("refused 2 BadScript 0 next 4 place 1 "),
        "{out}"
    );
}

/// A call with a held list and a lease: all of the held list, and then the lease, 16 before 12 and 13.
#[test]
fn held_and_one() {
    for call in BY_HELD_AND_LEASE {
        for (held, lease, refusal) in [
            ("2 1 70", "5 2 71", "16 StaleBoot 0"),
            ("2 1 71", "5 2 70", "16 StaleBoot 0"),
            ("2 1 70 5 2 71", "6 3 70", "16 StaleBoot 1"),
            // a stale lease in the held list, and a stale one
            ("2 1 70 5 2 71", "6 3 71", "16 StaleBoot 1"),
            // a dead one in the held list comes first
            ("2 9 70", "5 2 71", "3 BadHeld 0"),
            ("2 1 70 5", "6 3 71", "3 BadHeld 1"),
            // the held list comes before what is wrong with the lease
            ("2 1 71", "5 9 70", "16 StaleBoot 0"),
            ("2 1 70 5 2 71", "2 1 70", "16 StaleBoot 1"),
            // in the held list but for its boot number
            ("2 1 70", "2 1 71", "16 StaleBoot 0"),
            ("2 1 70", "2 1 70", "13 Protected 0"),
        ] {
            let held = format!("held {held}");
            refused(&[&held], &format!("{call} {lease}"), refusal);
        }
    }
}

/// `release_all`: at each position 16, 12 and 14, before any release.
#[test]
fn leases_to_release() {
    for (leases, refusal) in [
        ("2 1 71", "16 StaleBoot 0"),
        ("2 1 70 5 2 71", "16 StaleBoot 1"),
        ("2 1 70 5 2 70 6 3 0", "16 StaleBoot 2"),
        // stale and dead; stale and a repeat
        ("2 1 70 5 9 71", "16 StaleBoot 1"),
        ("2 1 70 8 1 71", "16 StaleBoot 1"),
        ("2 1 70 2 1 71", "16 StaleBoot 1"),
        // behind an earlier 12, and an earlier 14
        ("2 9 70 5 2 71", "12 NotHeld 0"),
        ("2 1 70 5 9 70 6 3 71", "12 NotHeld 1"),
        ("2 1 70 2 1 70 5 2 71", "14 Repeated 1"),
        // before a later 12, and a later 14
        ("2 1 71 5 9 70", "16 StaleBoot 0"),
        ("2 1 70 5 2 71 2 1 70", "16 StaleBoot 1"),
        // 4 by length
        ("2", "4 TooMany 0"),
        ("2 1", "4 TooMany 0"),
        ("2 1 5 2", "4 TooMany 0"),
        ("2 1 70 5 2", "4 TooMany 0"),
        ("2 1 71 5 2", "4 TooMany 0"),
    ] {
        refused(&[&format!("leases {leases}")], "release_all", refusal);
    }
    let many = |count| format!("leases{}", " 2 1 71".repeat(count));
    refused(&[&many(64)], "release_all", "16 StaleBoot 0");
    refused(&[&many(65)], "release_all", "4 TooMany 0");
    // the held list is nothing to it
    assert_eq!(
        bench(&["held 2 1 71", "leases 6 3 70 2 1 70", "release_all", "show"]),
        "done next 4 place 0 attempts 0 boundaries 2 yields 0 dropped 0\nhead 2 4 4 70\ncell 5 1 2 0"
    );
}

/// Multi-lock: 16 and 3 of the held list come before 4 and 5. "Keys keep two words", the grant buffer "has three words a
/// key", and held leases are counted by threes.
#[test]
fn locks() {
    for call in ["acquire_index_locks", "acquire_sorted_locks"] {
        for keys in [
            "keys 0 0\ngrants 2",
            "keys 0 0 0\ngrants 3",
            "keys 9 0\ngrants 3",
        ] {
            refused(&[keys, "held 2 1 70 5 2 71"], call, "16 StaleBoot 1");
        }
        let many = format!("keys{}\ngrants 192", " 0 0".repeat(64));
        refused(&[&many, "held 2 1 71"], call, "16 StaleBoot 0");
        refused(&[&many, "held 2 1 70"], call, "4 TooMany 0");
        for words in [0, 1, 2, 4, 5, 6] {
            let keys = format!("keys 0 0\ngrants {words}");
            refused(&[&keys], call, "4 TooMany 0");
        }
        // cell, serial and the head's boot number for each key; doubled keys share all three
        let keys = ["keys 2 3 0 1", "grants 6", "held 2 1 70 5 2 70"];
        let grants = match call {
            "acquire_index_locks" => "grants 7 4 70 1 5 70",
            _ => "grants 7 5 70 1 4 70",
        };
        let counts = "next 6 place 0 attempts 2 boundaries 6 yields 0 dropped 0";
        assert_eq!(
            bench(&[&keys[..], &[call]].concat()),
            format!("granted {counts}\n{grants}")
        );
        // 61 held leases and 3 keys are 64
        let held = format!("held{}", " 2 1 70".repeat(61));
        let three = "keys 0 0 0 1 0 3\ngrants 9";
        let out = bench(&[three, &held, call]);
        assert!(out.ends_with("\ngrants 0 4 70 1 5 70 3 6 70"), "{out}");
        refused(&[three, &format!("{held} 2 1 70")], call, "4 TooMany 0");
    }
    assert_eq!(
        bench(&["keys 1 0 2 0", "grants 6", "acquire_sorted_locks"]),
        "granted next 5 place 0 attempts 1 boundaries 3 yields 0 dropped 0\ngrants 4 4 70 4 4 70"
    );
    // what multi-lock handed back is what release_all takes
    let back = bench(&[
        "keys 2 3 0 1",
        "grants 6",
        "acquire_index_locks",
        "leases 7 4 70 1 5 70",
        "release_all",
        "show",
    ]);
    assert!(
        back.ends_with(SHOWN.replace("4 4", "4 6").as_str()),
        "{back}"
    );
}

/// Any u32 is a boot number, 0 too; the one in force may be the greatest.
#[test]
fn every_boot_number() {
    let counts = "next 2 place 0 attempts 1 boundaries 0 yields 0 dropped 0";
    for boot in [0, 1, 70, u32::MAX - 1, u32::MAX] {
        let (below, above) = (boot.wrapping_sub(1), boot.wrapping_add(1));
        let stale = format!("refused 16 StaleBoot 0 next 2 place 0 {NO_COUNTS}");
        assert_eq!(
            printed(&format!(
                "prepare 1 1 1 {boot}\ntry_acquire 0\ndrop_lease 0 1 {below}\ndrop_lease 0 1 {above}\n\
                 held 0 1 {above}\nenvironment\nheld 0 1 {boot}\nenvironment\nshow\ndrop_lease 0 1 {boot}"
            )),
            format!(
                "done next 1 place 0 {NO_COUNTS}\ngranted 0 1 {boot} {counts}\n{stale}\n{stale}\n{stale}\n\
                 done next 2 place 0 attempts 0 boundaries 1 yields 0 dropped 0\n\
                 head 1 1 2 {boot}\ncell 0 1 1 0\ndone next 2 place 0 {NO_COUNTS}\n"
            )
        );
    }
}

/// A head with another boot number makes every lease of the old one stale, and back again good.
#[test]
fn another_head() {
    assert_eq!(
        bench(&[
            "head 2 4 4 71",
            "read_permission 2 1 70",
            "read_permission 2 1 71",
            "try_acquire 0",
            "head 2 4 5 70",
            "read_permission 2 1 70",
            "read_permission 0 4 71",
            "read_permission 0 4 70",
        ]),
        format!(
            "refused 16 StaleBoot 0 next 4 place 0 {NO_COUNTS}\n\
             cell 2 next 4 place 0 {NO_COUNTS}\n\
             granted 0 4 71 next 5 place 0 attempts 1 boundaries 0 yields 0 dropped 0\n\
             cell 2 next 5 place 0 {NO_COUNTS}\n\
             refused 16 StaleBoot 0 next 5 place 0 {NO_COUNTS}\n\
             cell 0 next 5 place 0 {NO_COUNTS}"
        )
    );
}

/// "Script steps mean the head's own boot number": they name cell and serial, whatever the boot number is, and a held
/// lease is protected from them.
#[test]
fn script_steps() {
    for boot in [0, 70, 71] {
        let head = format!("head 2 4 4 {boot}");
        let held = format!("held 5 2 {boot}");
        assert_eq!(
            bench(&[
                &head,
                &held,
                "script 2 2 1 2 5 2 1 0 0 2 6 70 2 6 71 5 0 0",
                "environment",
                "show",
            ]),
            format!(
                "done next 5 place 6 attempts 0 boundaries 1 yields 0 dropped 3\n\
                 head 2 4 5 {boot}\ncell 0 1 4 0\ncell 5 1 2 0\ncell 6 1 3 0"
            )
        );
    }
    // what a call has taken is protected too, and what release_all was given
    assert_eq!(
        bench(&["script 5 0 0 5 0 0 2 0 4 5 0 0", "try_lock 0"]),
        "granted 0 4 70 next 5 place 4 attempts 1 boundaries 3 yields 0 dropped 1"
    );
    assert_eq!(
        bench(&[
            "script 2 2 1 2 5 2 5 0 0 2 5 2",
            "leases 2 1 70 6 3 70",
            "release_all",
            "show"
        ]),
        "done next 4 place 4 attempts 0 boundaries 2 yields 0 dropped 2\nhead 2 4 4 70"
    );
}

/// "preparing takes it (refused: four zeros)". The head before a refused preparation stays in force, with its boot number.
#[test]
fn preparing() {
    let (mut table, mut health) = ([7; 24], [7; 2]);
    let refused = rules::prepare(2, 4, 0, 70, &mut table, &mut health);
    assert_eq!(refused.answer, Answer::Refused(Refusal::BadShape));
    let zeros = Head {
        headers: 0,
        buckets: 0,
        next: 0,
        boot: 0,
    };
    assert_eq!(refused.head, zeros);
    assert!(table == [7; 24] && health == [7; 2]);
    let done = rules::prepare(2, 4, 9, 70, &mut table, &mut health);
    let head = Head {
        headers: 2,
        buckets: 4,
        next: 9,
        boot: 70,
    };
    assert_eq!((done.answer, done.head), (Answer::Done, head));
    assert!(table == [0; 24] && health == [0; 2]);
    assert_eq!(
        bench(&[
            "prepare 2 4 0 71",
            "lend 23 2",
            "prepare 2 4 1 72",
            "lend",
            "show"
        ]),
        format!(
            "refused 1 BadShape 0 next 4 place 0 {NO_COUNTS}\n\
             refused 1 BadShape 0 next 4 place 0 {NO_COUNTS}\n{SHOWN}"
        )
    );
}

/// "Salvage keeps the boot number of the head it was given", also refused. It tests none, and neither does the crew.
#[test]
fn salvage_and_crew() {
    assert_eq!(
        bench(&[
            "head 2 4 4 71",
            "held 2 1 70",
            "unconfirmed 3",
            "salvage",
            "show",
            "unconfirmed 0",
            "salvage",
            "show",
            "member 0",
            "turns 0",
            "crew",
            "show",
            "read_permission 2 1 70",
            "read_permission 0 4 71",
        ]),
        format!(
            "done 0 3 next 4\nreport\nunconfirmed 2 5 6\n{shown}\n\
             refused ReportFull next 4\nreport\nunconfirmed\n{shown}\n\
             crew moving 1 idle 0 next 5\nmember 0 taken 1 released 0\n{taken}\n\
             refused 16 StaleBoot 0 next 5 place 0 {NO_COUNTS}\n\
             cell 0 next 5 place 0 {NO_COUNTS}",
            shown = SHOWN.replace("4 70", "4 71"),
            taken = SHOWN.replace("head 2 4 4 70", "head 2 4 5 71\ncell 0 1 4 0"),
        )
    );
}

/// A write of the book: 1, BadSlot, 16, 12, NotFinite, and so on; 16 is printed with position 0.
#[test]
fn the_book() {
    let nan = 0x7fc0_0000;
    let book = "book 276\nprepare_book";
    for (line, answer) in [
        (
            "write_setpoint 2 2 1 70 speed 7".to_string(),
            "done version 1 moved 0",
        ),
        (
            "write_setpoint 2 2 1 71 speed 7".to_string(),
            "refused 16 StaleBoot 0",
        ),
        (
            "write_setpoint 2 2 1 0 valve 1".to_string(),
            "refused 16 StaleBoot 0",
        ),
        // stale and dead, stale and of another cell, stale and not finite, stale and damaged
        (
            "write_setpoint 2 2 9 71 speed 7".to_string(),
            "refused 16 StaleBoot 0",
        ),
        (
            "write_setpoint 3 2 1 71 speed 7".to_string(),
            "refused 16 StaleBoot 0",
        ),
        (
            "write_setpoint 2 8 1 71 speed 7".to_string(),
            "refused 16 StaleBoot 0",
        ),
        (
            format!("write_setpoint 2 2 1 71 pressure {nan}"),
            "refused 16 StaleBoot 0",
        ),
        (
            "book_byte 16 1\nwrite_setpoint 2 2 1 71 speed 7".to_string(),
            "refused 16 StaleBoot 0",
        ),
        (
            format!("write_setpoint 2 2 9 70 pressure {nan}"),
            "refused 12 NotHeld 0",
        ),
        (
            format!("write_setpoint 2 2 1 70 pressure {nan}"),
            "refused NotFinite",
        ),
        // before it
        (
            "write_setpoint 8 2 1 71 speed 7".to_string(),
            "refused BadSlot",
        ),
        (
            "book 255\nwrite_setpoint 2 2 1 71 speed 7".to_string(),
            "refused BadSlot",
        ),
        (
            "lend 23 2\nwrite_setpoint 8 2 1 71 speed 7".to_string(),
            "refused 1 BadShape 0",
        ),
    ] {
        assert_eq!(bench(&[book, &line]), format!("done\n{answer}"), "{line}");
    }
    // nothing is written, and the reads ask for no lease
    assert_eq!(
        bench(&[
            book,
            "write_setpoint 2 2 1 71 speed 7",
            "show_book",
            "read_setpoint 2"
        ]),
        "done\nrefused 16 StaleBoot 0\nbook 276\nrefused NeverWritten"
    );
}

/// Lines with too few or too many numbers are not understood.
#[test]
fn the_console() {
    let mut lines: Vec<String> = ["head", "prepare"]
        .iter()
        .flat_map(|word| ["2 4 1", "2 4 1 70 1", "2 4 1 4294967296"].map(|n| format!("{word} {n}")))
        .collect();
    for call in BY_LEASE.iter().chain(&BY_HELD_AND_LEASE) {
        lines.extend(["2 1", "2 1 70 1", "2 1 070", "2 1 x"].map(|n| format!("{call} {n}")));
    }
    lines.extend(
        [
            "2 2 1 speed 7",
            "2 2 1 70 70 speed 7",
            "2 2 1 speed 70 7",
            "2 2 1 70 7 speed",
        ]
        .map(|n| format!("write_setpoint {n}")),
    );
    for line in lines {
        assert_eq!(
            bench(&[&line, "show"]),
            format!("line 6: not understood\n{SHOWN}"),
            "{line}"
        );
    }
    assert_eq!(printed("show"), "head 0 0 0 0\n");
    // three words a lease, the rooms as they were
    let held = |words: usize| format!("held{}\nenvironment", " 0".repeat(words));
    assert!(bench(&[&held(300)]).starts_with("refused 3 BadHeld 100 "));
    assert!(bench(&[&held(301)]).starts_with("line 6: not understood\ndone "));
}

/// "If the owner never uses a boot number twice, an issued pair of boot number and serial that owns nothing never owns
/// again, preparations included": many days with preparations from the same first serials, each under a new boot number.
/// And each lease that was issued is accepted exactly as long as it owns its cell.
#[test]
fn issued_and_dead() {
    let mut dice = Dice(8);
    for _ in 0..60 {
        let (mut head, mut table, mut health) = (Head::default(), vec![0; 24], [0; 2]);
        let mut boot = dice.number(3);
        let mut issued: Vec<Lease> = Vec::new();
        let mut dead: BTreeSet<[u32; 2]> = BTreeSet::new();
        for turn in 0..200 {
            let lease = match issued.is_empty() {
                true => Lease {
                    cell: 0,
                    serial: 1,
                    boot: 0,
                },
                false => dice.pick(&issued),
            };
            let cell = dice.number(8);
            let reply = match dice.below(12) {
                _ if turn == 0 => rules::prepare(2, 4, 1, boot, &mut table, &mut health),
                0 => {
                    boot += 1 + dice.number(3);
                    rules::prepare(2, 4, 1 + dice.number(2), boot, &mut table, &mut health)
                }
                1..=3 => rules::drop_lease(head, &mut table, lease),
                4 => rules::release_then_handoff(head, &mut table, lease),
                _ => rules::try_acquire(head, &mut table, cell),
            };
            head = reply.head;
            if let Answer::Granted(lease) = reply.answer {
                assert_eq!(lease.boot, head.boot);
                issued.push(lease);
            }
            for &lease in &issued {
                let owner = table[3 * lease.cell as usize + 1];
                let owns = lease.boot == head.boot && owner == lease.serial;
                let pair = [lease.boot, lease.serial];
                if owns {
                    assert!(!dead.contains(&pair));
                } else {
                    dead.insert(pair);
                }
                let expected = match (lease.boot == head.boot, owns) {
                    (false, _) => Answer::Refused(Refusal::StaleBoot(0)),
                    (true, false) => Answer::Refused(Refusal::NotHeld(0)),
                    (true, true) => Answer::Cell(lease.cell),
                };
                let read = rules::read_permission(head, &table, lease);
                assert_eq!(read.answer, expected);
            }
        }
        assert!(dead.len() > 20);
    }
}
