//! Request L3 of document 02: health is read after the lock too, behind the third boundary and before the waiters. In
//! the console's language; what is expected was worked out from the documents.

/// Arena: H 2, B 4, registry 0, 1, 1, first serial 1.
const ARENA: &str = "prepare 2 4 1 70\nregistry 0 1 1";
const PREPARED: &str = "done next 1 place 0 attempts 0 boundaries 0 yields 0 dropped 0";

/// The calls of one key and the calls by cell that lock.
const BY_KEY: [&str; 2] = ["transactional_try_lock_bucket", "acquire_index_bucket"];
const BY_CELL: [&str; 2] = ["try_lock", "other_mutex_preserves_leases"];

/// The lines in the bench's arena print these lines.
fn bench(lines: &[&str], expected: &[&str]) {
    let input = format!("{ARENA}\n{}\n", lines.join("\n"));
    let mut out = Vec::new();
    let end = console::play::play(&mut plain::Plain, &mut input.as_bytes(), &mut out);
    assert_eq!(end.lost, None);
    let printed = String::from_utf8(out).expect("the console prints text");
    let expected = format!("{PREPARED}\n{}\n", expected.join("\n"));
    assert_eq!(printed, expected, "{lines:?}");
}

/// These calls of one cell, cell 6, which is bucket 2 of binding 1.
fn calls(names: [&str; 2]) -> [String; 2] {
    let numbers = if names == BY_KEY { "1 2" } else { "6" };
    names.map(|name| format!("{name} {numbers}"))
}

/// The lease is given up, its serial stays spent, and the carried header is that of the cell. A step in the third
/// boundary that would release the new lease is dropped.
#[test]
fn poisoned_in_the_third_boundary() {
    for call in [calls(BY_KEY), calls(BY_CELL)].concat() {
        bench(
            &["script 5 0 0 5 0 0 4 1 1 2 6 1 5 0 0", &call, "show", &call],
            &[
                "refused 7 Poisoned 1 next 2 place 5 attempts 1 boundaries 3 yields 0 dropped 1",
                "head 2 4 2 70",
                "health 1 1",
                // by key the first reading refuses now, by cell there is only the one behind the lock
                if call.ends_with("1 2") {
                    "refused 7 Poisoned 1 next 2 place 5 attempts 1 boundaries 0 yields 0 dropped 0"
                } else {
                    "refused 7 Poisoned 1 next 3 place 5 attempts 1 boundaries 3 yields 0 dropped 0"
                },
            ],
        );
    }
    bench(
        &[
            "script 5 0 0 5 0 0 4 1 1 5 0 0",
            "keys 1 2",
            "grants 3",
            "acquire_index_locks",
            "show",
        ],
        &[
            "refused 7 Poisoned 1 at 0 next 2 place 4 attempts 1 boundaries 3 yields 0 dropped 0",
            "grants 9 9 9",
            "head 2 4 2 70",
            "health 1 1",
        ],
    );
}

/// Behind the first reading of a call by key, before the lease is taken: it is seen only behind the third boundary.
#[test]
fn poisoned_in_an_earlier_boundary() {
    for call in [calls(BY_KEY), calls(BY_CELL)].concat() {
        for script in ["script 4 1 1", "script 5 0 0 4 1 1"] {
            let place = script.split(' ').count() / 3;
            bench(
                &[script, &call, "show"],
                &[
                    &format!("refused 7 Poisoned 1 next 2 place {place} attempts 1 boundaries 3 yields 0 dropped 0"),
                    "head 2 4 2 70",
                    "health 1 1",
                ],
            );
        }
    }
}

/// The health of another header is not read: cell 4 is the first of header 1, cell 3 the last of header 0.
#[test]
fn another_header() {
    for (cell, binding, bucket, other) in [(3, 0, 3, 1), (4, 1, 0, 0)] {
        for call in [
            format!("transactional_try_lock_bucket {binding} {bucket}"),
            format!("acquire_index_bucket {binding} {bucket}"),
            format!("try_lock {cell}"),
            format!("other_mutex_preserves_leases {cell}"),
        ] {
            bench(
                &[&format!("script 5 0 0 5 0 0 4 {other} 1"), &call],
                &[&format!(
                    "granted {cell} 1 70 next 2 place 3 attempts 1 boundaries 3 yields 0 dropped 0"
                )],
            );
        }
    }
}

/// Both at once is 7, also in a retry, which a Busy would have kept going.
#[test]
fn poisoned_and_waited_for() {
    for call in [calls(BY_KEY), calls(BY_CELL)].concat() {
        for script in [
            "script 5 0 0 5 0 0 4 1 1 3 6 1 5 0 0",
            "script 5 0 0 5 0 0 3 6 1 4 1 1 5 0 0",
        ] {
            bench(
                &[script, &call, "show"],
                &[
                    "refused 7 Poisoned 1 next 2 place 5 attempts 1 boundaries 3 yields 0 dropped 0",
                    "head 2 4 2 70",
                    "cell 6 0 0 1",
                    "health 1 1",
                ],
            );
        }
    }
}

/// An attempt that ends before the third boundary does not read health there: waiters before, held, damaged, spent.
#[test]
fn other_ends_come_first() {
    for call in calls(BY_CELL) {
        let poisoned = "byte 1 1";
        bench(
            &[poisoned, "word 20 1", &call],
            &["busy before next 1 place 0 attempts 1 boundaries 1 yields 0 dropped 0"],
        );
        bench(
            &[poisoned, "head 2 4 2 70", "word 18 1", "word 19 1", &call],
            &["busy held 1 next 2 place 0 attempts 1 boundaries 2 yields 0 dropped 0"],
        );
        bench(
            &[poisoned, "word 18 1", &call],
            &["refused 9 Damaged 6 next 1 place 0 attempts 1 boundaries 2 yields 0 dropped 0"],
        );
        bench(
            &[poisoned, "head 2 4 4294967295 70", &call],
            &["refused 10 SerialsSpent 6 next 4294967295 place 0 attempts 1 boundaries 2 yields 0 dropped 0"],
        );
    }
}

/// A late Busy with its spin, then an attempt that takes the cell again: two serials are spent. And a poisoning
/// before that attempt begins: it is the first reading that refuses, and one serial is spent.
#[test]
fn poisoned_at_the_second_attempt() {
    let first = "5 0 0 5 0 0 3 6 1 5 0 0 3 6 0 5 0 0";
    let late = format!("script {first} 5 0 0 5 0 0 4 1 1 5 0 0");
    let early = format!("script {} 4 1 1 5 0 0", &first[..first.len() - 6]);
    bench(
        &[&late, "acquire_index_bucket 1 2", "show"],
        &[
            "refused 7 Poisoned 1 next 3 place 10 attempts 2 boundaries 7 yields 0 dropped 0",
            "head 2 4 3 70",
            "health 1 1",
        ],
    );
    bench(
        &[&early, "acquire_index_bucket 1 2", "show"],
        &[
            "refused 7 Poisoned 1 next 2 place 7 attempts 2 boundaries 4 yields 0 dropped 0",
            "head 2 4 2 70",
            "health 1 1",
        ],
    );
    bench(
        &[&late, "keys 1 2", "grants 3", "acquire_index_locks", "show"],
        &[
            "refused 7 Poisoned 1 at 0 next 3 place 10 attempts 2 boundaries 7 yields 0 dropped 0",
            "grants 9 9 9",
            "head 2 4 3 70",
            "health 1 1",
        ],
    );
}

/// By cell it takes, runs the third boundary, gives up and refuses, whatever byte but 0 it is; by key the first
/// reading refuses. A call without a third boundary reads no health.
#[test]
fn poisoned_all_along() {
    for byte in [1, 2, 128, 255] {
        let poisoned = format!("byte 1 {byte}");
        let shown = format!("health 1 {byte}");
        for call in calls(BY_CELL) {
            bench(
                &[&poisoned, &call, "show"],
                &[
                    "refused 7 Poisoned 1 next 2 place 0 attempts 1 boundaries 3 yields 0 dropped 0",
                    "head 2 4 2 70",
                    &shown,
                ],
            );
        }
        for call in calls(BY_KEY) {
            bench(
                &[&poisoned, &call, "show"],
                &[
                    "refused 7 Poisoned 1 next 1 place 0 attempts 1 boundaries 0 yields 0 dropped 0",
                    "head 2 4 1 70",
                    &shown,
                ],
            );
        }
        for call in ["try_acquire 6", "acquire_preserving_borrows 6"] {
            bench(
                &[&poisoned, call],
                &["granted 6 1 70 next 2 place 0 attempts 1 boundaries 0 yields 0 dropped 0"],
            );
        }
    }
}

/// In any of its boundaries in time for a call by cell; too late for a call by key, which never comes to a boundary.
#[test]
fn mended_in_time() {
    for script in [
        "script 4 1 0 5 0 0 5 0 0 5 0 0",
        "script 5 0 0 4 1 0 5 0 0 5 0 0",
        "script 5 0 0 5 0 0 4 1 0 5 0 0",
    ] {
        for call in calls(BY_CELL) {
            bench(
                &["byte 1 200", script, &call, "show"],
                &[
                    "granted 6 1 70 next 2 place 4 attempts 1 boundaries 3 yields 0 dropped 0",
                    "head 2 4 2 70",
                    "cell 6 1 1 0",
                ],
            );
        }
        for call in calls(BY_KEY) {
            bench(
                &["byte 1 200", script, &call, "show"],
                &[
                    "refused 7 Poisoned 1 next 1 place 0 attempts 1 boundaries 0 yields 0 dropped 0",
                    "head 2 4 1 70",
                    "health 1 200",
                ],
            );
        }
    }
    // poisoned behind the first reading, and mended before the second
    for call in [calls(BY_KEY), calls(BY_CELL)].concat() {
        bench(
            &["script 4 1 1 5 0 0 5 0 0 4 1 0 5 0 0", &call],
            &["granted 6 1 70 next 2 place 5 attempts 1 boundaries 3 yields 0 dropped 0"],
        );
    }
    // mended in the boundary behind the third: too late for all
    for call in calls(BY_CELL) {
        bench(
            &["byte 1 1", "script 5 0 0 5 0 0 5 0 0 4 1 0", &call],
            &["refused 7 Poisoned 1 next 2 place 3 attempts 1 boundaries 3 yields 0 dropped 0"],
        );
    }
}

/// The second key is refused late: its lease is given up without a boundary, then the first one's with a boundary.
#[test]
fn rollback_at_the_second_key() {
    let second = "5 0 0 5 0 0 5 0 0 5 0 0 5 0 0";
    let lines = |script: &str| {
        [
            format!("script {script}"),
            "keys 0 2 1 2".to_string(),
            "grants 6".to_string(),
            "acquire_index_locks".to_string(),
            "show".to_string(),
        ]
    };
    // in the boundary of the rollback cell 6 is free to be taken, and the first lease is given up
    let script = lines(&format!(
        "{second} 4 1 1 2 2 1 2 6 2 5 0 0 1 6 0 2 2 1 5 0 0"
    ));
    bench(
        &script.each_ref().map(String::as_str),
        &[
            "refused 7 Poisoned 1 at 1 next 4 place 12 attempts 2 boundaries 7 yields 0 dropped 3",
            "grants 9 9 9 9 9 9",
            "head 2 4 4 70",
            "cell 6 1 3 0",
            "health 1 1",
        ],
    );
    // the first key's header, poisoned meanwhile, is not read again
    let script = lines(&format!("{second} 4 0 1 5 0 0"));
    bench(
        &script.each_ref().map(String::as_str),
        &[
            "granted next 3 place 7 attempts 2 boundaries 6 yields 0 dropped 0",
            "grants 2 1 70 6 2 70",
            "head 2 4 3 70",
            "cell 2 1 1 0",
            "cell 6 1 2 0",
            "health 0 1",
        ],
    );
    // two keys of one header: poisoned at the second one's lock, carried with its position
    bench(
        &[
            &format!("script {second} 4 1 1 5 0 0"),
            "keys 1 0 2 3",
            "grants 6",
            "acquire_index_locks",
            "show",
        ],
        &[
            "refused 7 Poisoned 1 at 1 next 3 place 7 attempts 2 boundaries 7 yields 0 dropped 0",
            "grants 9 9 9 9 9 9",
            "head 2 4 3 70",
            "health 1 1",
        ],
    );
}

/// The crew reads health right before its lock, which has no script: a poisoned cell is an idle turn and spends
/// nothing.
#[test]
fn the_crew_changes_nothing() {
    bench(
        &[
            "byte 1 1",
            "member 2 5",
            "member 5",
            "turns 0 1 0 1",
            "crew",
            "show",
        ],
        &[
            "crew moving 1 idle 3 next 2",
            "member 0 taken 1 released 0",
            "member 1 taken 0 released 0",
            "head 2 4 2 70",
            "cell 2 1 1 0",
            "health 1 1",
        ],
    );
}
