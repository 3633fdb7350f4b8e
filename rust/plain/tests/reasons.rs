//! Request L1 of document 02: a Busy answer says why, and refusal 11 carries the reason of the last Busy attempt. In the
//! console's language; what is expected was worked out from the documents.

/// Arena: H 2, B 4, registry 0, 1, 1, first serial 1.
const ARENA: &str = "prepare 2 4 1 70\nregistry 0 1 1";
const PREPARED: &str = "done next 1 place 0 attempts 0 boundaries 0 yields 0 dropped 0";

/// The single locks of cell 6, which is bucket 2 of binding 1.
const LOCKS: [&str; 3] = [
    "try_lock 6",
    "other_mutex_preserves_leases 6",
    "transactional_try_lock_bucket 1 2",
];

/// The lines in the bench's arena print these lines.
fn bench(lines: &[&str], expected: &[&str]) {
    let input = format!("{ARENA}\n{}\n", lines.join("\n"));
    let mut out = Vec::new();
    let end = console::play::play(&mut plain::Plain, &mut input.as_bytes(), &mut out);
    assert_eq!(end.lost, None);
    let printed = String::from_utf8(out).expect("the console prints text");
    let expected = format!("{PREPARED}\n{}\n", expected.join("\n"));
    assert_eq!(printed, expected, "{lines:?}");
}

/// So many boundaries in which nothing happens, each behind a space.
fn quiet(boundaries: usize) -> String {
    " 5 0 0".repeat(boundaries)
}

/// "held, with the owner's serial": the serial that stands in the cell, not the next one. In a lock the compare-and-set
/// comes behind the second boundary.
#[test]
fn held() {
    let held = ["head 2 4 9 70", "word 18 1", "word 19 7"];
    for call in LOCKS {
        bench(
            &[held[0], held[1], held[2], call, "show"],
            &[
                "busy held 7 next 9 place 0 attempts 1 boundaries 2 yields 0 dropped 0",
                "head 2 4 9 70",
                "cell 6 1 7 0",
            ],
        );
    }
    for call in [
        "try_acquire 6",
        "acquire_preserving_borrows 6",
        "competing_acquire_is_excluded 6 7 70",
    ] {
        bench(
            &[held[0], held[1], held[2], call, "show"],
            &[
                "busy held 7 next 9 place 0 attempts 1 boundaries 0 yields 0 dropped 0",
                "head 2 4 9 70",
                "cell 6 1 7 0",
            ],
        );
    }
}

/// The owner is the one at the compare-and-set: a foreign holder lets go in the first boundary, and another takes the
/// cell in the second.
#[test]
fn the_owner_at_the_compare_and_set() {
    for call in LOCKS {
        bench(
            &[
                "try_acquire 6",
                "script 2 6 1 5 0 0 1 6 0 5 0 0",
                call,
                "show",
            ],
            &[
                "granted 6 1 70 next 2 place 0 attempts 1 boundaries 0 yields 0 dropped 0",
                "busy held 2 next 3 place 4 attempts 1 boundaries 2 yields 0 dropped 0",
                "head 2 4 3 70",
                "cell 6 1 2 0",
            ],
        );
    }
}

/// "waiters seen before the compare-and-set": no number goes with it, whatever the waiters' number is. A call without
/// boundaries does not look at them.
#[test]
fn before() {
    for waiters in [1, 2, u32::MAX] {
        for call in LOCKS {
            bench(
                &[&format!("word 20 {waiters}"), call],
                &["busy before next 1 place 0 attempts 1 boundaries 1 yields 0 dropped 0"],
            );
            bench(
                &[&format!("script 3 6 {waiters} 5 0 0"), call],
                &["busy before next 1 place 2 attempts 1 boundaries 1 yields 0 dropped 0"],
            );
        }
        for call in ["try_acquire 6", "acquire_preserving_borrows 6"] {
            bench(
                &[&format!("word 20 {waiters}"), call],
                &["granted 6 1 70 next 2 place 0 attempts 1 boundaries 0 yields 0 dropped 0"],
            );
        }
    }
}

/// The waiters are looked at first: a held cell with waiters says before; so does a damaged one, and one without serials.
#[test]
fn before_comes_first() {
    for call in LOCKS {
        bench(
            &["word 20 1", "head 2 4 2 70", "word 18 1", "word 19 1", call],
            &["busy before next 2 place 0 attempts 1 boundaries 1 yields 0 dropped 0"],
        );
        bench(
            &["word 20 1", "word 18 2", call],
            &["busy before next 1 place 0 attempts 1 boundaries 1 yields 0 dropped 0"],
        );
        bench(
            &["word 20 1", "head 2 4 4294967295 70", call],
            &["busy before next 4294967295 place 0 attempts 1 boundaries 1 yields 0 dropped 0"],
        );
    }
    // a call without boundaries sees who holds it
    bench(
        &[
            "word 20 1",
            "head 2 4 2 70",
            "word 18 1",
            "word 19 1",
            "try_acquire 6",
        ],
        &["busy held 1 next 2 place 0 attempts 1 boundaries 0 yields 0 dropped 0"],
    );
}

/// "waiters seen after it. The last one also gives the serial that was spent": a foreign take before it spends one too,
/// so the serial is 2 and the next one 3.
#[test]
fn after() {
    for call in LOCKS {
        bench(
            &["script 1 0 0 5 0 0 5 0 0 3 6 1 5 0 0", call, "show"],
            &[
                "busy after 2 next 3 place 5 attempts 1 boundaries 3 yields 0 dropped 0",
                "head 2 4 3 70",
                "cell 0 1 1 0",
                "cell 6 0 0 1",
            ],
        );
    }
    // a foreign take behind it: the serial spent is not next - 1
    bench(
        &["script 5 0 0 5 0 0 3 6 1 1 0 0", "try_lock 6"],
        &["busy after 1 next 3 place 4 attempts 1 boundaries 3 yields 0 dropped 0"],
    );
}

/// Waiters that come in the second boundary are seen only after the compare-and-set; if the cell is held then, it is held.
#[test]
fn waiters_of_the_second_boundary() {
    for call in LOCKS {
        bench(
            &["script 5 0 0 3 6 1 5 0 0", call],
            &["busy after 1 next 2 place 3 attempts 1 boundaries 3 yields 0 dropped 0"],
        );
        bench(
            &["script 5 0 0 3 6 1 1 6 0 5 0 0", call],
            &["busy held 1 next 2 place 4 attempts 1 boundaries 2 yields 0 dropped 0"],
        );
    }
}

/// "refusal 11 carries that reason besides 4,096", in multi-lock before the position.
#[test]
fn failures() {
    let failed = |reason: &str, at: &str, boundaries: u32| {
        format!("refused 11 SerializationFailure 4096 {reason}{at} next 2 place 0 attempts 4096 boundaries {boundaries} yields 64 dropped 0")
    };
    let locks = ["keys 1 2", "grants 3", "acquire_index_locks"];
    let taken = "granted 6 1 70 next 2 place 0 attempts 1 boundaries 0 yields 0 dropped 0";
    bench(
        &["try_acquire 6", "acquire_index_bucket 1 2"],
        &[taken, &failed("held 1", "", 12_352)],
    );
    bench(
        &["try_acquire 6", locks[0], locks[1], locks[2]],
        &[taken, &failed("held 1", " at 0", 12_352), "grants 9 9 9"],
    );
    // the waiters stay, so the held cell says before
    bench(
        &["try_acquire 6", "word 20 3", "acquire_index_bucket 1 2"],
        &[taken, &failed("before", "", 8_256)],
    );
    bench(
        &["try_acquire 6", "word 20 3", locks[0], locks[1], locks[2]],
        &[taken, &failed("before", " at 0", 8_256), "grants 9 9 9"],
    );
}

/// "the reason of the last Busy attempt": attempt 0 is late Busy, and in its spin's boundary the waiters go and another
/// takes the cell. 3 and 1 boundaries for attempt 0, 2 and 1 for each of the other 4,095, and 64 of the yields.
#[test]
fn the_last_reason_is_held() {
    let boundaries = 4 + 3 * 4_095 + 64;
    bench(
        &[
            "script 5 0 0 5 0 0 3 6 1 5 0 0 3 6 0 1 6 0 5 0 0",
            "acquire_index_bucket 1 2",
            "show",
        ],
        &[
            &format!("refused 11 SerializationFailure 4096 held 2 next 3 place 7 attempts 4096 boundaries {boundaries} yields 64 dropped 0"),
            "head 2 4 3 70",
            "cell 6 1 2 0",
        ],
    );
}

/// Held at first, and let go and waited for in its spin's boundary: 2 and 1 boundaries, then 1 and 1.
#[test]
fn the_last_reason_is_before() {
    let boundaries = 3 + 2 * 4_095 + 64;
    bench(
        &[
            "try_acquire 6",
            "script 5 0 0 5 0 0 2 6 1 3 6 1 5 0 0",
            "acquire_index_bucket 1 2",
            "show",
        ],
        &[
            "granted 6 1 70 next 2 place 0 attempts 1 boundaries 0 yields 0 dropped 0",
            &format!("refused 11 SerializationFailure 4096 before next 2 place 5 attempts 4096 boundaries {boundaries} yields 64 dropped 0"),
            "head 2 4 2 70",
            "cell 6 0 0 1",
        ],
    );
}

/// Waited for through attempts 0 to 4,094, each with its boundary and the spin's, 63 of them with the yield's. In the
/// first boundary of attempt 4,095 the waiters go, in its third they come again; then a yield and a spin.
fn late_script(before: usize) -> String {
    let boundaries = before + 2 * 4_095 + 63;
    format!("script{} 3 6 0{} 3 6 1 5 0 0", quiet(boundaries), quiet(2))
}

#[test]
fn the_last_reason_is_after() {
    let steps = 2 * 4_095 + 63 + 5;
    let boundaries = 2 * 4_095 + 63 + 3 + 2;
    bench(
        &["word 20 1", &late_script(0), "acquire_index_bucket 1 2", "show"],
        &[
            &format!("refused 11 SerializationFailure 4096 after 1 next 2 place {steps} attempts 4096 boundaries {boundaries} yields 64 dropped 0"),
            "head 2 4 2 70",
            "cell 6 0 0 1",
        ],
    );
}

/// In multi-lock the reason is that of the refused key, behind keys that were got at once with three boundaries each, and
/// the rollback, with one boundary each, does not touch it.
#[test]
fn the_reason_in_multi_lock() {
    let steps = 6 + 2 * 4_095 + 63 + 5;
    let boundaries = 6 + 2 * 4_095 + 63 + 3 + 2 + 2;
    bench(
        &[
            "word 20 1",
            &late_script(6),
            "keys 0 0 0 1 1 2",
            "grants 9",
            "acquire_index_locks",
            "show",
        ],
        &[
            &format!("refused 11 SerializationFailure 4096 after 3 at 2 next 4 place {steps} attempts 4098 boundaries {boundaries} yields 64 dropped 0"),
            "grants 9 9 9 9 9 9 9 9 9",
            "head 2 4 4 70",
            "cell 6 0 0 1",
        ],
    );
    // the first key was late Busy too, by serial 1001, and is got with 1002; the second one, cell 6, is held by 1000
    bench(
        &[
            "head 2 4 1001 70",
            "word 18 1",
            "word 19 1000",
            "script 5 0 0 5 0 0 3 0 1 5 0 0 3 0 0 5 0 0",
            "keys 0 0 1 2",
            "grants 6",
            "acquire_index_locks",
        ],
        &[
            &format!(
                "refused 11 SerializationFailure 4096 held 1000 at 1 next 1003 place 6 attempts 4098 boundaries {} yields 64 dropped 0",
                4 + 3 + 12_352 + 1
            ),
            "grants 9 9 9 9 9 9",
        ],
    );
}

/// Grants and other refusals behind Busy attempts give no reason.
#[test]
fn no_reason_elsewhere() {
    // late Busy, then granted
    bench(
        &[
            "script 5 0 0 5 0 0 3 6 1 5 0 0 3 6 0 5 0 0",
            "acquire_index_bucket 1 2",
        ],
        &["granted 6 2 70 next 3 place 6 attempts 2 boundaries 7 yields 0 dropped 0"],
    );
    // a Busy inside, then granted
    bench(
        &["try_acquire 6", "foreign_release_between_attempts 6 1 70"],
        &[
            "granted 6 1 70 next 2 place 0 attempts 1 boundaries 0 yields 0 dropped 0",
            "granted 6 2 70 next 3 place 0 attempts 2 boundaries 0 yields 0 dropped 0",
        ],
    );
    // before, then a header that is poisoned when attempt 1 begins
    bench(
        &["script 3 6 1 5 0 0 4 1 1 5 0 0", "acquire_index_bucket 1 2"],
        &["refused 7 Poisoned 1 next 1 place 4 attempts 2 boundaries 2 yields 0 dropped 0"],
    );
    // after the last serial, then none remains
    bench(
        &[
            "head 2 4 4294967294 70",
            "script 5 0 0 5 0 0 3 6 1 5 0 0 3 6 0 5 0 0",
            "acquire_index_bucket 1 2",
        ],
        &["refused 10 SerialsSpent 6 next 4294967295 place 6 attempts 2 boundaries 6 yields 0 dropped 0"],
    );
    // poisoned behind the third boundary, and waited for: 7, and the spent serial shows only in next
    for call in LOCKS {
        bench(
            &["script 5 0 0 5 0 0 4 1 1 3 6 1", call],
            &["refused 7 Poisoned 1 next 2 place 4 attempts 1 boundaries 3 yields 0 dropped 0"],
        );
    }
}
