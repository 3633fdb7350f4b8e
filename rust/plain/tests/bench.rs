//! The bench cases of document 01, in the console's language, with the reasons that request L1 of document 02 gives them.
//! What is expected was worked out from the documents.

/// Arena: H 2, B 4, registry 0, 1, 1, first serial 1.
const ARENA: &str = "prepare 2 4 1 70\nregistry 0 1 1";
const PREPARED: &str = "done next 1 place 0 attempts 0 boundaries 0 yields 0 dropped 0";

fn played(lines: &str) -> String {
    let mut out = Vec::new();
    let end = console::play::play(&mut plain::Plain, &mut lines.as_bytes(), &mut out);
    assert_eq!(end.lost, None);
    String::from_utf8(out).expect("the console prints text")
}

/// The lines in the bench's arena print these lines.
fn bench(lines: &[&str], expected: &[&str]) {
    let printed = played(&format!("{ARENA}\n{}\n", lines.join("\n")));
    let expected = format!("{PREPARED}\n{}\n", expected.join("\n"));
    assert_eq!(printed, expected, "{lines:?}");
}

#[test]
fn one_key() {
    let counts = "next 2 place 0 attempts 1 boundaries 3 yields 0 dropped 0";
    for call in ["transactional_try_lock_bucket", "acquire_index_bucket"] {
        bench(
            &[&format!("{call} 0 2"), "show"],
            &[
                &format!("granted 2 1 70 {counts}"),
                "head 2 4 2 70",
                "cell 2 1 1 0",
            ],
        );
    }
    bench(
        &["keys 0 2", "grants 3", "acquire_index_locks", "show"],
        &[
            &format!("granted {counts}"),
            "grants 2 1 70",
            "head 2 4 2 70",
            "cell 2 1 1 0",
        ],
    );
}

#[test]
fn again_with_the_lease_held() {
    let first = "granted 2 1 70 next 2 place 0 attempts 1 boundaries 3 yields 0 dropped 0";
    let counts = "next 2 place 0 attempts 4096 boundaries 12352 yields 64 dropped 0";
    bench(
        &[
            "acquire_index_bucket 0 2",
            "held 2 1 70",
            "acquire_index_bucket 0 2",
            "show",
        ],
        &[
            first,
            &format!("refused 11 SerializationFailure 4096 held 1 {counts}"),
            "head 2 4 2 70",
            "cell 2 1 1 0",
        ],
    );
    bench(
        &[
            "acquire_index_bucket 0 2",
            "held 2 1 70",
            "keys 0 2",
            "grants 3",
            "acquire_index_locks",
        ],
        &[
            first,
            &format!("refused 11 SerializationFailure 4096 held 1 at 0 {counts}"),
            "grants 9 9 9",
        ],
    );
}

#[test]
fn waiters_stay() {
    let counts = "next 1 place 0 attempts 4096 boundaries 8256 yields 64 dropped 0";
    bench(
        &["word 8 1", "acquire_index_bucket 0 2", "show"],
        &[
            &format!("refused 11 SerializationFailure 4096 before {counts}"),
            "head 2 4 1 70",
            "cell 2 0 0 1",
        ],
    );
}

#[test]
fn late_busy() {
    for call in ["try_lock", "other_mutex_preserves_leases"] {
        bench(
            &[
                "script 5 0 0 5 0 0 3 2 1 5 0 0",
                &format!("{call} 2"),
                "show",
            ],
            &[
                "busy after 1 next 2 place 4 attempts 1 boundaries 3 yields 0 dropped 0",
                "head 2 4 2 70",
                "cell 2 0 0 1",
            ],
        );
    }
}

#[test]
fn buckets() {
    let none = "next 1 place 0 attempts 1 boundaries 0 yields 0 dropped 0";
    let granted = "next 2 place 0 attempts 1 boundaries 3 yields 0 dropped 0";
    for call in ["transactional_try_lock_bucket", "acquire_index_bucket"] {
        bench(
            &[&format!("{call} 0 4")],
            &[&format!("refused 8 InvalidBucket 4 {none}")],
        );
        bench(
            &[&format!("{call} 0 3")],
            &[&format!("granted 3 1 70 {granted}")],
        );
        bench(
            &["byte 0 1", &format!("{call} 0 4")],
            &[&format!("refused 7 Poisoned 0 {none}")],
        );
    }
    bench(
        &["keys 0 4", "grants 3", "acquire_index_locks"],
        &[
            &format!("refused 8 InvalidBucket 4 at 0 {none}"),
            "grants 9 9 9",
        ],
    );
    bench(
        &["keys 0 3", "grants 3", "acquire_index_locks"],
        &[&format!("granted {granted}"), "grants 3 1 70"],
    );
    bench(
        &["byte 0 1", "keys 0 4", "grants 3", "acquire_index_locks"],
        &[&format!("refused 7 Poisoned 0 at 0 {none}"), "grants 9 9 9"],
    );
}

#[test]
fn serials_at_the_end() {
    let spent = "next 4294967295 place 0 attempts 1 boundaries 2 yields 0 dropped 0";
    let granted = "next 4294967295 place 0 attempts 1 boundaries 3 yields 0 dropped 0";
    for call in ["transactional_try_lock_bucket", "acquire_index_bucket"] {
        bench(
            &["head 2 4 4294967295 70", &format!("{call} 0 2"), "show"],
            &[
                &format!("refused 10 SerialsSpent 2 {spent}"),
                "head 2 4 4294967295 70",
            ],
        );
        bench(
            &["head 2 4 4294967294 70", &format!("{call} 0 2"), "show"],
            &[
                &format!("granted 2 4294967294 70 {granted}"),
                "head 2 4 4294967295 70",
                "cell 2 1 4294967294 0",
            ],
        );
    }
    bench(
        &[
            "head 2 4 4294967295 70",
            "keys 0 2",
            "grants 3",
            "acquire_index_locks",
        ],
        &[
            &format!("refused 10 SerialsSpent 2 at 0 {spent}"),
            "grants 9 9 9",
        ],
    );
    bench(
        &[
            "head 2 4 4294967294 70",
            "keys 0 2",
            "grants 3",
            "acquire_index_locks",
        ],
        &[&format!("granted {granted}"), "grants 2 4294967294 70"],
    );
}

#[test]
fn spent_and_held() {
    bench(
        &[
            "head 2 4 4294967294 70",
            "acquire_index_bucket 0 2",
            "acquire_index_bucket 0 2",
        ],
        &[
            "granted 2 4294967294 70 next 4294967295 place 0 attempts 1 boundaries 3 yields 0 dropped 0",
            "refused 11 SerializationFailure 4096 held 4294967294 next 4294967295 place 0 attempts 4096 boundaries 12352 yields 64 dropped 0",
        ],
    );
}

#[test]
fn foreign_release() {
    let foreign = "granted 2 1 70 next 2 place 0 attempts 1 boundaries 0 yields 0 dropped 0";
    let script = "script 5 0 0 5 0 0 2 2 1 5 0 0";
    bench(
        &["try_acquire 2", script, "acquire_index_bucket 0 2"],
        &[
            foreign,
            "granted 2 2 70 next 3 place 4 attempts 2 boundaries 6 yields 0 dropped 0",
        ],
    );
    bench(
        &[
            "try_acquire 2",
            script,
            "held 2 1 70",
            "acquire_index_bucket 0 2",
            "show",
        ],
        &[
            foreign,
            "refused 11 SerializationFailure 4096 held 1 next 2 place 4 attempts 4096 boundaries 12352 yields 64 dropped 1",
            "head 2 4 2 70",
            "cell 2 1 1 0",
        ],
    );
}

#[test]
fn two_keys_of_one_cell() {
    bench(
        &["keys 1 0 2 0", "grants 6", "acquire_index_locks", "show"],
        &[
            "refused 11 SerializationFailure 4096 held 1 at 1 next 2 place 0 attempts 4097 boundaries 12356 yields 64 dropped 0",
            "grants 9 9 9 9 9 9",
            "head 2 4 2 70",
        ],
    );
}

#[test]
fn no_keys() {
    bench(
        &["acquire_index_locks", "show"],
        &[
            "granted next 1 place 0 attempts 0 boundaries 0 yields 0 dropped 0",
            "grants",
            "head 2 4 1 70",
        ],
    );
}

#[test]
fn crews() {
    bench(
        &[
            "member 2 5",
            "member 2 5",
            "turns 0 1 0 1 0 1 0 1 0 1 0 1 0 1",
            "crew",
            "show",
        ],
        &[
            "crew moving 8 idle 6 next 5",
            "member 0 taken 2 released 2",
            "member 1 taken 2 released 2",
            "head 2 4 5 70",
        ],
    );
    bench(
        &["member 2 5", "member 5 2", "turns 0 1", "crew", "show"],
        &["refused 15 BadCrew 1 next 1", "head 2 4 1 70"],
    );
}

#[test]
fn the_console_s_example() {
    let lines = "prepare 2 4 1 70\nregistry 0 1 1\nacquire_index_bucket 0 2\nheld 2 1 70\nacquire_index_bucket 0 2\nshow";
    let expected = "done next 1 place 0 attempts 0 boundaries 0 yields 0 dropped 0
granted 2 1 70 next 2 place 0 attempts 1 boundaries 3 yields 0 dropped 0
refused 11 SerializationFailure 4096 held 1 next 2 place 0 attempts 4096 boundaries 12352 yields 64 dropped 0
head 2 4 2 70
cell 2 1 1 0
";
    assert_eq!(played(lines), expected);
}

#[test]
fn lines_that_are_not_understood() {
    assert_eq!(played(""), "");
    assert_eq!(played("\n\n# \t\n"), "");
    assert_eq!(
        played("\nfoo\n# x\nshow "),
        "line 2: not understood\nline 4: not understood\n"
    );
    for line in [
        "lend 1",
        "byte 0 256",
        "word 12600 0",
        "grants 301",
        "place 01",
        "place 4294967296",
        "place -1",
        "show\r",
        "\tshow",
        "place  1",
        "environment 1",
        "try_lock",
    ] {
        assert_eq!(played(line), "line 1: not understood\n", "{line:?}");
    }
    let members = "member\n".repeat(21);
    assert_eq!(played(&members), "line 21: not understood\n");
}

/// The first words of `ram 1`, from x = 1: 1,664,525 + 1,013,904,223, and so on.
#[test]
fn rubbish() {
    let mut x: u64 = 1;
    let mut words = Vec::new();
    for _ in 0..12_601 {
        x = (x * 1_664_525 + 1_013_904_223) % (1 << 32);
        words.push(x);
    }
    assert_eq!(words[0], 1_015_568_748);
    let expected = format!(
        "head 0 0 0 0\ncell 0 {} {} {}\nhealth 0 {}\n",
        words[0],
        words[1],
        words[2],
        words[12_600] / 65_536 % 256
    );
    assert_eq!(played("lend 5 1\nshow"), expected);
    assert_eq!(played("ram 7\nram 1\nlend 5 1\nshow"), expected);
}
