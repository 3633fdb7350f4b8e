//! Request L4 of document 02: keys in any order, and doubles. In the console's language, and over many random keys;
//! what is expected was worked out from the documents.

use console::dice::Dice;
use plain::rules::{self, Answer, Head};

/// Arena: H 2, B 4, registry 0, 1, 1, first serial 1. Bindings 1 and 2 name one header.
const ARENA: &str = "prepare 2 4 1 70\nregistry 0 1 1";
const PREPARED: &str = "done next 1 place 0 attempts 0 boundaries 0 yields 0 dropped 0";
const NO_COUNTS: &str = "attempts 0 boundaries 0 yields 0 dropped 0";

/// The lines in the bench's arena print these lines.
fn bench(lines: &[&str], expected: &[&str]) {
    let input = format!("{ARENA}\n{}\n", lines.join("\n"));
    let mut out = Vec::new();
    let end = console::play::play(&mut plain::Plain, &mut input.as_bytes(), &mut out);
    assert_eq!(end.lost, None);
    let printed = String::from_utf8(out).expect("the console prints text");
    let expected = format!("{PREPARED}\n{}\n", expected.join("\n"));
    assert_eq!(printed, expected, "{lines:?}");
}

/// A grant buffer of so many words that nobody has written.
fn nines(words: usize) -> String {
    format!("grants{}", " 9".repeat(words))
}

/// "sort by cell .., lock in rising order, then hand back one lease per key in the caller's order": serials rise with
/// the cells, whatever the order of the keys.
#[test]
fn falling_keys() {
    bench(
        &[
            "keys 2 3 1 0 0 2 0 0",
            "grants 12",
            "acquire_sorted_locks",
            "show",
        ],
        &[
            "granted next 5 place 0 attempts 4 boundaries 12 yields 0 dropped 0",
            "grants 7 4 70 4 3 70 2 2 70 0 1 70",
            "head 2 4 5 70",
            "cell 0 1 1 0",
            "cell 2 1 2 0",
            "cell 4 1 3 0",
            "cell 7 1 4 0",
        ],
    );
}

/// "drop doubles, .. doubled keys sharing one": (1,0) and (2,0) are one cell, which the old call cannot lock twice.
/// Attempts and boundaries count each cell once.
#[test]
fn doubled_keys() {
    let keys = "keys 1 0 2 0";
    bench(
        &[keys, "grants 6", "acquire_sorted_locks", "show"],
        &[
            "granted next 2 place 0 attempts 1 boundaries 3 yields 0 dropped 0",
            "grants 4 1 70 4 1 70",
            "head 2 4 2 70",
            "cell 4 1 1 0",
        ],
    );
    bench(
        &[
            "keys 2 1 0 3 1 1 0 0 0 3 2 1",
            "grants 18",
            "acquire_sorted_locks",
        ],
        &[
            "granted next 4 place 0 attempts 3 boundaries 9 yields 0 dropped 0",
            "grants 5 3 70 3 2 70 5 3 70 0 1 70 3 2 70 5 3 70",
        ],
    );
    // "The old call stays as it is."
    bench(
        &[keys, "grants 6", "acquire_index_locks"],
        &[
            "refused 11 SerializationFailure 4096 held 1 at 1 next 2 place 0 attempts 4097 boundaries 12356 yields 64 dropped 0",
            "grants 9 9 9 9 9 9",
        ],
    );
}

#[test]
fn no_keys() {
    bench(
        &["script 1 0 0 5 0 0", "acquire_sorted_locks", "show"],
        &[
            &format!("granted next 1 place 0 {NO_COUNTS}"),
            "grants",
            "head 2 4 1 70",
        ],
    );
}

/// "BadHeader and InvalidBucket are now also tested in this call before any attempt, by the caller's first position,
/// header before bucket." Nothing changes, the script is not begun, and all counts are 0.
#[test]
fn bad_headers_and_buckets() {
    for (keys, refusal) in [
        ("1 4", "8 InvalidBucket 4 at 0"),
        ("1 3 0 4294967295 0 9", "8 InvalidBucket 4294967295 at 1"),
        ("3 0", "6 BadHeader 2 at 0"),
        ("4 0", "6 BadHeader 4294967295 at 0"),
        ("1 3 0 0 3 0", "6 BadHeader 2 at 2"),
        // both at one position: the header
        ("3 4", "6 BadHeader 2 at 0"),
        ("0 0 4 7", "6 BadHeader 4294967295 at 1"),
        // the first position, whichever of the two it is
        ("0 4 3 0", "8 InvalidBucket 4 at 0"),
        ("3 0 0 4", "6 BadHeader 2 at 0"),
        // a double of a bad key
        ("0 0 0 5 0 5", "8 InvalidBucket 5 at 1"),
    ] {
        let words = keys.split(' ').count() / 2 * 3;
        bench(
            &[
                "registry 0 1 1 2 4294967295",
                "script 1 0 0 4 0 1 5 0 0",
                &format!("keys {keys}"),
                &format!("grants {words}"),
                "acquire_sorted_locks",
                "show",
            ],
            &[
                &format!("refused {refusal} next 1 place 0 {NO_COUNTS}"),
                &nines(words),
                "head 2 4 1 70",
            ],
        );
    }
}

/// The bucket is tested before any attempt, health in the attempt: here 8 comes before 7.
#[test]
fn bucket_before_health() {
    let keys = "keys 0 4";
    bench(
        &["byte 0 1", keys, "grants 3", "acquire_sorted_locks"],
        &[
            &format!("refused 8 InvalidBucket 4 at 0 next 1 place 0 {NO_COUNTS}"),
            "grants 9 9 9",
        ],
    );
    bench(
        &["byte 0 1", keys, "grants 3", "acquire_index_locks"],
        &[
            "refused 7 Poisoned 0 at 0 next 1 place 0 attempts 1 boundaries 0 yields 0 dropped 0",
            "grants 9 9 9",
        ],
    );
}

/// All bindings come before the first header or bucket.
#[test]
fn bindings_first() {
    for (keys, position) in [("5 0", 0), ("3 0 5 0", 1), ("0 4 3 9 0 0 5 0 6 0", 3)] {
        let words = keys.split(' ').count() / 2 * 3;
        bench(
            &[
                "registry 0 1 1 2",
                &format!("keys {keys}"),
                &format!("grants {words}"),
                "acquire_sorted_locks",
            ],
            &[
                &format!("refused 5 BadBinding {position} next 1 place 0 {NO_COUNTS}"),
                &nines(words),
            ],
        );
    }
}

/// "TooMany counts keys as typed": 65 keys of one cell are too many, and 64 are not; held leases count too.
#[test]
fn too_many() {
    let refused = |next: u32| format!("refused 4 TooMany 0 next {next} place 0 {NO_COUNTS}");
    let keys = |count: usize| format!("keys{}", " 0 1".repeat(count));
    bench(
        &[&keys(65), "grants 195", "acquire_sorted_locks"],
        &[&refused(1), &nines(195)],
    );
    bench(
        &[&keys(64), "grants 192", "acquire_sorted_locks"],
        &[
            "granted next 2 place 0 attempts 1 boundaries 3 yields 0 dropped 0",
            &format!("grants{}", " 1 1 70".repeat(64)),
        ],
    );
    let taken = "granted 3 1 70 next 2 place 0 attempts 1 boundaries 0 yields 0 dropped 0";
    let held = ["try_acquire 3", "held 3 1 70"];
    bench(
        &[
            held[0],
            held[1],
            &keys(64),
            "grants 192",
            "acquire_sorted_locks",
        ],
        &[taken, &refused(2), &nines(192)],
    );
    bench(
        &[
            held[0],
            held[1],
            &keys(63),
            "grants 189",
            "acquire_sorted_locks",
        ],
        &[
            taken,
            "granted next 3 place 0 attempts 1 boundaries 3 yields 0 dropped 0",
            &format!("grants{}", " 1 2 70".repeat(63)),
        ],
    );
    for (keys, grants) in [
        ("keys 0 1 0", 3),
        ("keys 0 1 0", 6),
        // two words a key were enough before L8
        ("keys 0 1", 2),
        ("keys 0 1", 4),
        ("keys 0 1", 6),
        ("keys 0 1 0 1", 3),
        ("keys 0 1 0 1", 4),
        ("keys", 3),
    ] {
        bench(
            &[keys, &format!("grants {grants}"), "acquire_sorted_locks"],
            &[&refused(1), &nines(grants)],
        );
    }
}

/// The checks before 5, in the order of the table: each beats those behind it.
#[test]
fn the_order_of_the_checks() {
    let refused = |line: &str| format!("refused {line} {NO_COUNTS}");
    let faults = [
        "head 2 4 0 70",
        "place 9",
        "held 7 7 70",
        "grants 4",
        "registry",
    ];
    for (from, expected) in [
        "1 BadShape 0 next 0 place 9",
        "2 BadScript 0 next 1 place 9",
        "3 BadHeld 0 next 1 place 0",
        "4 TooMany 0 next 1 place 0",
        "5 BadBinding 0 next 1 place 0",
    ]
    .into_iter()
    .enumerate()
    {
        let mut lines = vec!["keys 3 9", "grants 3"];
        lines.extend(&faults[from..]);
        lines.push("acquire_sorted_locks");
        let words = if from < 4 { 4 } else { 3 };
        bench(&lines, &[&refused(expected), &nines(words)]);
    }
    for wrong in ["lend 23 2", "lend 24 1", "lend 24 3", "lend 27 2"] {
        bench(
            &[wrong, "acquire_sorted_locks"],
            &[&refused("1 BadShape 0 next 1 place 0"), "grants"],
        );
    }
}

/// "a later refusal carries the first position asking for that cell", beside what it carries anyway: of cell 5, which
/// positions 1, 3 and 4 ask for. Cell 1 is locked before it, and given back with a boundary.
#[test]
fn later_refusals() {
    let asks = [
        "keys 2 3 2 1 0 1 1 1 2 1",
        "grants 15",
        "acquire_sorted_locks",
        "show",
    ];
    let run = |before: &[&str], expected: &[&str]| {
        let lines = [before, &asks].concat();
        bench(&lines, expected);
    };
    run(
        &["byte 1 3"],
        &[
            "refused 7 Poisoned 1 at 1 next 2 place 0 attempts 2 boundaries 4 yields 0 dropped 0",
            &nines(15),
            "head 2 4 2 70",
            "health 1 3",
        ],
    );
    run(
        &["word 15 2"],
        &[
            "refused 9 Damaged 5 at 1 next 2 place 0 attempts 2 boundaries 6 yields 0 dropped 0",
            &nines(15),
            "head 2 4 2 70",
            "cell 5 2 0 0",
        ],
    );
    run(
        &["head 2 4 4294967294 70"],
        &[
            "refused 10 SerialsSpent 5 at 1 next 4294967295 place 0 attempts 2 boundaries 6 yields 0 dropped 0",
            &nines(15),
            "head 2 4 4294967295 70",
        ],
    );
    // "refusal 11 carries that reason besides 4,096", of that cell's last attempt
    run(
        &["word 17 1"],
        &[
            "refused 11 SerializationFailure 4096 before at 1 next 2 place 0 attempts 4097 boundaries 8260 yields 64 dropped 0",
            &nines(15),
            "head 2 4 2 70",
            "cell 5 0 0 1",
        ],
    );
    run(
        &["try_acquire 5"],
        &[
            "granted 5 1 70 next 2 place 0 attempts 1 boundaries 0 yields 0 dropped 0",
            "refused 11 SerializationFailure 4096 held 1 at 1 next 3 place 0 attempts 4097 boundaries 12356 yields 64 dropped 0",
            &nines(15),
            "head 2 4 3 70",
            "cell 5 1 1 0",
        ],
    );
}

/// The lowest cell is tried first: of two refusals to come, its own is given, wherever it stands in the list.
#[test]
fn the_lowest_cell_first() {
    for (keys, position) in [("1 2 0 3", 1), ("0 3 1 2", 0), ("1 2 0 1 0 3", 2)] {
        let words = keys.split(' ').count() / 2 * 3;
        let before = if words == 9 { 1 } else { 0 };
        bench(
            &[
                "word 9 7",
                "byte 1 1",
                &format!("keys {keys}"),
                &format!("grants {words}"),
                "acquire_sorted_locks",
            ],
            &[
                &format!(
                    "refused 9 Damaged 3 at {position} next {} place 0 attempts {} boundaries {} yields 0 dropped 0",
                    1 + before,
                    1 + before,
                    2 + 4 * before
                ),
                &nines(words),
            ],
        );
    }
}

/// L3's second reading, in the third boundary of the second cell: the first one is given back.
#[test]
fn poisoned_meanwhile() {
    bench(
        &[
            "script 5 0 0 5 0 0 5 0 0 5 0 0 5 0 0 4 1 1 5 0 0 2 0 1",
            "keys 1 0 0 0 2 0",
            "grants 9",
            "acquire_sorted_locks",
            "show",
        ],
        &[
            "refused 7 Poisoned 1 at 0 next 3 place 8 attempts 2 boundaries 7 yields 0 dropped 1",
            "grants 9 9 9 9 9 9 9 9 9",
            "head 2 4 3 70",
            "health 1 1",
        ],
    );
}

/// Foreign steps cannot release what the call has taken, or the caller's held leases.
#[test]
fn leases_are_protected() {
    bench(
        &[
            "try_acquire 7",
            "held 7 1 70",
            "script 5 0 0 5 0 0 5 0 0 2 0 2 2 7 1 1 5 0 5 0 0",
            "keys 1 0 0 0",
            "grants 6",
            "acquire_sorted_locks",
            "show",
        ],
        &[
            "granted 7 1 70 next 2 place 0 attempts 1 boundaries 0 yields 0 dropped 0",
            "granted next 5 place 7 attempts 2 boundaries 6 yields 0 dropped 2",
            "grants 4 4 70 0 2 70",
            "head 2 4 5 70",
            "cell 0 1 2 0",
            "cell 4 1 4 0",
            "cell 5 1 3 0",
            "cell 7 1 1 0",
        ],
    );
}

/// "To `release_all` the caller hands each lease once, else 14."
#[test]
fn each_lease_once() {
    let released = |line: &str, counts: &str| format!("{line} next 3 place 0 {counts}");
    bench(
        &[
            "keys 1 0 0 0 2 0",
            "grants 9",
            "acquire_sorted_locks",
            "leases 4 2 70 0 1 70 4 2 70",
            "release_all",
            "leases 4 2 70 0 1 70",
            "release_all",
            "show",
        ],
        &[
            "granted next 3 place 0 attempts 2 boundaries 6 yields 0 dropped 0",
            "grants 4 2 70 0 1 70 4 2 70",
            &released("refused 14 Repeated 2", NO_COUNTS),
            &released("done", "attempts 0 boundaries 2 yields 0 dropped 0"),
            "head 2 4 3 70",
        ],
    );
}

/// The call in the console: its trace, and lines that are not understood.
#[test]
fn the_console() {
    bench(
        &[
            "keys 1 3 0 2 2 3",
            "grants 9",
            "trace 1",
            "acquire_sorted_locks",
        ],
        &[
            "granted next 3 place 0 attempts 2 boundaries 6 yields 0 dropped 0",
            "grants 7 2 70 2 1 70 7 2 70",
            "step 1 2 0",
            "step 1 7 0",
        ],
    );
    for line in [
        "acquire_sorted_locks 0",
        "acquire_sorted_locks ",
        "acquire_sorted_lock",
        "Acquire_sorted_locks",
    ] {
        bench(&[line], &["line 3: not understood"]);
    }
}

/// Many keys in an arena of 48 cells whose headers have several bindings: each key has the lease of its cell, each cell
/// has one, and serials rise with the cells. Handed back once each, all is free again.
#[test]
fn many_keys() {
    let mut dice = Dice(4);
    let registry = [3, 0, 5, 1, 1, 4, 2, 0];
    for _ in 0..300 {
        let mut head = Head {
            headers: 6,
            buckets: 8,
            next: 1 + dice.number(100),
            boot: dice.number(3),
        };
        let first = head.next;
        let (mut table, mut health) = ([0; 3 * 48], [0; 6]);
        let count = dice.below(65);
        let keys: Vec<u32> = (0..count)
            .flat_map(|_| [dice.number(8), dice.number(8)])
            .collect();
        let mut grants = vec![0; 3 * count];
        let reply = rules::acquire_sorted_locks(
            head,
            &mut table,
            &mut health,
            &registry,
            &[],
            0,
            &[],
            &keys,
            &mut grants,
        );
        head = reply.head;
        let mut cells: Vec<u32> = keys
            .chunks(2)
            .map(|key| 8 * registry[key[0] as usize] + key[1])
            .collect();
        let leases = grants.chunks(3);
        let boot = head.boot;
        assert!(leases
            .clone()
            .map(|lease| lease[0])
            .eq(cells.iter().copied()));
        cells.sort();
        cells.dedup();
        let serial = |cell: u32| first + cells.partition_point(|&one| one < cell) as u32;
        assert!(leases
            .clone()
            .all(|lease| lease[1..] == [serial(lease[0]), boot]));
        assert_eq!(reply.answer, Answer::AllGranted);
        assert_eq!(reply.counts.attempts as usize, cells.len());
        assert_eq!(reply.counts.boundaries as usize, 3 * cells.len());
        assert_eq!((head.next - first) as usize, cells.len());
        let once: Vec<u32> = cells
            .iter()
            .flat_map(|&cell| [cell, serial(cell), boot])
            .collect();
        let done = rules::release_all(head, &mut table, &mut health, &[], 0, &once);
        assert_eq!(done.answer, Answer::Done);
        assert!(table.iter().all(|&word| word == 0));
    }
}
