//! Request L6 of document 02: salvage after a warm restart. In the console's language, and over many random arenas;
//! what is expected was worked out from the documents.

use console::dice::Dice;
use plain::rules::{self, Answer, Head, Lease};
use plain::salvage::{salvage, SalvageRefusal, Salvaged};

const PREPARED: &str = "done next 5 place 0 attempts 0 boundaries 0 yields 0 dropped 0";

/// The lines in a prepared arena of 4 cells, H 2 and B 2, next serial 5, print these lines. Its table is places 0 to
/// 11, its health 12 and 13.
fn bench(lines: &[&str], expected: &[&str]) {
    let input = format!("prepare 2 2 5 70\n{}\n", lines.join("\n"));
    let mut out = Vec::new();
    let end = console::play::play(&mut plain::Plain, &mut input.as_bytes(), &mut out);
    assert_eq!(end.lost, None);
    let printed = String::from_utf8(out).expect("the console prints text");
    let expected = format!("{PREPARED}\n{}\n", expected.join("\n"));
    assert_eq!(printed, expected, "{lines:?}");
}

/// A word, and so many nines.
fn nines(word: &str, count: usize) -> String {
    format!("{word}{}", " 9".repeat(count))
}

/// Bit and owner of cell 1 as bad RAM left them, and the entries of the report: "lists each word .. changed", so a word
/// that is 0 already has none.
#[test]
fn damaged_cells_become_free() {
    for (bit, owner, entries) in [
        (2, 0, "3 2 0"),
        (4_294_967_295_u32, 0, "3 4294967295 0"),
        (1, 0, "3 1 0"),
        (0, 1, "4 1 0"),
        (0, 4_294_967_295_u32, "4 4294967295 0"),
        (1, 5, "3 1 0 4 5 0"),
        (1, 4_294_967_295, "3 1 0 4 4294967295 0"),
        (2, 4, "3 2 0 4 4 0"),
        (7, 7, "3 7 0 4 7 0"),
    ] {
        let words = entries.split(' ').count();
        bench(
            &[
                &format!("word 3 {bit}"),
                &format!("word 4 {owner}"),
                &format!("report {words}"),
                "salvage",
                "show",
            ],
            &[
                &format!("done {} 0 next 5", words / 3),
                &format!("report {entries}"),
                "unconfirmed",
                "head 2 2 5 70",
            ],
        );
    }
}

/// "sound cells keep their bit and owner", and "Cells left held are listed apart as unconfirmed".
#[test]
fn sound_cells_stay() {
    bench(
        &[
            "word 3 1",
            "word 4 4",
            "word 9 1",
            "word 10 1",
            "unconfirmed 2",
            "salvage",
            "show",
            "read_permission 1 4 70",
        ],
        &[
            "done 0 2 next 5",
            "report",
            "unconfirmed 1 3",
            "head 2 2 5 70",
            "cell 1 1 4 0",
            "cell 3 1 1 0",
            "cell 1 next 5 place 0 attempts 0 boundaries 0 yields 0 dropped 0",
        ],
    );
}

/// RAM that left two cells to one owner: both are sound, and keep it.
#[test]
fn one_owner_of_two_cells() {
    bench(
        &[
            "word 0 1",
            "word 1 3",
            "word 6 1",
            "word 7 3",
            "unconfirmed 2",
            "salvage",
            "drop_lease 0 3 70",
            "salvage",
        ],
        &[
            "done 0 2 next 5",
            "report",
            "unconfirmed 0 2",
            "done next 5 place 0 attempts 0 boundaries 0 yields 0 dropped 0",
            "done 0 1 next 5",
            "report",
            // the word behind the entry is left alone
            "unconfirmed 2 2",
        ],
    );
}

/// "all waiters become 0": of a free cell, of a held one, and of a damaged one.
#[test]
fn waiters_become_0() {
    bench(
        &[
            "word 2 1",
            "word 3 1",
            "word 4 2",
            "word 5 4294967295",
            "word 6 3",
            "word 8 7",
            "report 12",
            "unconfirmed 1",
            "salvage",
            "show",
        ],
        &[
            "done 4 1 next 5",
            "report 2 1 0 5 4294967295 0 6 3 0 8 7 0",
            "unconfirmed 1",
            "head 2 2 5 70",
            "cell 1 1 2 0",
        ],
    );
}

/// "health bytes other than 0 and 1 become 1", and "health places counting on from the table's".
#[test]
fn health() {
    for (bytes, entries, after) in [
        ([0, 0], "", ["", ""]),
        ([1, 0], "", ["health 0 1", ""]),
        ([0, 2], " 13 2 1", ["", "health 1 1"]),
        ([255, 1], " 12 255 1", ["health 0 1", "health 1 1"]),
        ([128, 3], " 12 128 1 13 3 1", ["health 0 1", "health 1 1"]),
    ] {
        let words = entries.split(' ').skip(1).count();
        let mut expected = vec![
            format!("done {} 0 next 5", words / 3),
            format!("report{entries}"),
            "unconfirmed".to_string(),
            "head 2 2 5 70".to_string(),
        ];
        let shown = after.into_iter().filter(|line| !line.is_empty());
        expected.extend(shown.map(String::from));
        let expected: Vec<&str> = expected.iter().map(String::as_str).collect();
        bench(
            &[
                &format!("byte 0 {}", bytes[0]),
                &format!("byte 1 {}", bytes[1]),
                &format!("report {words}"),
                "salvage",
                "show",
            ],
            &expected,
        );
    }
}

/// A dip: cells 0 and 1 damaged, 2 and 3 held, a byte spoilt. Five entries, and two cells left held.
const DIP: [&str; 10] = [
    "word 0 9",
    "word 4 8",
    "word 5 1",
    "word 6 1",
    "word 7 4",
    "word 9 1",
    "word 10 1",
    "word 11 6",
    "byte 0 77",
    "byte 1 1",
];
const ENTRIES: &str = "0 9 0 4 8 0 5 1 0 11 6 0 12 77 1";

/// DIP and these lines.
fn dipped<'a>(lines: &[&'a str]) -> Vec<&'a str> {
    [&DIP[..], lines].concat()
}

/// "in rising order", table and health in one report. Words behind the entries are left alone. "A second salvage
/// reports no change", and lists the same cells.
#[test]
fn a_dip_and_a_second_salvage() {
    bench(
        &dipped(&[
            "report 17",
            "unconfirmed 4",
            "salvage",
            "show",
            "report 1",
            "salvage",
        ]),
        &[
            "done 5 2 next 5",
            &format!("report {ENTRIES} 9 9"),
            "unconfirmed 2 3 9 9",
            "head 2 2 5 70",
            "cell 2 1 4 0",
            "cell 3 1 1 0",
            "health 0 1",
            "health 1 1",
            "done 0 2 next 5",
            "report 9",
            "unconfirmed 2 3 9 9",
        ],
    );
}

/// "refuse ReportFull before the first change if the report or that list cannot hold all its entries, and only then":
/// with room for exactly all it is done; with less nothing changes, report and list too.
#[test]
fn report_full() {
    let before = [
        "head 2 2 5 70",
        "cell 0 9 0 0",
        "cell 1 0 8 1",
        "cell 2 1 4 0",
        "cell 3 1 1 6",
        "health 0 77",
        "health 1 1",
    ];
    for (report, list) in [
        (15, 1),
        (15, 0),
        (14, 2),
        (13, 2),
        (12, 2),
        (0, 2),
        (0, 0),
        (14, 1),
        (37_200, 1),
        (12, 4_200),
    ] {
        let expected = [
            "refused ReportFull next 5",
            &nines("report", report),
            &nines("unconfirmed", list),
        ];
        bench(
            &dipped(&[
                &format!("report {report}"),
                &format!("unconfirmed {list}"),
                "salvage",
                "show",
            ]),
            &[&expected[..], &before].concat(),
        );
    }
    for (report, list) in [(15, 2), (16, 2), (17, 3), (37_200, 4_200)] {
        bench(
            &dipped(&[
                &format!("report {report}"),
                &format!("unconfirmed {list}"),
                "salvage",
            ]),
            &[
                "done 5 2 next 5",
                &format!("report {ENTRIES}{}", nines("", report - 15)),
                &format!("unconfirmed 2 3{}", nines("", list - 2)),
            ],
        );
    }
}

/// Where there is nothing to list, no room is needed.
#[test]
fn nothing_to_list() {
    bench(
        &["byte 1 1", "salvage", "show"],
        &[
            "done 0 0 next 5",
            "report",
            "unconfirmed",
            "head 2 2 5 70",
            "health 1 1",
        ],
    );
}

/// "After BadShape": 1 comes first, and changes nothing.
#[test]
fn bad_shape() {
    for (line, next) in [
        ("head 2 2 0 70", 0),
        ("head 0 2 5 70", 5),
        ("head 2 0 5 70", 5),
        ("head 65 1 5 70", 5),
        ("head 1 1025 5 70", 5),
        ("head 64 65 5 70", 5),
        ("head 4294967295 4294967295 5 70", 5),
        ("lend 11 2", 5),
        ("lend 13 2", 5),
        ("lend 15 2", 5),
        ("lend 12 1", 5),
        ("lend 12 3", 5),
        ("lend 0 0", 5),
    ] {
        for (report, list) in [(15, 2), (0, 0)] {
            bench(
                &dipped(&[
                    line,
                    &format!("report {report}"),
                    &format!("unconfirmed {list}"),
                    "salvage",
                    "head 2 2 5 70",
                    "lend",
                    "report 15",
                    "unconfirmed 2",
                    "salvage",
                ]),
                &[
                    &format!("refused 1 BadShape 0 next {next}"),
                    &nines("report", report),
                    &nines("unconfirmed", list),
                    "done 5 2 next 5",
                    &format!("report {ENTRIES}"),
                    "unconfirmed 2 3",
                ],
            );
        }
    }
}

/// "Given that head": the head on paper says which owners are sound. It comes back as it was given.
#[test]
fn the_head_on_paper() {
    for (next, entries, list) in [
        // every owner is at least next
        (1, "0 1 0 1 1 0 3 1 0 4 7 0 6 1 0 7 4294967294 0", ""),
        (2, "3 1 0 4 7 0 6 1 0 7 4294967294 0", " 0"),
        (7, "3 1 0 4 7 0 6 1 0 7 4294967294 0", " 0"),
        (8, "6 1 0 7 4294967294 0", " 0 1"),
        (4_294_967_294_u32, "6 1 0 7 4294967294 0", " 0 1"),
        (4_294_967_295, "", " 0 1 2"),
    ] {
        let (words, held) = (
            entries.split(' ').filter(|word| !word.is_empty()).count(),
            list.split(' ').count() - 1,
        );
        let report = format!("report {entries}");
        bench(
            &[
                "word 0 1",
                "word 1 1",
                "word 3 1",
                "word 4 7",
                "word 6 1",
                "word 7 4294967294",
                &format!("head 2 2 {next} 70"),
                &format!("report {words}"),
                &format!("unconfirmed {held}"),
                "salvage",
            ],
            &[
                &format!("done {} {held} next {next}", words / 3),
                report.trim_end(),
                &format!("unconfirmed{list}"),
            ],
        );
    }
}

/// It is given no script and no lists: the place stays, also one past the script's end, and a held list that is not
/// good is nothing to it.
#[test]
fn what_it_is_not_given() {
    bench(
        &[
            "script 1 0 0 5 0 0",
            "place 7",
            "held 1 1 1",
            "registry 9",
            "counters 3 4",
            "salvage",
            "place 1",
            "held",
            "environment",
            "crew_at_work",
        ],
        &[
            "done 0 0 next 5",
            "report",
            "unconfirmed",
            "done next 5 place 2 attempts 0 boundaries 1 yields 0 dropped 0",
            "refused 1 BadShape 0 next 5",
            "counters 3 4",
        ],
    );
}

/// A salvage is a call, so it has a trace: a damaged bit becomes 0, a sound one stays.
#[test]
fn its_trace() {
    bench(
        &dipped(&[
            "report 15",
            "unconfirmed 2",
            "trace 1",
            "salvage",
            "salvage",
            "unconfirmed 0",
            "salvage",
        ]),
        &[
            "done 5 2 next 5",
            &format!("report {ENTRIES}"),
            "unconfirmed 2 3",
            "step 2 0 0",
            "done 0 2 next 5",
            &format!("report {ENTRIES}"),
            "unconfirmed 2 3",
            "step 0 0 0",
            "refused ReportFull next 5",
            &format!("report {ENTRIES}"),
            "unconfirmed",
            "step 0 0 0",
        ],
    );
}

/// Lines of the console that are not understood leave report and list as they are.
#[test]
fn the_console() {
    for line in [
        "report",
        "report 37201",
        "report 4294967295",
        "report 1 1",
        "report 01",
        "reports 1",
        "unconfirmed",
        "unconfirmed 4201",
        "unconfirmed 1 1",
        "unconfirmed -1",
        "salvage 0",
        "salvage ",
        "salvages",
        "Salvage",
    ] {
        bench(
            &["report 2", "unconfirmed 1", line, "salvage"],
            &[
                "line 4: not understood",
                "done 0 0 next 5",
                "report 9 9",
                "unconfirmed 9",
            ],
        );
    }
    // "each 9", also where a salvage has written
    bench(
        &dipped(&[
            "report 15",
            "unconfirmed 2",
            "salvage",
            "report 3",
            "unconfirmed 2",
            "salvage",
        ]),
        &[
            "done 5 2 next 5",
            &format!("report {ENTRIES}"),
            "unconfirmed 2 3",
            "done 0 2 next 5",
            "report 9 9 9",
            "unconfirmed 2 3",
        ],
    );
}

// ---- Many arenas

/// An arena that mostly survived.
struct Dipped {
    head: Head,
    table: Vec<u32>,
    health: Vec<u8>,
}

impl Dipped {
    fn random(dice: &mut Dice) -> Dipped {
        let (headers, buckets) = (dice.number(5) + 1, dice.number(7) + 1);
        let next = dice.pick(&[1, 2, 9, 30, u32::MAX - 5]);
        let cells = headers * buckets;
        let table = (0..cells)
            .flat_map(|_| {
                let sound = 1 + dice.number(next.saturating_sub(1).max(1));
                let waiters = dice.pick(&[0, 0, 0, 1, u32::MAX]);
                match dice.below(6) {
                    0..=1 => [0, 0, waiters],
                    2..=3 => [1, sound, waiters],
                    4 => [dice.number(3), dice.number(12), waiters],
                    _ => [dice.odd_number(), dice.odd_number(), dice.odd_number()],
                }
            })
            .collect();
        let health = (0..headers)
            .map(|_| dice.pick(&[0, 0, 1, 2, 255]))
            .collect();
        Dipped {
            head: Head {
                headers,
                buckets,
                next,
                boot: dice.odd_number(),
            },
            table,
            health,
        }
    }

    fn cells(&self) -> u32 {
        self.head.headers * self.head.buckets
    }

    fn cell(&self, cell: u32) -> [u32; 3] {
        let at = 3 * cell as usize;
        [self.table[at], self.table[at + 1], self.table[at + 2]]
    }

    /// Table and health, as the report counts their places.
    fn places(&self) -> Vec<u32> {
        let bytes = self.health.iter().map(|&byte| u32::from(byte));
        self.table.iter().copied().chain(bytes).collect()
    }

    fn is_held(&self, cell: u32) -> bool {
        let [bit, owner, _] = self.cell(cell);
        bit == 1 && (1..self.head.next).contains(&owner)
    }

    fn is_free(&self, cell: u32) -> bool {
        self.cell(cell)[..2] == [0, 0]
    }

    fn live(&self) -> Vec<Lease> {
        let held = (0..self.cells()).filter(|&cell| self.is_held(cell));
        held.map(|cell| Lease {
            cell,
            serial: self.cell(cell)[1],
            boot: self.head.boot,
        })
        .collect()
    }

    fn bits(&self) -> usize {
        self.table.chunks(3).filter(|cell| cell[0] == 1).count()
    }

    /// A salvage with rooms of these lengths, and what it wrote there.
    fn salvage(
        &mut self,
        report: usize,
        list: usize,
    ) -> (Result<Salvaged, SalvageRefusal>, Vec<u32>, Vec<u32>) {
        let (mut report, mut list) = (vec![9; report], vec![9; list]);
        let reply = salvage(
            self.head,
            &mut self.table,
            &mut self.health,
            &mut report,
            &mut list,
        );
        assert_eq!(reply.head, self.head);
        (reply.answer, report, list)
    }
}

/// Each sentence over many arenas: what each cell, its waiters and each byte become; the report is the list of the
/// places that differ, in rising order; the list has the cells held; one word less is ReportFull and changes nothing;
/// a second salvage reports no change.
#[test]
fn many_dips() {
    let mut dice = Dice(6);
    for _ in 0..400 {
        let mut arena = Dipped::random(&mut dice);
        let before = arena.places();
        let held: Vec<u32> = arena.live().iter().map(|lease| lease.cell).collect();
        let sound: Vec<bool> = (0..arena.cells())
            .map(|cell| arena.is_held(cell) || arena.is_free(cell))
            .collect();
        let (answer, report, list) = arena.salvage(3 * before.len(), arena.cells() as usize);
        let after = arena.places();
        let entries: Vec<u32> = (0..before.len())
            .filter(|&place| before[place] != after[place])
            .flat_map(|place| [place as u32, before[place], after[place]])
            .collect();
        let salvaged = Salvaged {
            changed: entries.len() / 3,
            held: held.len(),
        };
        assert_eq!(answer, Ok(salvaged));
        assert_eq!(report[..entries.len()], entries);
        assert!(report[entries.len()..].iter().all(|&word| word == 9));
        assert_eq!(list[..held.len()], held);
        assert!(list[held.len()..].iter().all(|&word| word == 9));
        for (cell, &sound) in sound.iter().enumerate() {
            let words = &before[3 * cell..3 * cell + 2];
            let kept = if sound { words } else { &[0, 0] };
            assert_eq!(arena.cell(cell as u32), [kept[0], kept[1], 0]);
        }
        for (byte, &old) in arena.health.iter().zip(&before[3 * sound.len()..]) {
            assert_eq!(u32::from(*byte), old.min(1));
        }
        // a second one has nothing to report, and needs room for the held cells alone
        let (answer, _, list) = arena.salvage(0, held.len());
        assert_eq!(
            (answer, list),
            (
                Ok(Salvaged {
                    changed: 0,
                    ..salvaged
                }),
                held.clone()
            )
        );
        assert_eq!(arena.places(), after);
        // room for exactly all, and one word less of each
        let mut again = Dipped {
            head: arena.head,
            table: before[..3 * sound.len()].to_vec(),
            health: before[3 * sound.len()..]
                .iter()
                .map(|&byte| byte as u8)
                .collect(),
        };
        for (report, list) in [
            (entries.len().checked_sub(1), Some(held.len())),
            (Some(entries.len()), held.len().checked_sub(1)),
        ] {
            if let (Some(report), Some(list)) = (report, list) {
                let (answer, report, list) = again.salvage(report, list);
                assert_eq!(answer, Err(SalvageRefusal::ReportFull));
                assert!(report.iter().chain(&list).all(|&word| word == 9));
                assert_eq!(again.places(), before);
            }
        }
        let (answer, report, list) = again.salvage(entries.len(), held.len());
        assert_eq!((answer, report, list), (Ok(salvaged), entries, held));
        assert_eq!(again.places(), after);
    }
}

/// "a dead serial below next stays dead from there on", and "next minus the given next = takes since; cells held at the
/// start plus takes minus releases = cells with bit 1", over many plays behind a salvage. No cell is damaged in them.
#[test]
fn plays_behind_a_salvage() {
    let mut dice = Dice(66);
    for _ in 0..200 {
        let mut arena = Dipped::random(&mut dice);
        let (answer, _, _) = arena.salvage(3 * arena.places().len(), arena.cells() as usize);
        let start = answer.expect("there is room").held;
        let given = arena.head.next;
        let (mut takes, mut releases) = (0, 0);
        for _ in 0..60 {
            let (live, next) = (arena.live(), arena.head.next);
            let cell = dice.number(arena.cells());
            let reply = match dice.once_in(2) {
                true if !live.is_empty() => {
                    let lease = dice.pick(&live);
                    rules::drop_lease(arena.head, &mut arena.table, lease)
                }
                _ => rules::try_acquire(arena.head, &mut arena.table, cell),
            };
            arena.head = reply.head;
            match reply.answer {
                Answer::Granted(_) => takes += 1,
                Answer::Done => releases += 1,
                Answer::Busy(_) => {}
                Answer::Refused(refusal) => assert_eq!((refusal.number(), next), (10, u32::MAX)),
                other => panic!("{other:?}"),
            }
            assert_eq!((arena.head.next - given) as usize, takes);
            assert_eq!(start + takes - releases, arena.bits());
            for lease in arena.live() {
                let lived = live.iter().any(|one| one.serial == lease.serial);
                assert!(lived || lease.serial >= next);
            }
        }
    }
}
