//! Request L13 of document 02: the crew at work. In the console's language, and over many random crews; what is expected
//! was worked out from the documents.

use console::dice::Dice;
use plain::rules::{self, CrewReply, Head, Refusal};

const PREPARED: &str = "done next 1 place 0 attempts 0 boundaries 0 yields 0 dropped 0";

fn printed(input: &str) -> String {
    let mut out = Vec::new();
    let end = console::play::play(&mut plain::Plain, &mut input.as_bytes(), &mut out);
    assert_eq!(end.lost, None);
    String::from_utf8(out).expect("the console prints text")
}

/// The lines in an arena of 8 cells, H 2 and B 4, print these lines.
fn bench(lines: &[&str], expected: &[&str]) {
    let printed = printed(&format!("prepare 2 4 1 70\n{}\n", lines.join("\n")));
    let expected = format!("{PREPARED}\n{}\n", expected.join("\n"));
    assert_eq!(printed, expected, "{lines:?}");
}

/// `turns` with these members, so many times.
fn turns(members: &str, times: usize) -> String {
    format!("turns{}", format!(" {members}").repeat(times))
}

/// "Document 01's crew case now needs eleven pairs of turns: 12 moving, 10 idle." Member 0 comes to hold all first, with
/// 3 in cell 2: 3 + 3 and 6 + 3. Then member 1, with 6: 6 + 6 and 9 + 6.
#[test]
fn document_01_s_case() {
    let crew = ["member 2 5", "member 2 5", "counters 1 2 3 4 5 6 7 8"];
    bench(
        &[
            crew[0],
            crew[1],
            crew[2],
            &turns("0 1", 11),
            "crew_at_work",
            "show",
        ],
        &[
            "crew moving 12 idle 10 next 5",
            "member 0 taken 2 released 2",
            "member 1 taken 2 released 2",
            "counters 1 2 12 4 5 15 7 8",
            "head 2 4 5 70",
        ],
    );
    // with one pair less a cell is still held: 4 serials are spent, and the third one took cell 2
    bench(
        &[
            crew[0],
            crew[1],
            crew[2],
            &turns("0 1", 10),
            "crew_at_work",
            "show",
        ],
        &[
            "crew moving 11 idle 9 next 5",
            "member 0 taken 2 released 2",
            "member 1 taken 2 released 1",
            "counters 1 2 12 4 5 15 7 8",
            "head 2 4 5 70",
            "cell 2 1 3 0",
        ],
    );
    // 01's own run stays: seven pairs, and the counters are nothing to it
    for counters in ["counters", "counters 1 2 3 4 5 6 7 8"] {
        bench(
            &[crew[0], crew[1], counters, &turns("0 1", 7), "crew"],
            &[
                "crew moving 8 idle 6 next 5",
                "member 0 taken 2 released 2",
                "member 1 taken 2 released 2",
            ],
        );
    }
}

/// "a member spends one moving turn a cell, rising": after each turn, with what it added and released so far. It adds what
/// the lowest cell's counter had when it came to hold all, 10, also behind its own first add.
#[test]
fn turn_by_turn() {
    let counters = |counters: [u32; 3]| {
        let [one, three, six] = counters;
        format!("counters 7 {one} 7 {three} 7 7 {six} 7")
    };
    let start = [10, 20, 30];
    for (count, taken, released, after) in [
        (0, 0, 0, start),
        (1, 1, 0, start),
        (2, 2, 0, start),
        (3, 3, 0, start),
        (4, 3, 0, [20, 20, 30]),
        (5, 3, 0, [20, 30, 30]),
        (6, 3, 0, [20, 30, 40]),
        (7, 3, 1, [20, 30, 40]),
        (8, 3, 2, [20, 30, 40]),
        (9, 3, 3, [20, 30, 40]),
        (10, 3, 3, [20, 30, 40]),
        (11, 3, 3, [20, 30, 40]),
    ] {
        let moving = count.min(9);
        let idle = count - moving;
        bench(
            &[
                "member 1 3 6",
                &counters(start),
                &turns("0", count),
                "crew_at_work",
            ],
            &[
                &format!("crew moving {moving} idle {idle} next {}", taken + 1),
                &format!("member 0 taken {taken} released {released}"),
                &counters(after),
            ],
        );
    }
}

/// While it adds it holds all, and releases the last first.
#[test]
fn it_holds_while_it_adds() {
    bench(
        &[
            "member 1 3",
            "counters 0 1 0 1 0 0 0 0",
            &turns("0", 4),
            "crew_at_work",
            "show",
            "prepare 2 4 1 70",
            &turns("0", 5),
            "crew_at_work",
            "show",
        ],
        &[
            "crew moving 4 idle 0 next 3",
            "member 0 taken 2 released 0",
            "counters 0 2 0 2 0 0 0 0",
            "head 2 4 3 70",
            "cell 1 1 1 0",
            "cell 3 1 2 0",
            PREPARED,
            "crew moving 5 idle 0 next 3",
            "member 0 taken 2 released 1",
            "counters 0 4 0 4 0 0 0 0",
            "head 2 4 3 70",
            "cell 1 1 1 0",
        ],
    );
}

/// "sums wrap at 65,536": 65,535 + 65,535 is 65,534, 40,000 + 40,000 is 14,464, and 1 + 65,535 is 0. A member with one
/// cell doubles its counter.
#[test]
fn sums_wrap() {
    for (counter, sum) in [
        (65_535, 65_534),
        (40_000, 14_464),
        (32_768, 0),
        (32_767, 65_534),
        (0, 0),
    ] {
        bench(
            &[
                "member 0",
                &format!("counters {counter} 1 1 1 1 1 1 1"),
                &turns("0", 3),
                "crew_at_work",
            ],
            &[
                "crew moving 3 idle 0 next 2",
                "member 0 taken 1 released 1",
                &format!("counters {sum} 1 1 1 1 1 1 1"),
            ],
        );
    }
    bench(
        &[
            "member 0 7",
            "counters 65535 0 0 0 0 0 0 1",
            &turns("0", 6),
            "crew_at_work",
        ],
        &[
            "crew moving 6 idle 0 next 3",
            "member 0 taken 2 released 2",
            "counters 65534 0 0 0 0 0 0 0",
        ],
    );
}

/// "Members with no cells change nothing", and idle.
#[test]
fn members_without_cells() {
    bench(
        &[
            "member",
            "member 0",
            "counters 5 5 5 5 5 5 5 5",
            &turns("0 1", 3),
            "crew_at_work",
        ],
        &[
            "crew moving 3 idle 3 next 2",
            "member 0 taken 0 released 0",
            "member 1 taken 1 released 1",
            "counters 10 5 5 5 5 5 5 5",
        ],
    );
}

/// A cell that cannot be taken: its member adds nothing, not even to the cells that it holds.
#[test]
fn who_does_not_hold_all_adds_nothing() {
    for spoilt in [
        "word 17 1",
        "word 15 2",
        "byte 1 1",
        "head 2 4 4294967294 70",
    ] {
        let next = if spoilt.starts_with("head") {
            4_294_967_295_u32
        } else {
            2
        };
        bench(
            &[
                spoilt,
                "member 2 5",
                "counters 1 1 1 1 1 1 1 1",
                &turns("0", 9),
                "crew_at_work",
            ],
            &[
                &format!("crew moving 1 idle 8 next {next}"),
                "member 0 taken 1 released 0",
                "counters 1 1 1 1 1 1 1 1",
            ],
        );
    }
}

/// "in the order in which they came to hold all": member 1 holds all first, though member 0 had the first turn. It doubles
/// cell 3 from 2 to 4, and member 0 then adds 1 to both of its cells.
#[test]
fn the_order_of_holding_all() {
    bench(
        &[
            "member 0 3",
            "member 3",
            "counters 1 0 0 2 0 0 0 0",
            "turns 0 1 0 1 0 1 0 0 0 0 0",
            "crew_at_work",
        ],
        &[
            "crew moving 9 idle 2 next 4",
            "member 0 taken 2 released 2",
            "member 1 taken 1 released 1",
            "counters 2 0 0 5 0 0 0 0",
        ],
    );
}

/// "not one a cell: BadShape", before 15. Refusals leave the counters, and the head.
#[test]
fn refusals() {
    let eight = "counters 1 2 3 4 5 6 7 8";
    let refused = |line: &str| format!("refused {line} next 1");
    for counters in [
        "counters",
        "counters 1",
        "counters 1 2",
        "counters 1 2 3 4 5 6 7",
        "counters 1 2 3 4 5 6 7 8 9",
        "counters 0 0 0 0 0 0 0 0 0 0 0 0 0 0 0 0 0 0 0 0 0 0 0 0",
    ] {
        // no members too: 1 comes first
        for member in ["member 2 5", "crewless", "member 5 2"] {
            bench(
                &[counters, member, "turns 0", "crew_at_work", "show"],
                &[&refused("1 BadShape 0"), counters, "head 2 4 1 70"],
            );
        }
    }
    for (line, expected) in [
        ("crewless", "15 BadCrew 0"),
        ("member 2 5\nmember 5 2", "15 BadCrew 1"),
        ("member 8", "15 BadCrew 0"),
        ("member 2\nturns 0 0 1", "15 BadCrew 2"),
        ("member 2\nlend 23 2", "1 BadShape 0"),
        ("member 2\nlend 24 3", "1 BadShape 0"),
    ] {
        bench(
            &[eight, "turns 0", line, "crew_at_work"],
            &[&refused(expected), eight],
        );
    }
    bench(
        &[
            eight,
            "member 2",
            "turns 0",
            "head 2 4 0 70",
            "crew_at_work",
        ],
        &["refused 1 BadShape 0 next 0", eight],
    );
}

/// The call and `counters` in the console.
#[test]
fn the_console() {
    for line in [
        "counters 65536",
        "counters 1 65536 1",
        "counters 4294967295",
        "counters 1 x",
        "counters 1 ",
        "crew_at_work 1",
        "crew_at_works",
    ] {
        bench(
            &["counters 6 5", line, "crew_at_work"],
            &[
                "line 3: not understood",
                "refused 1 BadShape 0 next 1",
                "counters 6 5",
            ],
        );
    }
    let zeros = " 0".repeat(4_200);
    bench(
        &[&format!("counters{zeros}"), "crew_at_work"],
        &["refused 1 BadShape 0 next 1", &format!("counters{zeros}")],
    );
    bench(
        &[&format!("counters{zeros} 0"), "crew_at_work"],
        &[
            "line 2: not understood",
            "refused 1 BadShape 0 next 1",
            "counters",
        ],
    );
    // the trace stands behind the other lines
    bench(
        &[
            "counters 1 2 3 4 5 6 7 8",
            "member 2 5",
            "turns 0 0 0 0 0",
            "trace 1",
            "crew_at_work",
        ],
        &[
            "crew moving 5 idle 0 next 3",
            "member 0 taken 2 released 1",
            "counters 1 2 6 4 5 9 7 8",
            "step 1 2 0",
        ],
    );
}

// ---- Many crews

/// A crew in a fresh arena, and a run of it.
struct Crew {
    members: Vec<Vec<u32>>,
    cells: u32,
    counters: Vec<u16>,
}

impl Crew {
    fn random(dice: &mut Dice) -> Crew {
        let cells = dice.number(10) + 1;
        let members = (0..dice.below(5) + 1)
            .map(|_| (0..cells).filter(|_| dice.once_in(2)).collect())
            .collect();
        let counters = (0..cells).map(|_| dice.roll() as u16).collect();
        Crew {
            members,
            cells,
            counters,
        }
    }

    /// The run, and the counters behind it.
    fn run(&self, turns: &[u32]) -> (CrewReply, Vec<u16>) {
        let head = Head {
            headers: 1,
            buckets: self.cells,
            next: 1,
            boot: 70,
        };
        let mut table = vec![0; 3 * self.cells as usize];
        let counts: Vec<u32> = self.members.iter().map(|list| list.len() as u32).collect();
        let mut counters = self.counters.clone();
        let reply = rules::crew_at_work(
            head,
            &mut table,
            &[0],
            &counts,
            &self.members.concat(),
            turns,
            &mut counters,
        );
        (reply, counters)
    }

    /// Cells that a member has taken behind these turns.
    fn taken(&self, turns: &[u32], member: usize) -> usize {
        let (reply, _) = self.run(turns);
        reply.answer.expect("a good crew").taken[member] as usize
    }

    /// The members with cells, in the order in which they came to hold all.
    fn order(&self, turns: &[u32]) -> Vec<usize> {
        let when = |member: usize| {
            let all = self.members[member].len();
            (0..=turns.len()).find(|&count| self.taken(&turns[..count], member) == all)
        };
        let mut order: Vec<usize> = (0..self.members.len())
            .filter(|&member| !self.members[member].is_empty())
            .collect();
        order.sort_by_key(|&member| when(member).expect("it came to hold all"));
        order
    }

    /// The counters of running whole members one after another.
    fn one_after_another(&self, order: &[usize]) -> Vec<u16> {
        let mut counters: Vec<u32> = self.counters.iter().map(|&c| u32::from(c)).collect();
        for &member in order {
            let list = &self.members[member];
            let value = counters[list[0] as usize];
            for &cell in list {
                counters[cell as usize] = (counters[cell as usize] + value) % 65_536;
            }
        }
        counters.iter().map(|&c| c as u16).collect()
    }
}

/// "once all members have finished, the counters equal those of running whole members one after another, in the order in
/// which they came to hold all, whatever the turns", and "3K rounds": that many are enough to finish, K serials are spent,
/// and 3K turns move.
#[test]
fn one_after_another() {
    let mut dice = Dice(13);
    for _ in 0..150 {
        let crew = Crew::random(&mut dice);
        let members = crew.members.len();
        let k = crew.members.concat().len();
        let mut turns: Vec<u32> = Vec::new();
        for _ in 0..3 * k {
            // a round names each member at least once, in any order, and some again
            let mut round: Vec<u32> = (0..members as u32).collect();
            round.extend((0..dice.below(3)).map(|_| dice.number(members as u32)));
            for at in (1..round.len()).rev() {
                round.swap(at, dice.below(at + 1));
            }
            turns.extend(round);
        }
        let (reply, counters) = crew.run(&turns);
        let run = reply.answer.expect("a good crew");
        for (member, list) in crew.members.iter().enumerate() {
            assert_eq!(run.taken[member] as usize, list.len());
            assert_eq!(run.released[member] as usize, list.len());
        }
        assert_eq!(reply.head.next as usize, k + 1);
        assert_eq!(run.moving as usize, 3 * k);
        assert_eq!((run.moving + run.idle) as usize, turns.len());
        let order = crew.order(&turns);
        assert_eq!(counters, crew.one_after_another(&order));
    }
}

/// A refusal is one of document 01's, and gives no run.
#[test]
fn a_wrong_count() {
    let crew = Crew {
        members: vec![vec![0]],
        cells: 2,
        counters: vec![3],
    };
    let (reply, counters) = crew.run(&[0]);
    assert_eq!(reply.answer, Err(Refusal::BadShape));
    assert_eq!(counters, [3]);
}
