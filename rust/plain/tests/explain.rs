//! What `--explain` tells: a sentence for every refusal, every reason and every answer.

use console::answer::{NAMED, REFUSALS};
use console::desk::Desk;
use console::explain::Teller;
use console::help::grouped;
use console::histories;
use console::line::Line;
use plain::Plain;

/// All that is told of these lines, its line ends as spaces.
fn told(lines: &[&str]) -> Vec<String> {
    let mut teller = Teller::new();
    let mut all = Vec::new();
    for (at, line) in lines.iter().enumerate() {
        let mut out = Vec::new();
        teller
            .line(&mut Plain, at as u64 + 1, line.as_bytes(), &mut out)
            .expect("a vector takes every write");
        all.push(String::from_utf8(out).expect("text"));
    }
    all
}

/// What is told behind the last of these lines.
fn last(lines: &[&str]) -> String {
    let text = told(lines).pop().expect("a line");
    let behind = text.lines().skip_while(|line| !line.starts_with("  > "));
    let sentences: Vec<&str> = behind.skip(1).map(str::trim).collect();
    sentences.join(" ")
}

/// The same, in an arena of two headers with four buckets each, boot number 5.
fn last_in_an_arena(lines: &str) -> String {
    let mut all = vec!["prepare 2 4 1 5", "registry 0 1 1"];
    all.extend(lines.split('\n'));
    last(&all)
}

#[test]
fn refusals() {
    let long = format!("held{}", " 2 1 5".repeat(65));
    let leases = format!("try_acquire 2\nleases{}\nrelease_all", " 2 1 5".repeat(65));
    let script = format!("script{}\nenvironment", " 5 0 0".repeat(32_769));
    let registry = format!("registry{}\nacquire_index_bucket 0 0", " 0".repeat(65));
    let held_too_long = format!("try_acquire 2\n{long}\nenvironment");
    for (lines, said) in [
        ("head 0 0 0 0\ntry_acquire 2", "Refused by 1, BadShape: no arena is prepared, since the head in force is 0 0 0 0."),
        ("head 4294967295 4294967295 1 5\ntry_acquire 2", "Refused by 1, BadShape: a head has 1 to 64 headers, 1 to 1,024 buckets each, at most 4,096 cells, and a serial from 1 on."),
        ("prepare 2 4 0 5", "Refused by 1, BadShape: a head has 1 to 64 headers, 1 to 1,024 buckets each, at most 4,096 cells, and a serial from 1 on."),
        ("lend 23 2\ntry_acquire 2", "Refused by 1, BadShape: it was lent 23 table words, and 24 are needed."),
        ("lend 24 1\ntry_lock 2", "Refused by 1, BadShape: it was lent 1 health byte for 2 headers."),
        (&registry, "Refused by 1, BadShape: the registry has 65 entries, and 64 are the most."),
        ("member 1\ncounters 7\ncrew_at_work", "Refused by 1, BadShape: it was given 1 counter for 8 cells."),
        ("script 5 0\nenvironment", "Refused by 2, BadScript: the script has 2 numbers, which three does not divide."),
        (&script, "Refused by 2, BadScript: the script has 32,769 steps, and 32,768 are the most."),
        ("place 1\nenvironment", "Refused by 2, BadScript: the place is 1, and the script has no steps."),
        ("held 2 1\nenvironment", "Refused by 3, BadHeld: the held list has 2 numbers, which three does not divide."),
        (&held_too_long, "Refused by 3, BadHeld: the held list has 65 leases, and 64 are the most."),
        ("held 2 1 5\nenvironment", "Refused by 3, BadHeld: position 0 of the held list is not live, since cell 2 is not held by serial 1."),
        ("leases 2 1\nrelease_all", "Refused by 4, TooMany: the list of leases has 2 numbers, which three does not divide."),
        (&leases, "Refused by 4, TooMany: the list has 65 leases, and 64 are the most."),
        ("keys 0\nacquire_index_locks", "Refused by 4, TooMany: the list of keys has 1 number, which two does not divide."),
        ("keys 0 1\nacquire_index_locks", "Refused by 4, TooMany: the grant buffer has no words, and for 1 key it must have 3."),
        ("acquire_index_bucket 3 0", "Refused by 5, BadBinding: there is no binding 3, since the registry has 3 entries, counted from 0."),
        ("keys 0 1 7 1\ngrants 6\nacquire_index_locks", "Refused by 5, BadBinding: there is no binding 7 (key at position 1), since the registry has 3 entries, counted from 0."),
        ("registry 9\nacquire_index_bucket 0 0", "Refused by 6, BadHeader: the registry leads to header 9, and the arena has 2 headers."),
        ("byte 1 3\nacquire_index_bucket 1 0", "Refused by 7, Poisoned: header 1 is poisoned, and gives no cell."),
        ("byte 1 3\ntry_lock 4", "Refused by 7, Poisoned: header 1 is poisoned, and gives no cell. That was seen when the cell was taken: it is given up again, and its serial stays spent."),
        ("try_lock 8", "Refused by 8, InvalidBucket: there is no cell 8, since the arena has 8 cells, counted from 0."),
        ("acquire_index_bucket 0 4", "Refused by 8, InvalidBucket: there is no bucket 4, since a header has 4 buckets, counted from 0."),
        ("word 6 7\ntry_acquire 2", "Refused by 9, Damaged: the words of cell 2 are those of neither a free nor a held cell."),
        ("head 2 4 4294967295 5\ntry_acquire 2", "Refused by 10, SerialsSpent: cell 2 is free, but no serial is left to give."),
        ("try_acquire 2\nhead 2 4 4294967295 5\nrelease_then_handoff 2 1 5", "Refused by 10, SerialsSpent: cell 2 is free, but no serial is left to give. The release stands."),
        ("drop_lease 2 1 5", "Refused by 12, NotHeld: cell 2 is not held by serial 1."),
        ("try_acquire 2\nleases 2 1 5 3 1 5\nrelease_all", "Refused by 12, NotHeld: position 1 of the list is not live, since cell 3 is not held by serial 1; nothing is released."),
        ("book 256\nprepare_book\ntry_acquire 2\nwrite_setpoint 1 2 1 5 speed 3", "Refused by 12, NotHeld: slot 1 needs a live lease on cell 1, and cell 2 by serial 1 is none."),
        ("try_acquire 2\nheld 2 1 5\ndrop_preserving_borrows 2 1 5", "Refused by 13, Protected: cell 2 by serial 1 is in the held list, and so protected."),
        ("try_acquire 2\nleases 2 1 5 2 1 5\nrelease_all", "Refused by 14, Repeated: the lease at position 1 stands earlier in the list too; nothing is released."),
        ("try_acquire 2\ndrop_lease 2 1 4", "Refused by 16, StaleBoot: the lease has boot number 4, and the head has 5."),
        ("try_acquire 2\nleases 2 1 4\nrelease_all", "Refused by 16, StaleBoot: the lease at position 0 of the list has boot number 4, and the head has 5."),
        ("try_acquire 2\nheld 2 1 4\nenvironment", "Refused by 16, StaleBoot: the lease at position 0 of the held list has boot number 4, and the head has 5."),
        ("try_acquire 2\nheld 2 1 5\ndrop_preserving_borrows 2 1 6", "Refused by 16, StaleBoot: the lease has boot number 6, and the head has 5."),
        ("book 256\nprepare_book\nwrite_setpoint 1 2 1 6 speed 3", "Refused by 16, StaleBoot: the lease has boot number 6, and the head has 5."),
    ] {
        assert_eq!(last_in_an_arena(lines), said);
    }
}

#[test]
fn refusals_of_a_crew() {
    let many = "member 1\n".repeat(17) + "crew";
    let wide = format!("member{}\ncrew", " 1".repeat(65));
    let turns = format!("member 1\nturns{}\ncrew", " 0".repeat(65_537));
    let all = format!("{}\ncrew", format!("member{}\n", " 1".repeat(64)).repeat(5));
    for (lines, said) in [
        ("crew", "Refused by 15, BadCrew: a crew has 1 to 16 members, and here are 0."),
        (&many, "Refused by 15, BadCrew: a crew has 1 to 16 members, and here are 17."),
        (&wide, "Refused by 15, BadCrew: member 0 wants 65 cells, and 64 are the most."),
        (&all.replace("\n\n", "\n"), "Refused by 15, BadCrew: the members want 320 cells together, and 256 are the most."),
        (&turns, "Refused by 15, BadCrew: there are 65,537 turns, and 65,536 are the most."),
        ("member 1\nmember 5 2\ncrew", "Refused by 15, BadCrew: the cells of member 1 do not rise, or one of them is not in the arena."),
        ("member 1\nmember 8\nturns 9\ncrew_at_work\ncounters 1 2 3 4 5 6 7 8\ncrew_at_work", "Refused by 15, BadCrew: the cells of member 1 do not rise, or one of them is not in the arena."),
        ("member 1\nturns 0 3\ncrew", "Refused by 15, BadCrew: turn 1 names member 3, and the crew has 1 member, counted from 0."),
    ] {
        assert_eq!(last_in_an_arena(lines), said);
    }
}

#[test]
fn reasons() {
    let held = "try_acquire 2\n";
    let late = "script 5 0 0 5 0 0 3 2 1\n";
    for (lines, said) in [
        (format!("{held}try_lock 2"), "Cell 2 is Busy: serial 1 holds it."),
        (format!("{held}transactional_try_lock_bucket 0 2"), "Key 0 2, cell 2, is Busy: serial 1 holds it."),
        (format!("{held}competing_acquire_is_excluded 2 1 5"), "Cell 2 is Busy: serial 1 holds it."),
        ("word 8 1\ntry_lock 2".to_string(), "Cell 2 is Busy: somebody waits for it."),
        (format!("{late}try_lock 2"), "Meanwhile the waiters of cell 2 were set to 1. Cell 2 is Busy: it was taken, and then somebody waited for it. It is given up again, and serial 1 stays spent."),
        (format!("{held}acquire_index_bucket 0 2"), "Refused by 11, SerializationFailure: all 4,096 attempts were Busy, the last because serial 1 holds the cell."),
        ("word 8 1\nacquire_index_bucket 0 2".to_string(), "Refused by 11, SerializationFailure: all 4,096 attempts were Busy, the last because somebody waits for the cell."),
        (format!("{held}keys 1 0 0 2\ngrants 6\nacquire_index_locks"), "Refused at key 0 2, position 1, by 11, SerializationFailure: all 4,096 attempts were Busy, the last because serial 1 holds the cell. No key is granted."),
    ] {
        assert_eq!(last_in_an_arena(&lines), said);
    }
    // a waiter who comes behind every take: 4,096 serials, each spent
    let step = " 3 2 0 5 0 0 5 0 0 3 2 1 5 0 0";
    let pause = " 5 0 0";
    let mut script = "script".to_string();
    for attempt in 0..4096 {
        script.push_str(step);
        script.push_str(if attempt % 64 == 63 {
            " 5 0 0 5 0 0"
        } else {
            pause
        });
    }
    let said = last_in_an_arena(&format!("{script}\nacquire_index_bucket 0 2"));
    assert!(
        said.ends_with("the last because somebody waited for the cell when it had been taken; serial 4,096 stays spent."),
        "{said}"
    );
}

#[test]
fn named_refusals() {
    let book = "book 276\nprepare_book\ntry_acquire 1\n";
    // slot 1 has its four lines from byte 32 on, the version in the last four bytes of each
    let mut spent = "write_setpoint 1 1 1 5 speed 3\n".repeat(4);
    for line in 0..4 {
        for (at, byte) in [255 - line, 255, 255, 255].into_iter().enumerate() {
            spent.push_str(&format!("book_byte {} {byte}\n", 36 + 8 * line + at));
        }
    }
    for (lines, said) in [
        ("prepare_book".to_string(), "Refused as BadSlot: the book has no bytes, and the contents of 8 slots need 256."),
        ("book 32769\nprepare_book".to_string(), "Refused as BadSlot: the book has 32,769 bytes, and 32,768 are the most."),
        (format!("{book}read_setpoint 8"), "Refused as BadSlot: there is no slot 8, since the book has 8 slots, counted from 0."),
        (format!("{book}write_setpoint 1 1 1 5 pressure 2143289344"), "Refused as NotFinite: the pressure is not finite, and is not written."),
        (format!("{book}book_byte 8 1\nread_setpoint 1"), "Refused as DamagedBook: a line or a kept body of some slot fits no rule, or two bodies overlap; until the book is prepared again, nothing in it can be trusted."),
        (format!("{book}{spent}write_setpoint 1 1 1 5 speed 4"), "Refused as VersionsSpent: slot 1 is at version 4,294,967,295, the last."),
        (format!("{book}read_setpoint 1"), "Refused as NeverWritten: nothing was ever written to slot 1, whose version is 0."),
        (format!("{book}read_version 1 0"), "Refused as NeverWritten: slot 1 keeps no version 0; it keeps its newest four."),
        (format!("{book}read_version 1 4294967295"), "Refused as NeverWritten: slot 1 keeps no version 4,294,967,295; it keeps its newest four."),
        (format!("{book}book 260\nwrite_setpoint 1 1 1 5 speed 4"), "Refused as BookFull: the kept settings leave fewer than 5 bytes; nothing is written, and none is dropped."),
        ("word 3 1\nsalvage".to_string(), "Refused as ReportFull: a report with room for no changes and a list with room for no cells cannot hold all entries; nothing is changed."),
    ] {
        assert_eq!(last_in_an_arena(&lines), said);
    }
}

#[test]
fn answers() {
    let book = "book 276\nprepare_book\ntry_acquire 1\nwrite_setpoint 1 1 1 5 ";
    for (lines, said) in [
        ("prepare 3 4 1 41".to_string(), "The arena is prepared: 3 headers of 4 buckets, 12 cells, all free; the next serial is 1, the boot number 41."),
        ("acquire_index_bucket 1 2".to_string(), "Key 1 2 is granted: cell 6, serial 1."),
        ("try_lock 2".to_string(), "Cell 2 is granted: serial 1."),
        ("try_acquire 2\nread_permission 2 1 5".to_string(), "The lease stands: cell 2 is held by serial 1."),
        ("try_acquire 2\ndrop_lease 2 1 5".to_string(), "Serial 1 gives cell 2 back: it is free."),
        ("try_acquire 2\nrelease_then_handoff 2 1 5".to_string(), "Cell 2 changes hands: serial 1 is released, serial 2 is granted."),
        ("try_acquire 2\ntry_acquire 3\nleases 2 1 5 3 2 5\nrelease_all".to_string(), "2 leases are given back, the last first."),
        ("acquire_index_locks".to_string(), "Granted: there is no key, and nothing to take."),
        ("keys 1 0 0 2 2 0\ngrants 9\nacquire_sorted_locks".to_string(), "3 keys are granted: key 1 0 is cell 4, serial 2; key 0 2 is cell 2, serial 1; key 2 0 is cell 4, serial 2."),
        ("environment".to_string(), "One boundary: nobody does anything."),
        ("script 1 3 0 4 1 1 5 0 0\nenvironment".to_string(), "One boundary: somebody took cell 3, then header 1 was poisoned."),
        ("script 1 3 0 1 3 0\nenvironment".to_string(), "One boundary: others tried 2 steps; 1 of them was not legal, and dropped."),
        ("script 6 0 0\nenvironment".to_string(), "One boundary: others tried 1 step, which was not legal and was dropped."),
        ("try_acquire 2\nscript 5 0 0 5 0 0 2 2 1 5 0 0\nacquire_index_bucket 0 2".to_string(), "Meanwhile serial 1 gave cell 2 back. Key 0 2 is granted: cell 2, serial 2. It took 2 attempts and 6 boundaries."),
        ("trace 1\ntry_lock 2".to_string(), "Cell 2 is granted: serial 1. Bits: that of cell 2 is now 1."),
        ("trace 1\ndrop_lease 2 1 5".to_string(), "Refused by 12, NotHeld: cell 2 is not held by serial 1. No bit changed."),
        ("member 1 4\nmember\nturns 0 1 0\ncrew".to_string(), "The crew had 3 turns: 2 moving, 1 idle. Member 0 took all its 2 cells. Member 1 wants no cells."),
        ("member 1\nturns 0 0 0\ncounters 0 3 0 0 0 0 0 0\ncrew_at_work".to_string(), "The crew had 3 turns: 3 moving, 0 idle. Member 0 held its cell, and is finished. The counters are now 0, 6, 0, 0, 0, 0, 0, 0."),
        ("report 9\nunconfirmed 2\ntry_acquire 0\nword 3 1\nbyte 1 77\nsalvage".to_string(), "Salvaged, with 2 changes: the bit of cell 1 from 1 to 0, the health of header 1 from 77 to 1. Cell 0 is left held, for its owner to confirm or to drop."),
        ("salvage".to_string(), "Salvaged: nothing had to be changed. No cell is left held."),
        (format!("{book}pressure 1069547520"), "Slot 1 is set to 1.5 bar, version 1."),
        (format!("{book}pressure 1\nread_setpoint 1"), "Slot 1 says 1e-45 bar, version 1."),
        (format!("{book}valve 0\nread_setpoint 1"), "Slot 1 says valve shut, version 1."),
        (format!("{book}valve 0\nread_version 1 1"), "Slot 1 says valve shut, version 1."),
        (format!("{book}speed 1{}", "\nwrite_setpoint 1 1 1 5 speed 3".repeat(4)), "Slot 1 is set to speed 3, version 5. To make room, 15 bytes of kept settings slid to the front."),
        ("map".to_string(), "header 0 healthy .... header 1 healthy ...."),
        ("help 1".to_string(), "Line 3 is not understood: help stands alone."),
    ] {
        assert_eq!(last_in_an_arena(&lines), said);
    }
}

/// The story: remarks, what is typed, and an empty line between the two; echo is not shown.
#[test]
fn story() {
    let text = told(&[
        "echo 1",
        "# A day.",
        "#  It begins.",
        "",
        "",
        "prepare 1 1 1 5",
        "# Done.",
    ])
    .concat();
    let wanted = "A day.\n It begins.\n\n  > prepare 1 1 1 5\n    The arena is prepared: 1 header of 1 bucket, 1 cell, \
                  all free; the next serial is 1, the boot number 5.\n\nDone.\n";
    assert_eq!(text, wanted);
    let long = told(&[&format!("turns{}", " 7".repeat(500))]).concat();
    assert!(
        long.contains(".. (501 words)\n    The crew has 500 turns to come."),
        "{long}"
    );
}

/// The page's own example.
#[test]
fn page() {
    let page = include_str!("../../../docs/CONSOLE.md");
    let block = |fence: &str| {
        let from = page.find(fence).expect("a block") + fence.len();
        page[from..].split("```").next().expect("its end")
    };
    let lines: Vec<&str> = block("```explain-in\n").lines().collect();
    assert_eq!(told(&lines).concat(), block("```explain-out\n"));
}

/// Random histories: each answer is told by its kind, its numbers and its refusal, as the language prints them.
#[test]
fn true_to_the_language() {
    let (mut calls, mut counts) = (0, 0);
    for seed in 1..=12 {
        let mut text = Vec::new();
        histories::write(seed, 1_500, Plain, &mut text).expect("a history");
        let (mut desk, mut teller) = (Desk::new(), Teller::new());
        for (at, line) in text.split(|&byte| byte == b'\n').enumerate() {
            let (mut printed, mut told) = (Vec::new(), Vec::new());
            // nothing is left of the script, so that nobody can disturb the call
            let quiet = 3 * desk.place >= desk.script.len();
            let played = desk.line(&mut Plain, line, &mut printed).expect("a vector");
            let again = teller
                .line(&mut Plain, at as u64 + 1, line, &mut told)
                .expect("a vector");
            assert_eq!(played, again);
            if matches!(played, Line::Call(_)) {
                calls += 1;
                let told = String::from_utf8_lossy(&told).replace("\n    ", " ");
                is_told(&String::from_utf8_lossy(&printed), &told);
                assert!(!quiet || !told.contains("It took"), "{told}");
                counts += usize::from(told.contains("It took"));
            }
        }
    }
    assert!(
        calls > 10_000 && counts > 100,
        "{calls} calls, {counts} counts"
    );
}

fn is_told(printed: &str, told: &str) {
    let words: Vec<&str> = printed.split_whitespace().collect();
    let grouped = |word: &str| grouped(word.parse::<u64>().expect("a number"));
    let wanted = match words.as_slice() {
        ["refused", name, ..] if NAMED.contains(name) => format!(" Refused as {name}: "),
        ["refused", number, name, ..] => {
            assert!(REFUSALS.contains(name));
            format!("by {number}, {name}: ")
        }
        ["busy", "held", serial, ..] => format!("is Busy: serial {} holds it.", grouped(serial)),
        ["busy", "before", ..] => "is Busy: somebody waits for it.".to_string(),
        ["busy", "after", serial, ..] => format!("serial {} stays spent.", grouped(serial)),
        ["granted", "next", ..] => "ranted: ".to_string(),
        ["granted", cell, serial, ..] => {
            assert!(
                told.to_lowercase()
                    .contains(&format!("cell {}", grouped(cell))),
                "{told}"
            );
            format!("serial {}", grouped(serial))
        }
        ["cell", cell, ..] => format!("The lease stands: cell {} is held", grouped(cell)),
        ["setpoint", _, _, "version", version, ..] => format!(", version {}.", grouped(version)),
        ["done", "version", version, "moved", moved, ..] => {
            let slid = format!("{} bytes of kept settings slid", grouped(moved));
            assert_eq!(told.contains(&slid), *moved != "0", "{told}");
            format!(", version {}.", grouped(version))
        }
        ["crew", "moving", moving, "idle", idle, ..] => format!(": {moving} moving, {idle} idle."),
        _ => " ".to_string(),
    };
    assert!(told.contains(&wanted), "{printed}{told}");
    // counts are told as they are printed
    let count = |name: &str| {
        words
            .iter()
            .position(|word| *word == name)
            .map(|at| grouped(words[at + 1]))
    };
    if let (true, Some(attempts)) = (told.contains("It took"), count("attempts")) {
        assert!(
            told.contains(&format!("It took {attempts} attempt")),
            "{told}"
        );
    }
}
