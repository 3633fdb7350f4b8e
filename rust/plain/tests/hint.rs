//! The hints: every line that is not understood has one, and no other line has.

use console::desk::Desk;
use console::help::{entry_of, help, words, LANGUAGE};
use console::hint::{fault, note};
use console::histories;
use console::line::{Line, LINE};
use plain::Plain;

fn hint(line: &str) -> String {
    fault(&Desk::new(), line.as_bytes()).expect("not understood")
}

/// Plays the lines, and gives what a person is told besides, of the last.
fn told(lines: &[&str]) -> Option<String> {
    let mut desk = Desk::new();
    let mut last = None;
    for line in lines {
        let played = desk.play(&mut Plain, line.as_bytes());
        last = note(&desk, line.as_bytes(), &played);
    }
    last
}

/// Random histories have many lines that are not understood, of every sort.
#[test]
fn a_hint_exactly_if_not_understood() {
    let (mut lines, mut hints) = (0, 0);
    for seed in 1..=20 {
        let mut text = Vec::new();
        histories::write(seed, 2_000, Plain, &mut text).expect("a history");
        let mut desk = Desk::new();
        for line in text.split(|&byte| byte == b'\n') {
            let why = fault(&desk, line);
            let played = desk.play(&mut Plain, line);
            let shown = String::from_utf8_lossy(&line[..line.len().min(200)]).into_owned();
            assert_eq!(why.is_some(), played == Line::NotUnderstood, "{shown}");
            lines += 1;
            hints += usize::from(why.is_some());
        }
    }
    assert!(
        lines > 60_000 && hints > 800,
        "{lines} lines, {hints} hints"
    );
}

#[test]
fn what_a_word_wants() {
    for (line, said) in [
        ("drop_lease 2 1", "drop_lease wants 3 numbers: cell, serial, boot number"),
        ("try_acquire", "try_acquire wants 1 number: cell"),
        ("lend 24", "lend wants 2 numbers: table words, health bytes, or none"),
        ("show 1", "show stands alone"),
        ("help try_lock", "help stands alone"),
        ("word 12600 0", "12600 is too large: index of a table word, at most 12,599"),
        ("lend 12601 2", "12601 is too large: table words, at most 12,600"),
        ("byte 0 256", "256 is too large: value, at most 255"),
        ("echo 2", "2 is neither 0 nor 1"),
        ("try_acquire 02", "02 is no number: it begins with 0"),
        ("try_acquire 4294967296", "4294967296 is too large: a number is at most 4,294,967,295"),
        ("try_acquire two", "two is no number"),
        ("try_acquire  2", "words stand one space apart, with none before the first or behind the last"),
        ("try_acquire 2 ", "words stand one space apart, with none before the first or behind the last"),
        ("try_acquire\t2", "a tab is no space"),
        ("show\r", "it ends with a carriage return, which is no space"),
        ("counters 7 65536", "65536 is too large: counter, at most 65,535"),
        ("write_setpoint 1 1 1 5 fog 1", "fog is no kind of setpoint: pressure, speed, valve"),
        ("write_setpoint 1 1 1 5 valve 2", "a valve is 0, shut, or 1, open"),
        ("write_setpoint 1 1 1 5 speed -1", "-1 is no number"),
        (
            "write_setpoint 1 speed 3",
            "write_setpoint wants a slot, a lease (cell, serial, boot number), a kind (pressure, speed or valve) and a value",
        ),
        ("quit", "quit is a word of the terminal alone"),
    ] {
        assert_eq!(hint(line), said, "{line}");
    }
}

#[test]
fn the_nearest_word() {
    for (typed, meant) in [
        ("sohw", "show"),
        ("Show", "show"),
        ("drop_laese 1 2 3", "drop_lease"),
        ("try_aquire 2", "try_acquire"),
        ("maps", "map"),
        ("acquire_index_lock", "acquire_index_locks"),
    ] {
        let word = typed.split(' ').next().unwrap_or_default();
        let said = format!("there is no word {word}; the nearest is {meant}");
        assert_eq!(hint(typed), said);
    }
    assert_eq!(
        hint("acquire 2"),
        "there is no word acquire; so begin acquire_preserving_borrows, acquire_index_bucket, \
         acquire_index_locks, acquire_sorted_locks"
    );
    assert_eq!(
        hint(&"x".repeat(70)),
        format!(
            "there is no word {}..; \"help\" lists the words",
            "x".repeat(60)
        )
    );
    assert_eq!(
        hint("fog"),
        "there is no word fog; \"help\" lists the words"
    );
    assert_eq!(
        hint("\u{1b}[2J"),
        "there is no word \\u{1b}[2J; \"help\" lists the words"
    );
}

#[test]
fn rooms() {
    assert_eq!(
        hint(&format!("registry{}", " 0".repeat(81))),
        "registry takes at most 80 numbers, and here are 81"
    );
    assert_eq!(
        hint(&"#".repeat(LINE + 1)),
        "a line has at most 1,310,720 bytes"
    );
    let mut desk = Desk::new();
    for _ in 0..20 {
        assert_eq!(fault(&desk, b"member 1"), None);
        desk.play(&mut Plain, b"member 1");
    }
    let said = "there are 20 members already, and there is room for no more";
    assert_eq!(fault(&desk, b"member 1").as_deref(), Some(said));
}

#[test]
fn notes() {
    let prepared_first = told(&["try_acquire 2"]).expect("a note");
    assert!(prepared_first.contains("no arena is prepared yet"));
    for call in ["crew", "salvage", "prepare_book", "acquire_index_locks"] {
        assert_eq!(told(&[call]).as_ref(), Some(&prepared_first), "{call}");
    }
    assert_eq!(told(&["prepare 0 0 0 0"]), None);
    assert_eq!(told(&["prepare 2 4 1 5", "lend 5 5", "try_lock 1"]), None);
    let written = [
        "prepare 1 2 1 5",
        "book 104",
        "prepare_book",
        "try_acquire 1",
        "write_setpoint 1 1 1 5 pressure 1069547520",
        "read_setpoint 1",
        "write_setpoint 1 1 1 5 speed 3000",
    ];
    let bar = Some("pressure 1069547520 is 1.5 bar".to_string());
    assert_eq!(told(&written[..5]), bar);
    assert_eq!(told(&written[..6]), bar);
    assert_eq!(told(&written), None);
}

/// One table: help names every word, and `skid_words` too.
#[test]
fn every_word() {
    let (text, listed) = (help(), words());
    for entry in LANGUAGE {
        let begins = |line: &str| line.starts_with(entry.word);
        assert!(text.lines().any(begins), "{}", entry.word);
        assert!(
            listed.lines().any(|word| word == entry.word),
            "{}",
            entry.word
        );
        assert_eq!(
            entry_of(entry.word.as_bytes()).map(|e| e.word),
            Some(entry.word)
        );
    }
}
