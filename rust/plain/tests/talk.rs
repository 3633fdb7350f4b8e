//! The section "Talking to it" of the console's page: lines as they come, echo, map, help, and what goes to standard
//! error.

use console::line::LINE;
use console::play::{play as play_lines, End, Lost};
use plain::Plain;
use std::cell::RefCell;
use std::io::{self, BufReader, ErrorKind, Read, Write};
use std::rc::Rc;

const COUNTS: &str = "attempts 0 boundaries 0 yields 0 dropped 0";

fn play(input: &[u8]) -> (String, End) {
    let mut out = Vec::new();
    let end = play_lines(&mut Plain, &mut &input[..], &mut out);
    (String::from_utf8_lossy(&out).into_owned(), end)
}

fn printed(input: &str) -> String {
    play(input.as_bytes()).0
}

/// That byte so many times.
fn bytes(count: usize, byte: u8) -> Vec<u8> {
    vec![byte; count]
}

// ---- Echo

#[test]
fn echo_counts_from_the_line_behind_it() {
    assert_eq!(
        printed("place 1\necho 1\nshow\n\n# a remark\necho 1\nplace 2\necho 0\nshow\necho 0\n"),
        "> show\nhead 0 0 0 0\n> echo 1\n> place 2\n> echo 0\nhead 0 0 0 0\n"
    );
}

#[test]
fn echo_stands_in_front_of_what_the_line_prints() {
    assert_eq!(
        printed("echo 1\nprepare 1 1 1 70\nfoo\nmember 1  2\ntry_acquire 0"),
        format!(
            "> prepare 1 1 1 70\ndone next 1 place 0 {COUNTS}\n> foo\nline 3: not understood\n\
             > member 1  2\nline 4: not understood\n\
             > try_acquire 0\ngranted 0 1 70 next 2 place 0 attempts 1 boundaries 0 yields 0 dropped 0\n"
        )
    );
}

#[test]
fn echo_gives_bytes_as_they_came() {
    let mut out = Vec::new();
    play_lines(&mut Plain, &mut &b"echo 1\n\xff\t\0\r\n #\n"[..], &mut out);
    assert_eq!(
        out,
        b"> \xff\t\0\r\nline 2: not understood\n>  #\nline 3: not understood\n"
    );
}

#[test]
fn echo_takes_0_or_1() {
    for line in [
        "echo", "echo 2", "echo 01", "echo 1 1", "echo 1 ", "echo on", "Echo 1",
    ] {
        assert_eq!(
            printed(&format!("{line}\nplace 0\n")),
            "line 1: not understood\n"
        );
        assert_eq!(
            printed(&format!("echo 1\n{line}\nplace 0\n")),
            format!("> {line}\nline 2: not understood\n> place 0\n")
        );
    }
}

// ---- Map

#[test]
fn no_arena() {
    // at first the head is 0 0 0
    assert_eq!(printed("map"), "no arena\n");
    for head in [
        "0 4 1",
        "65 1 1",
        "2 0 1",
        "1 1025 1",
        "64 65 1",
        "5 820 1",
        "2 4 0",
        "4294967295 4294967295 1",
        "65536 65536 1",
    ] {
        assert_eq!(
            printed(&format!("head {head} 70\nmap")),
            "no arena\n",
            "{head}"
        );
        let lent = format!("head {head} 70\nlend 24 2\nmap");
        assert_eq!(printed(&lent), "no arena\n", "{head}");
    }
    for lent in ["23 2", "25 2", "27 2", "24 1", "24 3", "0 0", "12600 70"] {
        let lines = format!("prepare 2 4 1 70\nlend {lent}\nmap");
        let expected = format!("done next 1 place 0 {COUNTS}\nno arena\n");
        assert_eq!(printed(&lines), expected, "{lent}");
    }
}

#[test]
fn a_line_for_each_header() {
    assert_eq!(
        printed("prepare 2 4 1 70\nmap\nlend 24 2\nbyte 1 200\nmap\nmap 0\n"),
        format!(
            "done next 1 place 0 {COUNTS}\nheader 0 healthy ....\nheader 1 healthy ....\n\
             header 0 healthy ....\nheader 1 poisoned ....\nline 6: not understood\n"
        )
    );
}

#[test]
fn a_character_for_each_cell() {
    // bit, owner and waiters of a cell under next 5
    for (cell, character) in [
        ([0, 0, 0], '.'),
        ([0, 0, 1], 'w'),
        ([0, 0, u32::MAX], 'w'),
        ([1, 1, 0], '#'),
        ([1, 4, 0], '#'),
        ([1, 4, 2], 'W'),
        ([1, 0, 0], '!'),
        ([1, 5, 0], '!'),
        ([1, 5, 3], '!'),
        ([0, 1, 0], '!'),
        ([0, 1, 1], '!'),
        ([2, 1, 0], '!'),
        ([2, 0, 7], '!'),
    ] {
        let [bit, owner, waiters] = cell;
        let lines = format!(
            "prepare 2 2 5 70\nword 6 {bit}\nword 7 {owner}\nword 8 {waiters}\nbyte 0 1\nmap"
        );
        let expected = format!(
            "done next 5 place 0 {COUNTS}\nheader 0 poisoned ..\nheader 1 healthy {character}.\n"
        );
        assert_eq!(printed(&lines), expected, "{cell:?}");
    }
}

#[test]
fn the_greatest_maps() {
    let map = printed("prepare 64 64 1 70\nmap");
    assert_eq!(map.lines().count(), 65);
    assert_eq!(
        map.lines().last(),
        Some(format!("header 63 healthy {}", ".".repeat(64)).as_str())
    );
    let map = printed("prepare 4 1024 1 70\nmap");
    assert_eq!(
        map.lines().last(),
        Some(format!("header 3 healthy {}", ".".repeat(1024)).as_str())
    );
}

// ---- Help

/// Each command and call is named at the beginning of a line.
#[test]
fn help_names_everything() {
    let help = printed("help");
    let named: Vec<&str> = help
        .lines()
        .filter_map(|line| line.split([' ', ':']).next())
        .collect();
    for word in "ram lend head word byte registry held keys leases turns script place grants member crewless \
                 show map echo help prepare try_acquire drop_lease read_permission competing_acquire_is_excluded \
                 release_then_handoff foreign_release_between_attempts acquire_preserving_borrows \
                 drop_preserving_borrows environment environment_for_borrows try_lock \
                 other_mutex_preserves_leases transactional_try_lock_bucket acquire_index_bucket release_all \
                 acquire_index_locks acquire_sorted_locks crew report unconfirmed salvage"
        .split_whitespace()
    {
        assert!(named.contains(&word), "{word}");
    }
    assert_eq!(printed("help 1"), "line 1: not understood\n");
}

// ---- Long lines and long input

#[test]
fn a_line_at_the_limit_and_one_over_it() {
    let at = bytes(LINE, b'#');
    let over = bytes(LINE + 1, b'#');
    let far_over = bytes(3 * LINE, b'#');
    assert_eq!(play(&at).0, "");
    assert_eq!(play(&over).0, "line 1: not understood\n");
    let lines = [&at, &over, &far_over, &at, &b"show"[..]].join(&b'\n');
    let (out, end) = play(&lines);
    assert_eq!(
        out,
        "line 2: not understood\nline 3: not understood\nhead 0 0 0 0\n"
    );
    assert_eq!(end.not_understood, 2);
}

#[test]
fn a_line_over_the_limit_is_not_echoed() {
    let at = bytes(LINE, b'x');
    let over = bytes(LINE + 1, b'x');
    let lines = [&b"echo 1"[..], &at, &over, b"echo 0"].join(&b'\n');
    let expected = [
        b"> ",
        &at[..],
        b"\nline 2: not understood\nline 3: not understood\n> echo 0\n",
    ]
    .concat();
    assert!(play(&lines).0.as_bytes() == expected);
}

/// A good command, made too long by spaces or by a number: only its length counts.
#[test]
fn only_the_length_counts() {
    let mut line = b"place 1\nplace 2".to_vec();
    line.extend(bytes(LINE, b' '));
    line.extend(b"\nenvironment\n");
    let counts = "next 0 place 1";
    assert_eq!(
        play(&line).0,
        format!("line 2: not understood\nrefused 1 BadShape 0 {counts} {COUNTS}\n")
    );
}

#[test]
fn no_longest_input() {
    let mut lines = bytes(3 * 1024 * 1024, b'\n');
    lines.extend(b"show\nfoo");
    assert_eq!(
        play(&lines).0,
        "head 0 0 0 0\nline 3145730: not understood\n"
    );
}

// ---- Lines as they come

/// What was written and what of it was flushed.
#[derive(Clone, Default)]
struct Screen {
    shown: Rc<RefCell<Vec<u8>>>,
    waiting: Vec<u8>,
    /// Writes fail once so many bytes are shown.
    room: Option<usize>,
}

impl Write for Screen {
    fn write(&mut self, bytes: &[u8]) -> io::Result<usize> {
        self.waiting.extend_from_slice(bytes);
        Ok(bytes.len())
    }

    fn flush(&mut self) -> io::Result<()> {
        let mut shown = self.shown.borrow_mut();
        shown.append(&mut self.waiting);
        match self.room {
            Some(room) if shown.len() > room => Err(ErrorKind::StorageFull.into()),
            _ => Ok(()),
        }
    }
}

/// Hands out the pieces one by one, with what must be on the screen when each is asked for.
struct Typist {
    pieces: Vec<(&'static str, &'static str)>,
    at: usize,
    last: io::Result<()>,
    shown: Rc<RefCell<Vec<u8>>>,
}

impl Read for Typist {
    fn read(&mut self, room: &mut [u8]) -> io::Result<usize> {
        let Some((shown, piece)) = self.pieces.get(self.at) else {
            return match &self.last {
                Ok(()) => Ok(0),
                Err(error) => Err(error.kind().into()),
            };
        };
        assert_eq!(String::from_utf8_lossy(&self.shown.borrow()), *shown);
        self.at += 1;
        if *piece == "interrupted" {
            return Err(ErrorKind::Interrupted.into());
        }
        room[..piece.len()].copy_from_slice(piece.as_bytes());
        Ok(piece.len())
    }
}

fn talk(pieces: &[(&'static str, &'static str)], last: io::Result<()>) -> (String, End) {
    let mut screen = Screen::default();
    let typist = Typist {
        pieces: pieces.to_vec(),
        at: 0,
        last,
        shown: screen.shown.clone(),
    };
    let end = play_lines(&mut Plain, &mut BufReader::new(typist), &mut screen);
    let shown = screen.shown.borrow();
    (String::from_utf8_lossy(&shown).into_owned(), end)
}

#[test]
fn each_answer_comes_before_the_next_line() {
    let (shown, end) = talk(
        &[
            ("", "sh"),
            ("", "ow"),
            ("", "interrupted"),
            ("", "\n"),
            ("head 0 0 0 0\n", "map\nmap\nsho"),
            ("head 0 0 0 0\nno arena\nno arena\n", "w\n\n"),
            ("head 0 0 0 0\nno arena\nno arena\nhead 0 0 0 0\n", "map"),
        ],
        Ok(()),
    );
    assert_eq!(
        shown,
        "head 0 0 0 0\nno arena\nno arena\nhead 0 0 0 0\nno arena\n"
    );
    assert_eq!(
        end,
        End {
            lost: None,
            not_understood: 0
        }
    );
}

#[test]
fn the_unfinished_line_of_lost_input_is_not_played() {
    let lost = Err(ErrorKind::Other.into());
    let (shown, end) = talk(&[("", "foo\nmap\nshow")], lost);
    assert_eq!(shown, "line 1: not understood\nno arena\n");
    assert_eq!(
        end,
        End {
            lost: Some(Lost::Input),
            not_understood: 1
        }
    );
    // the same line is played where the input ends
    let (shown, end) = talk(&[("", "foo\nmap\nshow")], Ok(()));
    assert_eq!(shown, "line 1: not understood\nno arena\nhead 0 0 0 0\n");
    assert_eq!(end.lost, None);
}

#[test]
fn play_stops_when_output_is_lost() {
    let mut screen = Screen {
        room: Some(9),
        ..Screen::default()
    };
    let typist = Typist {
        pieces: vec![
            ("", "map\n"),
            ("no arena\n", "map\n"),
            ("never asked for", ""),
        ],
        at: 0,
        last: Ok(()),
        shown: screen.shown.clone(),
    };
    let end = play_lines(&mut Plain, &mut BufReader::new(typist), &mut screen);
    assert_eq!(end.lost, Some(Lost::Output));
}
