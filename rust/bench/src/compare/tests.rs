//! `compare` with builds that have a slip, and with builds that touch what they were not lent.
#![allow(unsafe_code)]

use super::fence::Fences;
use super::{compare, Asked};
use console::both::{Copied, Guards, Stand};
use console::build::{
    BookReply, Build, CrewReply, Head, Key, Lease, Reply, SalvageReply, WaveReply,
};
use console::{for_every_call, Both};
use plain::Plain;

/// What a build does beside what the plain one does.
#[derive(Clone, Copy, Debug, PartialEq, Eq)]
enum Slip {
    Nothing,
    /// `drop_lease` sets the waiters of the cell before.
    Waiters,
    /// `acquire_index_locks` of many keys, refused by 11, has a wrong word in its reply.
    Keys,
    /// `try_acquire` writes the word behind the table, writes the one before it, or reads it.
    WriteBehind,
    WriteBefore,
    ReadBehind,
    ReadBefore,
    /// `read_permission` writes the table.
    WriteConst,
    /// `environment` reads the held list's first word when it is empty.
    ReadEmpty,
}

/// The place of an element beside a run, or in it. The compiler knows nothing about it.
fn place<T>(run: &[T], at: isize) -> *mut T {
    std::hint::black_box(run.as_ptr().wrapping_offset(at).cast_mut())
}

macro_rules! the_slips {
    ($($call:ident($($given:ident: $kind:ty),* $(,)?) -> $reply:ty;)*) => {
        impl Build for Slip {
            $(fn $call(&mut self, $($given: $kind),*) -> $reply {
                slip!(self, $call, $($given),*)
            })*
        }
    };
}
macro_rules! slip {
    ($self:ident, drop_lease, $head:ident, $table:ident, $lease:ident) => {{
        let reply = Plain.drop_lease($head, $table, $lease);
        if *$self == Slip::Waiters && reply[9] == 0 && $lease.cell > 0 {
            $table[3 * $lease.cell as usize - 1] = 1;
        }
        reply
    }};
    ($self:ident, acquire_index_locks, $head:ident, $($given:ident),*) => {{
        slip!(keys $self, $head, $($given),*)
    }};
    (keys $self:ident, $head:ident, $table:ident, $health:ident, $registry:ident, $script:ident, $place:ident,
        $held:ident, $keys:ident, $grants:ident) => {{
        let mut reply = Plain.acquire_index_locks(
            $head, $table, $health, $registry, $script, $place, $held, $keys, $grants,
        );
        if *$self == Slip::Keys && $keys.len() >= 20 && reply[9] == 6 && reply[10] == 11 {
            reply[14] = 0xa5;
        }
        reply
    }};
    ($self:ident, try_acquire, $head:ident, $table:ident, $cell:ident) => {{
        let behind = place($table, $table.len() as isize);
        let before = place($table, -1);
        // SAFETY: none; the process is to end by it.
        unsafe {
            match $self {
                Slip::WriteBehind => behind.write_volatile(1),
                Slip::WriteBefore => before.write_volatile(1),
                Slip::ReadBehind => drop(behind.read_volatile()),
                Slip::ReadBefore => drop(before.read_volatile()),
                _ => {}
            }
        }
        Plain.try_acquire($head, $table, $cell)
    }};
    ($self:ident, read_permission, $head:ident, $table:ident, $lease:ident) => {{
        if *$self == Slip::WriteConst && !$table.is_empty() {
            let first = place($table, 0);
            // SAFETY: none; the process is to end by it.
            unsafe { first.write_volatile($table[0]) };
        }
        Plain.read_permission($head, $table, $lease)
    }};
    ($self:ident, environment, $head:ident, $table:ident, $health:ident, $script:ident, $place:ident,
        $held:ident) => {{
        if *$self == Slip::ReadEmpty && $held.is_empty() {
            // SAFETY: none; the process is to end by it.
            unsafe { place($held, 0).read_volatile() };
        }
        Plain.environment($head, $table, $health, $script, $place, $held)
    }};
    ($self:ident, $call:ident, $($given:ident),*) => {
        Plain.$call($($given),*)
    };
}
for_every_call!(the_slips);

/// What `compare` prints, and whether it found a difference.
fn compared<S: Stand>(stand: impl Fn() -> S, slip: Slip, fenced: bool) -> (String, bool) {
    // many keys refused by 11 are rare in a history
    let calls = if slip == Slip::Keys { 50_000 } else { 5_000 };
    let asked = Asked {
        calls,
        seed: 7,
        fenced,
    };
    let mut out = Vec::new();
    let both = || Both::on(stand(), Plain, slip);
    let different = compare(asked, both, &mut out).expect("it can be played");
    (String::from_utf8_lossy(&out).into_owned(), different)
}

/// The lines that are no remarks.
fn history(printed: &str) -> Vec<&str> {
    let lines = printed.lines();
    lines.filter(|line| !line.starts_with('#')).collect()
}

fn first_word(line: &str) -> &str {
    line.split(' ').next().unwrap_or_default()
}

/// The line of the whole history that the first remark names.
fn line_number(printed: &str) -> usize {
    let (_, rest) = printed.split_once("DIFFERENT in line ").expect("a remark");
    let (number, _) = rest.split_once(',').expect("a number and what differs");
    number.parse().expect("a number")
}

#[test]
fn words_in_any_order() {
    let asked = Asked::of(&["--fenced", "--seed", "3", "--calls", "20"]);
    let wanted = Asked {
        calls: 20,
        seed: 3,
        fenced: true,
    };
    assert_eq!(asked, Some(wanted));
    for wrong in [
        &["--calls"][..],
        &["--seed", "x"],
        &["20"],
        &["--calls", "-1"],
    ] {
        assert_eq!(Asked::of(wrong), None);
    }
}

#[test]
fn equal_builds_are_equal() {
    let (printed, different) = compared(|| Guards, Slip::Nothing, false);
    assert!(
        !different && printed.starts_with("compare: 50"),
        "{printed}"
    );
    let (printed, different) = compared(Fences::default, Slip::Nothing, true);
    assert!(
        !different && printed.contains(" lines, equal; "),
        "{printed}"
    );
}

#[test]
fn a_slip_is_found_and_its_history_cut() {
    for (slip, late, what, most) in [
        (Slip::Waiters, 100, "drop_lease, table[", 4),
        (
            Slip::Keys,
            1_000,
            "acquire_index_locks, reply[14]: proved 165",
            6,
        ),
    ] {
        let (printed, different) = compared(|| Guards, slip, false);
        assert!(different && printed.contains(what), "{printed}");
        assert!(line_number(&printed) > late, "{printed}");
        let left = history(&printed);
        assert!(left.len() <= most, "{printed}");
        assert!(
            what.starts_with(first_word(left[left.len() - 1])),
            "{printed}"
        );
        // the file shows it again
        let mut both = Both::new(Plain, slip);
        console::play::play(&mut both, &mut printed.as_bytes(), &mut Vec::new());
        assert!(
            both.difference.is_some_and(|again| again.starts_with(what)),
            "{printed}"
        );
    }
}

#[test]
fn what_is_touched_beside_a_run_ends_the_child() {
    for (slip, word) in [
        (Slip::WriteBehind, "try_acquire"),
        (Slip::WriteBefore, "try_acquire"),
        (Slip::ReadBehind, "try_acquire"),
        (Slip::ReadBefore, "try_acquire"),
        (Slip::WriteConst, "read_permission"),
        (Slip::ReadEmpty, "environment"),
    ] {
        let (printed, different) = compared(Fences::default, slip, true);
        assert!(different, "{slip:?}: {printed}");
        let first = "# bench compare --calls 5000 --seed 7 --fenced: DIFFERENT in line ";
        assert!(printed.starts_with(first), "{slip:?}: {printed}");
        assert!(
            printed.contains("the process ended, signal: 11 (SIGSEGV)"),
            "{slip:?}: {printed}"
        );
        let left = history(&printed);
        assert!(
            left.len() <= 2 && left[left.len() - 1].starts_with(word),
            "{slip:?}: {printed}"
        );
    }
}

#[test]
fn runs_are_copied_to_both_ends_of_a_room() {
    let mut fences = Fences::default();
    for length in [0, 1, 2, 1_000, 98_400] {
        let run: Vec<u32> = (0..length).collect();
        for way in 0..Fences::WAYS {
            let mut copy = fences.copy(&run, true, way);
            assert_eq!(copy.difference("run", &run), None);
            copy.run_mut().fill(9);
            assert!(copy.run().iter().all(|&word| word == 9) && !copy.is_overrun());
            let bytes = fences.copy(&[7u8, 8, 9], false, way);
            assert_eq!(bytes.run(), [7, 8, 9]);
        }
    }
}
