//! The book's calls.

use super::text::{bar, counted};
use super::{refusals, Made};
use crate::build::BookReply;
use crate::help::grouped;

pub fn sentence(made: &Made, reply: &BookReply) -> String {
    let slot = made.numbers.first().copied().unwrap_or_default();
    match (*reply, made.numbers) {
        ([0, ..], _) => format!(
            "The book is prepared: {}, all zeros.",
            counted(made.desk.lent_book, "byte")
        ),
        ([1, version, moved, _], &[_, _, _, _, kind, value]) => format!(
            "Slot {} is set to {}, version {}.{}",
            grouped(slot),
            setpoint(kind.into(), value.into()),
            grouped(version),
            slid(moved)
        ),
        ([2, version, kind, value], _) => format!(
            "Slot {} says {}, version {}.",
            grouped(slot),
            setpoint(kind, value),
            grouped(version)
        ),
        ([_, number, ..], _) if number > 100 => refusals::named(made, number),
        ([_, number, ..], _) => refusals::numbered(number, &refusals::why(made, number, 0)),
    }
}

/// What a write moved to make room.
fn slid(moved: u64) -> String {
    match moved {
        0 => String::new(),
        _ => format!(
            " To make room, {} of kept settings slid to the front.",
            counted(moved as usize, "byte")
        ),
    }
}

/// A read by version says which it asked for; a read of the newest is refused so only at version 0.
pub fn never_written(made: &Made) -> String {
    let slot = grouped(made.numbers.first().copied().unwrap_or_default());
    match (made.entry.word, made.numbers) {
        ("read_version", &[_, version]) => format!(
            "slot {slot} keeps no version {}; it keeps its newest four",
            grouped(version)
        ),
        _ => format!("nothing was ever written to slot {slot}, whose version is 0"),
    }
}

/// A setpoint in words.
fn setpoint(kind: u64, value: u64) -> String {
    match (kind, value) {
        (1, bits) => bar(bits as u32),
        (2, speed) => format!("speed {}", grouped(speed)),
        (_, 0) => "valve shut".to_string(),
        _ => "valve open".to_string(),
    }
}

/// A book has a slot for each cell, of the first 64 at most, and in its table of contents 32 bytes for each slot.
pub fn bad_slot(made: &Made) -> String {
    let head = made.head();
    let slots = (head.headers * head.buckets).min(64) as usize;
    let bytes = made.desk.lent_book;
    if bytes < 32 * slots {
        format!(
            "the book has {}, and the contents of {} need {}",
            counted(bytes, "byte"),
            counted(slots, "slot"),
            32 * slots
        )
    } else if bytes > 32_768 {
        format!(
            "the book has {}, and 32,768 are the most",
            counted(bytes, "byte")
        )
    } else {
        let slot = made.numbers.first().copied().unwrap_or_default();
        format!(
            "there is no slot {}, since the book has {}, counted from 0",
            grouped(slot),
            counted(slots, "slot")
        )
    }
}
