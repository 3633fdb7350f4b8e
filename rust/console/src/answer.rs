//! What a call answered: the words of its reply, and how they are printed.

use crate::build::{BookReply, CrewReply, Reply, SalvageReply};
use crate::desk::Desk;
use std::fmt::Display;
use std::io::{self, Write};

/// A call's reply, and what it did to the bits of the cells while that is traced: a cell, and whether it is now taken.
#[derive(Clone, Debug, PartialEq, Eq)]
pub struct Answered {
    pub answer: Answer,
    pub trace: Option<Vec<(usize, bool)>>,
}

/// A reply, by what is printed of it.
#[derive(Clone, Debug, PartialEq, Eq)]
pub enum Answer {
    Reply(Reply),
    /// Of multi-lock, which has a grant buffer too.
    Grants(Reply),
    Crew(CrewReply),
    /// Of the crew at work, which has counters too.
    Work(CrewReply),
    Salvage(SalvageReply),
    Book(BookReply),
}

/// The refusals 1 to 16 by name.
pub const REFUSALS: [&str; 16] = [
    "BadShape",
    "BadScript",
    "BadHeld",
    "TooMany",
    "BadBinding",
    "BadHeader",
    "Poisoned",
    "InvalidBucket",
    "Damaged",
    "SerialsSpent",
    "SerializationFailure",
    "NotHeld",
    "Protected",
    "Repeated",
    "BadCrew",
    "StaleBoot",
];

/// The refusals without a number of document 01, which go by name: the library tells them by numbers from 101 on.
/// ReportFull is the salvage's, the others are the book's.
pub const NAMED: [&str; 7] = [
    "BadSlot",
    "NotFinite",
    "DamagedBook",
    "VersionsSpent",
    "NeverWritten",
    "ReportFull",
    "BookFull",
];

/// The words of the kinds of setpoint 1, 2 and 3.
pub const KINDS: [&str; 3] = ["pressure", "speed", "valve"];

/// The number of a kind's word.
pub fn kind_of(word: &[u8]) -> Option<u32> {
    let at = KINDS.iter().position(|kind| kind.as_bytes() == word)?;
    Some(at as u32 + 1)
}

/// The name of a refusal, or of a kind; no build has another number.
pub fn name_of(names: &[&'static str], first: u64, number: u64) -> &'static str {
    let at = number.wrapping_sub(first) as usize;
    names.get(at).copied().unwrap_or("Unknown")
}

impl Desk {
    /// What the language says of an answer.
    pub fn print(&self, answered: &Answered, out: &mut impl Write) -> io::Result<()> {
        match &answered.answer {
            Answer::Reply(reply) => self.print_reply(reply, out)?,
            Answer::Grants(reply) => {
                self.print_reply(reply, out)?;
                print_list("grants", &self.grants, out)?;
            }
            Answer::Crew(reply) => self.print_crew(reply, out)?,
            Answer::Work(reply) => {
                self.print_crew(reply, out)?;
                print_list("counters", &self.counters, out)?;
            }
            Answer::Salvage(reply) => self.print_salvage(reply, out)?,
            Answer::Book(reply) => print_book(reply, out)?,
        }
        match &answered.trace {
            Some(bits) => print_trace(bits, out),
            None => Ok(()),
        }
    }

    /// A call's line: its answer, then the next serial and the place in force, then the counts.
    fn print_reply(&self, reply: &Reply, out: &mut impl Write) -> io::Result<()> {
        let [_, _, _, _, _, attempts, boundaries, yields, dropped, kind, one, two, three, _, _] =
            *reply;
        match kind {
            0 => write!(out, "done")?,
            1 => write!(out, "cell {one}")?,
            2 => write!(out, "granted {one} {two} {three}")?,
            3 => write!(out, "granted")?,
            4 => {
                write!(out, "busy")?;
                print_reason(reply, out)?;
            }
            _ => {
                print_refusal(one, two, out)?;
                if one == 11 {
                    print_reason(reply, out)?;
                }
                // in multi-lock the position stands behind the reason
                if kind == 6 {
                    write!(out, " at {three}")?;
                }
            }
        }
        let (next, place) = (self.head.next, self.place);
        write!(out, " next {next} place {place} attempts {attempts}")?;
        writeln!(
            out,
            " boundaries {boundaries} yields {yields} dropped {dropped}"
        )
    }

    fn print_crew(&self, reply: &CrewReply, out: &mut impl Write) -> io::Result<()> {
        let next = self.head.next;
        if reply[9] != 0 {
            print_refusal(reply[10], reply[11], out)?;
            return writeln!(out, " next {next}");
        }
        let (moving, idle) = (reply[15], reply[16]);
        writeln!(out, "crew moving {moving} idle {idle} next {next}")?;
        let members = reply[17..33].iter().zip(&reply[33..]);
        for (member, (taken, released)) in members.enumerate().take(self.members.len()) {
            writeln!(out, "member {member} taken {taken} released {released}")?;
        }
        Ok(())
    }

    /// The answer's line, and then, refused or not, report and list as they now are.
    fn print_salvage(&self, reply: &SalvageReply, out: &mut impl Write) -> io::Result<()> {
        match reply[4..] {
            [0, changed, held] => write!(out, "done {changed} {held}")?,
            [_, number, _] if number > 100 => print_named(number, out)?,
            _ => print_refusal(reply[5], 0, out)?,
        }
        writeln!(out, " next {}", self.head.next)?;
        print_list("report", &self.report, out)?;
        print_list("unconfirmed", &self.unconfirmed, out)
    }
}

fn print_refusal(number: u64, carried: u64, out: &mut impl Write) -> io::Result<()> {
    let name = name_of(&REFUSALS, 1, number);
    write!(out, "refused {number} {name} {carried}")
}

/// A refusal without a number of document 01.
fn print_named(number: u64, out: &mut impl Write) -> io::Result<()> {
    write!(out, "refused {}", name_of(&NAMED, 101, number))
}

/// What stands behind `busy`, and behind the 4096 of refusal 11.
fn print_reason(reply: &Reply, out: &mut impl Write) -> io::Result<()> {
    let (reason, serial) = (reply[13], reply[14]);
    match reason {
        1 => write!(out, " held {serial}"),
        2 => write!(out, " before"),
        _ => write!(out, " after {serial}"),
    }
}

/// The line of a call of the book.
fn print_book(reply: &BookReply, out: &mut impl Write) -> io::Result<()> {
    match *reply {
        [0, ..] => write!(out, "done")?,
        [1, version, moved, _] => write!(out, "done version {version} moved {moved}")?,
        [2, version, kind, number] => {
            let kind = name_of(&KINDS, 1, kind);
            write!(out, "setpoint {kind} {number} version {version}")?;
        }
        [_, number, ..] if number > 100 => print_named(number, out)?,
        [_, number, ..] => print_refusal(number, 0, out)?,
    }
    writeln!(out)
}

/// A word and every number of a list; an empty one prints its word alone.
fn print_list(word: &str, numbers: &[impl Display], out: &mut impl Write) -> io::Result<()> {
    write!(out, "{word}")?;
    for number in numbers {
        write!(out, " {number}")?;
    }
    writeln!(out)
}

/// `step 1 CELL 0` for a cell that is now taken, `step 2 CELL 0` for one that is not; if no bit changed, `step 0 0 0`.
fn print_trace(bits: &[(usize, bool)], out: &mut impl Write) -> io::Result<()> {
    for &(cell, taken) in bits {
        let kind = if taken { 1 } else { 2 };
        writeln!(out, "step {kind} {cell} 0")?;
    }
    if bits.is_empty() {
        writeln!(out, "step 0 0 0")?;
    }
    Ok(())
}
