//! Numbers, names and sentences of the refusals, for people and for logs.
use crate::wave::{NotRead, NotWritten};
use crate::{BookRefusal, Reason, Refusal, SalvageRefusal};
use core::error::Error;
use core::fmt::{self, Display, Formatter};

impl Refusal {
    /// Document 01's name.
    pub const fn name(self) -> &'static str {
        match self {
            Refusal::BadShape => "BadShape",
            Refusal::BadScript => "BadScript",
            Refusal::BadHeld(_) => "BadHeld",
            Refusal::TooMany => "TooMany",
            Refusal::BadBinding(_) => "BadBinding",
            Refusal::BadHeader(_) => "BadHeader",
            Refusal::Poisoned(_) => "Poisoned",
            Refusal::InvalidBucket(_) => "InvalidBucket",
            Refusal::Damaged(_) => "Damaged",
            Refusal::SerialsSpent(_) => "SerialsSpent",
            Refusal::SerializationFailure(_) => "SerializationFailure",
            Refusal::NotHeld(_) => "NotHeld",
            Refusal::Protected => "Protected",
            Refusal::Repeated(_) => "Repeated",
            Refusal::BadCrew(_) => "BadCrew",
            Refusal::StaleBoot(_) => "StaleBoot",
        }
    }
}

impl Display for Refusal {
    fn fmt(&self, f: &mut Formatter<'_>) -> fmt::Result {
        match self {
            Refusal::BadShape => f.write_str("the head or a length breaks the arena's rules"),
            Refusal::BadScript => {
                f.write_str("the script is too long, or its place is past its end")
            }
            Refusal::BadHeld(at) => write!(f, "held lease {at} is not live, or they are over 64"),
            Refusal::TooMany => f.write_str("more than 64 keys or leases"),
            Refusal::BadBinding(at) => {
                write!(f, "the registry has no binding as key {at} names it")
            }
            Refusal::BadHeader(header) => write!(f, "there is no header {header}"),
            Refusal::Poisoned(header) => write!(f, "header {header} is poisoned"),
            Refusal::InvalidBucket(at) => write!(f, "there is no bucket or cell {at}"),
            Refusal::Damaged(cell) => {
                write!(f, "cell {cell} is damaged; preparing or a salvage mends it")
            }
            Refusal::SerialsSpent(cell) => {
                write!(
                    f,
                    "no serial is left for cell {cell}; open under a new boot number"
                )
            }
            Refusal::SerializationFailure(reason) => {
                write!(f, "4,096 attempts in vain, the last one: {reason}")
            }
            Refusal::NotHeld(at) => write!(
                f,
                "lease {at} is not live: it was given back, or never given"
            ),
            Refusal::Protected => f.write_str("the lease is in the held list"),
            Refusal::Repeated(at) => write!(f, "lease {at} stands in the list before"),
            Refusal::BadCrew(at) => {
                write!(f, "the crew's limits, lists or turns break a rule at {at}")
            }
            Refusal::StaleBoot(at) => write!(f, "lease {at} is from another boot"),
        }
    }
}

impl Error for Refusal {}

impl Display for Reason {
    fn fmt(&self, f: &mut Formatter<'_>) -> fmt::Result {
        match self {
            Reason::Held(serial) => write!(f, "held by serial {serial}"),
            Reason::Before => f.write_str("waited for"),
            Reason::After(serial) => write!(f, "waited for when serial {serial} had taken it"),
        }
    }
}

impl BookRefusal {
    /// The number in a reply; 1, 12 and 16 are those of [`Refusal`].
    pub const fn number(self) -> u32 {
        match self {
            BookRefusal::BadShape => 1,
            BookRefusal::NotHeld => 12,
            BookRefusal::StaleBoot => 16,
            BookRefusal::BadSlot => 101,
            BookRefusal::NotFinite => 102,
            BookRefusal::DamagedBook => 103,
            BookRefusal::VersionsSpent => 104,
            BookRefusal::NeverWritten => 105,
            BookRefusal::BookFull => 107,
        }
    }

    /// Its name in the documents.
    pub const fn name(self) -> &'static str {
        match self {
            BookRefusal::BadShape => "BadShape",
            BookRefusal::NotHeld => "NotHeld",
            BookRefusal::StaleBoot => "StaleBoot",
            BookRefusal::BadSlot => "BadSlot",
            BookRefusal::NotFinite => "NotFinite",
            BookRefusal::DamagedBook => "DamagedBook",
            BookRefusal::VersionsSpent => "VersionsSpent",
            BookRefusal::NeverWritten => "NeverWritten",
            BookRefusal::BookFull => "BookFull",
        }
    }
}

impl Display for BookRefusal {
    fn fmt(&self, f: &mut Formatter<'_>) -> fmt::Result {
        f.write_str(match self {
            BookRefusal::BadShape => "the head or the table's length breaks the arena's rules",
            BookRefusal::NotHeld => "no live lease on the slot's cell",
            BookRefusal::StaleBoot => "the lease is from another boot",
            BookRefusal::BadSlot => "the book is too short or too long, or has no such slot",
            BookRefusal::NotFinite => "the pressure is no finite number",
            BookRefusal::DamagedBook => {
                "the book's bytes are damaged; preparing it is the only cure"
            }
            BookRefusal::VersionsSpent => "the slot has had its last version",
            BookRefusal::NeverWritten => "the slot or that version of it holds no setting",
            BookRefusal::BookFull => "the book has no room for another setting",
        })
    }
}

impl Error for BookRefusal {}

impl SalvageRefusal {
    /// The number in a reply.
    pub const fn number(self) -> u32 {
        match self {
            SalvageRefusal::BadShape => 1,
            SalvageRefusal::ReportFull => 106,
        }
    }

    /// Its name in the documents.
    pub const fn name(self) -> &'static str {
        match self {
            SalvageRefusal::BadShape => "BadShape",
            SalvageRefusal::ReportFull => "ReportFull",
        }
    }
}

impl Display for SalvageRefusal {
    fn fmt(&self, f: &mut Formatter<'_>) -> fmt::Result {
        f.write_str(match self {
            SalvageRefusal::BadShape => "the head or a length breaks the arena's rules",
            SalvageRefusal::ReportFull => {
                "the report or the list of cells is too short; nothing was mended"
            }
        })
    }
}

impl Error for SalvageRefusal {}

impl Display for NotWritten {
    fn fmt(&self, f: &mut Formatter<'_>) -> fmt::Result {
        f.write_str(match self {
            NotWritten::BadScript => "more than 32,768 steps",
            NotWritten::TooWide => "no cells, or more than 94",
            NotWritten::NoRoom => "the buffer is too short for the dump",
        })
    }
}

impl Error for NotWritten {}

impl Display for NotRead {
    fn fmt(&self, f: &mut Formatter<'_>) -> fmt::Result {
        match self {
            NotRead::BadLine(line) => write!(f, "no dump has line {line}"),
            NotRead::NoRoom => f.write_str("the buffer is too short for the history"),
        }
    }
}

impl Error for NotRead {}
