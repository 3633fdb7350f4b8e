//! The setpoint book (document 02, L2 and L10): the newest four setpoints of each cell, at most the first 64, in a lent
//! run of bytes.
use crate::{raw, Arena, Lease};

/// No book has more bytes.
pub const LONGEST_BOOK: usize = 32_768;
/// The most slots of a book: one for each cell, up to these.
pub const SLOTS: u32 = 64;
/// Each slot keeps its newest versions, at most these.
pub const KEPT_VERSIONS: u32 = 4;
/// Bytes that each slot needs in the table of contents: four lines of 8.
pub const SLOT_BYTES: usize = 32;
/// Bytes of each slot with room for four bodies of 5: a book of so many is never [`BookRefusal::BookFull`].
pub const ROOMY_BYTES: usize = 52;

/// A setpoint.
#[derive(Clone, Copy, Debug, PartialEq)]
pub enum Setpoint {
    /// A pressure in bar; one that is not finite is [`BookRefusal::NotFinite`].
    Pressure(f32),
    /// A speed.
    Speed(u32),
    /// A valve; true is open.
    Valve(bool),
}

impl Setpoint {
    /// The setpoint that words 2 and 3 of a setting tell. The library gives no kind but 1 to 3, and of a valve no word
    /// but 0 and 1.
    const fn of(w: &[u64; raw::BOOK]) -> Setpoint {
        let bits = w[3] as u32;
        match w[2] {
            1 => Setpoint::Pressure(f32::from_bits(bits)),
            2 => Setpoint::Speed(bits),
            _ => Setpoint::Valve(bits != 0),
        }
    }
}

/// The refusals of the book's calls, in the order of their tests. Each changes no byte.
#[derive(Clone, Copy, Debug, PartialEq, Eq, PartialOrd, Ord, Hash)]
#[non_exhaustive]
pub enum BookRefusal {
    /// Document 01's 1: the head or the table's length breaks the arena's rules.
    BadShape,
    /// The book is shorter than its contents or over the limit, or there is no such slot.
    BadSlot,
    /// Document 02's 16: the lease has another boot number than the head.
    StaleBoot,
    /// Document 01's 12: no live lease on the slot's cell.
    NotHeld,
    /// A pressure that is a NaN or an infinity.
    NotFinite,
    /// A line or a kept body of any slot fits no rule, or two bodies overlap. Nothing mends such a book but
    /// [`Arena::prepare_book`], which forgets every setting.
    DamagedBook,
    /// The slot is at version 4,294,967,295.
    VersionsSpent,
    /// The version is 0, not yet written, or older than the newest four.
    NeverWritten,
    /// The bodies that stay leave fewer than 5 bytes.
    BookFull,
}

impl BookRefusal {
    /// The refusal that word 1 tells. The library gives no number but these.
    const fn of(w: &[u64; raw::BOOK]) -> BookRefusal {
        match w[1] {
            1 => BookRefusal::BadShape,
            12 => BookRefusal::NotHeld,
            16 => BookRefusal::StaleBoot,
            101 => BookRefusal::BadSlot,
            102 => BookRefusal::NotFinite,
            103 => BookRefusal::DamagedBook,
            104 => BookRefusal::VersionsSpent,
            105 => BookRefusal::NeverWritten,
            _ => BookRefusal::BookFull,
        }
    }
}

/// The answer of a call of the book.
#[derive(Clone, Copy, Debug, PartialEq)]
#[must_use]
pub enum BookAnswer {
    /// The book is prepared.
    Done,
    /// Written.
    Written {
        /// The setting's version.
        version: u32,
        /// The bytes of bodies that moved to make room; 0 if none did.
        moved: u32,
    },
    /// A setpoint and its version.
    Setting(Setpoint, u32),
    /// Refused.
    Refused(BookRefusal),
}

impl BookAnswer {
    /// The answer that four words tell. The library gives no kind but 0 to 3.
    const fn of(w: &[u64; raw::BOOK]) -> BookAnswer {
        match w[0] {
            0 => BookAnswer::Done,
            1 => BookAnswer::Written {
                version: w[1] as u32,
                moved: w[2] as u32,
            },
            2 => BookAnswer::Setting(Setpoint::of(w), w[1] as u32),
            _ => BookAnswer::Refused(BookRefusal::of(w)),
        }
    }
}

impl Arena<'_> {
    /// Sets every byte of the book to 0, whatever stood there.
    pub fn prepare_book(&self, book: &mut [u8]) -> BookAnswer {
        BookAnswer::of(&raw::prepare_book(self.head, book))
    }

    /// Writes a setpoint to a slot, by a live lease on the slot's cell, and gives the slot's new version and the bytes
    /// moved. The slot's oldest of four is dropped. Refused in this order: [`BookRefusal::BadShape`],
    /// [`BookRefusal::BadSlot`], [`BookRefusal::StaleBoot`], [`BookRefusal::NotHeld`], [`BookRefusal::NotFinite`],
    /// [`BookRefusal::DamagedBook`], [`BookRefusal::VersionsSpent`], [`BookRefusal::BookFull`].
    pub fn write_setpoint(
        &self,
        book: &mut [u8],
        slot: u32,
        lease: Lease,
        setpoint: Setpoint,
    ) -> BookAnswer {
        let (head, table) = (self.head, &*self.table);
        let words = match setpoint {
            Setpoint::Pressure(bar) => {
                raw::write_pressure(head, table, book, slot, lease, bar.to_bits())
            }
            Setpoint::Speed(speed) => raw::write_speed(head, table, book, slot, lease, speed),
            Setpoint::Valve(open) => raw::write_valve(head, table, book, slot, lease, open),
        };
        BookAnswer::of(&words)
    }

    /// The newest setpoint of a slot and its version; it needs no lease. Refused in this order:
    /// [`BookRefusal::BadShape`] for the head, [`BookRefusal::BadSlot`], [`BookRefusal::DamagedBook`],
    /// [`BookRefusal::NeverWritten`].
    pub fn read_setpoint(&self, book: &[u8], slot: u32) -> BookAnswer {
        BookAnswer::of(&raw::read_setpoint(self.head, book, slot))
    }

    /// The setpoint that is this version of a slot, refused as [`Arena::read_setpoint`] is.
    pub fn read_version(&self, book: &[u8], slot: u32, version: u32) -> BookAnswer {
        BookAnswer::of(&raw::read_version(self.head, book, slot, version))
    }
}
