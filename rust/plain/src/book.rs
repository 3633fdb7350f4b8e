//! Requests L2 and L10 of document 02: the setpoint book. "The book of L2 now keeps the newest four settings of each slot;
//! the table of contents has four lines a slot, newest first, versions falling by one, unused lines zero." A line is 8
//! bytes ("place 2, length 2, version 4, low byte first"), a body 5; the bodies stand anywhere behind the contents.
//!
//! One public function for each call, over lent slices; no argument makes it panic. Refusals change nothing.

use crate::rules::{self, Head, Lease, Refusal};

/// "A lent book, at most 32,768 bytes, one slot for each cell, at most the first 64."
pub const MOST_BYTES: usize = 32_768;
pub const MOST_SLOTS: u32 = 64;
/// Bytes of a line of the table of contents, and of a body.
pub const LINE: usize = 8;
pub const BODY: usize = 5;
/// "the newest four settings of each slot"
pub const KEPT: usize = 4;
/// The version behind which there is none.
pub const NO_VERSION: u32 = u32::MAX;

/// "A setpoint is a pressure in bar as f32, a speed as a whole number, or a valve open or shut."
#[derive(Clone, Copy, Debug, PartialEq)]
pub enum Setpoint {
    Pressure(f32),
    Speed(u32),
    Valve(bool),
}

impl Setpoint {
    /// "a kind byte (1, 2, 3 in that order) and four bytes", here as one number. None: there is no such kind, or it is
    /// a valve that is not 0 or 1. A pressure may be one that is not finite.
    pub fn of(kind: u32, number: u32) -> Option<Setpoint> {
        match (kind, number) {
            (1, bits) => Some(Setpoint::Pressure(f32::from_bits(bits))),
            (2, speed) => Some(Setpoint::Speed(speed)),
            (3, 0) => Some(Setpoint::Valve(false)),
            (3, 1) => Some(Setpoint::Valve(true)),
            _ => None,
        }
    }

    pub fn kind(self) -> u8 {
        match self {
            Setpoint::Pressure(_) => 1,
            Setpoint::Speed(_) => 2,
            Setpoint::Valve(_) => 3,
        }
    }

    pub fn number(self) -> u32 {
        match self {
            Setpoint::Pressure(bar) => bar.to_bits(),
            Setpoint::Speed(speed) => speed,
            Setpoint::Valve(open) => u32::from(open),
        }
    }

    fn is_finite(self) -> bool {
        match self {
            Setpoint::Pressure(bar) => bar.is_finite(),
            Setpoint::Speed(_) | Setpoint::Valve(_) => true,
        }
    }
}

/// The refusals of the book's calls. All but three go by name, and carry nothing.
#[derive(Clone, Copy, Debug, PartialEq, Eq)]
pub enum BookRefusal {
    /// 1, 16 or 12.
    Numbered(Refusal),
    BadSlot,
    NotFinite,
    DamagedBook,
    VersionsSpent,
    NeverWritten,
    BookFull,
}

impl BookRefusal {
    pub fn name(self) -> &'static str {
        match self {
            BookRefusal::Numbered(refusal) => refusal.name(),
            BookRefusal::BadSlot => "BadSlot",
            BookRefusal::NotFinite => "NotFinite",
            BookRefusal::DamagedBook => "DamagedBook",
            BookRefusal::VersionsSpent => "VersionsSpent",
            BookRefusal::NeverWritten => "NeverWritten",
            BookRefusal::BookFull => "BookFull",
        }
    }
}

impl From<Refusal> for BookRefusal {
    fn from(refusal: Refusal) -> Self {
        BookRefusal::Numbered(refusal)
    }
}

/// A setting that is kept.
#[derive(Clone, Copy, Debug, PartialEq)]
pub struct Kept {
    pub setpoint: Setpoint,
    pub version: u32,
}

/// A write that was done: the new version, and the "bytes moved" to make room.
#[derive(Clone, Copy, Debug, PartialEq, Eq)]
pub struct Written {
    pub version: u32,
    pub moved: u32,
}

// ---- What a book keeps

/// "one slot for each cell, at most the first 64"
pub fn slots_of(cells: u32) -> u32 {
    cells.min(MOST_SLOTS)
}

/// The bytes of the table of contents, behind which the bodies stand.
pub fn contents_length(slots: u32) -> usize {
    LINE * KEPT * slots as usize
}

/// BadSlot, as far as the book goes: "A book shorter than its contents", or one over the limit. Else the number of slots.
fn check_book(cells: u32, book: &[u8]) -> Result<u32, BookRefusal> {
    let slots = slots_of(cells);
    if book.len() < contents_length(slots) || book.len() > MOST_BYTES {
        return Err(BookRefusal::BadSlot);
    }
    Ok(slots)
}

/// BadSlot: as before, or no such slot.
fn check_slot(cells: u32, book: &[u8], slot: u32) -> Result<u32, BookRefusal> {
    let slots = check_book(cells, book)?;
    if slot < slots {
        Ok(slots)
    } else {
        Err(BookRefusal::BadSlot)
    }
}

/// A line of the table of contents as one number: "place 2, length 2, version 4, low byte first".
fn line_of(bytes: &[u8]) -> u64 {
    let mut line = [0; LINE];
    line.copy_from_slice(bytes);
    u64::from_le_bytes(line)
}

fn line(place: usize, version: u32) -> u64 {
    place as u64 | (BODY as u64) << 16 | u64::from(version) << 32
}

fn place_of(line: u64) -> usize {
    line as usize & 0xffff
}

fn version_of(line: u64) -> u32 {
    (line >> 32) as u32
}

/// The places where bodies begin: a bit for each byte of the book, and two bytes behind them.
struct Starts<'a>(&'a mut [u8]);

/// Bytes of them for a book of 64 slots and some room, and for the longest one.
const FEW_STARTS: usize = 4096 / 8 + 2;
const MOST_STARTS: usize = MOST_BYTES / 8 + 2;

/// Starts for this book: to clear them takes as long as the book is.
macro_rules! starts {
    ($starts:ident of $book:expr) => {
        let (mut few, mut most);
        let starts: &mut [u8] = if $book.len() <= 4096 {
            few = [0; FEW_STARTS];
            &mut few
        } else {
            most = [0; MOST_STARTS];
            &mut most
        };
        let $starts = Starts(starts);
    };
}

impl Starts<'_> {
    /// Adds one. False: another is less than 5 bytes away, so the bodies overlap. Those that touch do not. No place is
    /// below 5.
    #[inline(always)]
    fn add(&mut self, place: usize) -> bool {
        let first = place - (BODY - 1);
        let near = u16::from_le_bytes([self.0[first / 8], self.0[first / 8 + 1]]);
        self.0[place / 8] |= 1 << (place % 8);
        near >> (first % 8) & 0x1ff == 0
    }
}

/// Tests all that the book keeps; gives the number of bodies. "a line or kept body that
/// fits no rule, or two bodies that overlap, make every read and write DamagedBook": of whichever slot they are. Bytes
/// that no kept body covers are nothing to it.
///
/// A slot's four lines are "newest first, versions falling by one, unused lines zero": as many are in use as there were
/// settings, four at most. One in use has length 5, its version, and a place behind the contents.
#[inline(always)]
fn check_contents(book: &[u8], slots: u32, mut starts: Starts) -> Result<usize, BookRefusal> {
    let front = contents_length(slots);
    let mut bodies = 0;
    for lines in book[..front].chunks_exact(LINE * KEPT) {
        let newest = version_of(line_of(&lines[..LINE]));
        for (age, bytes) in (0..).zip(lines.chunks_exact(LINE)) {
            let found = line_of(bytes);
            if newest <= age {
                if found != 0 {
                    return Err(BookRefusal::DamagedBook);
                }
                continue;
            }
            let place = place_of(found);
            if found != line(place, newest - age)
                || place < front
                || setpoint_at(book, place).is_none()
                || !starts.add(place)
            {
                return Err(BookRefusal::DamagedBook);
            }
            bodies += 1;
        }
    }
    Ok(bodies)
}

/// The body at this place: "A body is a kind byte (1, 2, 3 in that order) and four bytes, low byte first; a valve is 0 or
/// 1", a pressure is finite. None: it fits no rule, or is not whole.
#[inline(always)]
fn setpoint_at(book: &[u8], place: usize) -> Option<Setpoint> {
    let &[kind, a, b, c, d] = book.get(place..place + BODY)? else {
        return None;
    };
    let setpoint = Setpoint::of(u32::from(kind), u32::from_le_bytes([a, b, c, d]))?;
    setpoint.is_finite().then_some(setpoint)
}

// ---- The calls

/// "Preparing the book writes all of it", with zeros.
pub fn prepare_book(head: Head, book: &mut [u8]) -> Result<(), BookRefusal> {
    check_book(rules::cells_of(head)?, book)?;
    book.fill(0);
    Ok(())
}

/// "Writing needs a live lease on the slot's cell and raises the version by one." Its refusals in order: 1, BadSlot, 16,
/// 12, NotFinite, DamagedBook (of the whole book), VersionsSpent, BookFull.
pub fn write_setpoint(
    head: Head,
    table: &[u32],
    book: &mut [u8],
    slot: u32,
    lease: Lease,
    setpoint: Setpoint,
) -> Result<Written, BookRefusal> {
    let slots = check_slot(rules::shape(head, table)?, book, slot)?;
    // 16 right before 12
    rules::check_live(head, table, lease)?;
    if lease.cell != slot {
        return Err(Refusal::NotHeld(0).into());
    }
    if !setpoint.is_finite() {
        return Err(BookRefusal::NotFinite);
    }
    starts!(starts of book);
    let mut bodies = check_contents(book, slots, starts)?;
    let newest = KEPT * slot as usize;
    let oldest = newest + KEPT - 1;
    // an unwritten slot has version 0
    let Some(version) = version_at(book, newest).checked_add(1) else {
        return Err(BookRefusal::VersionsSpent);
    };
    // "Writing drops the slot's oldest of four before it looks for room"
    let dropped = line_of(&book[LINE * oldest..][..LINE]);
    bodies -= usize::from(dropped != 0);
    // "exactly when kept bodies after that drop leave fewer than 5 bytes"
    let front = contents_length(slots);
    if book.len() - front < BODY * (bodies + 1) {
        return Err(BookRefusal::BookFull);
    }
    if dropped != 0 {
        book[place_of(dropped)..][..BODY].fill(0);
        book[LINE * oldest..][..LINE].fill(0);
    }
    let (end, moved) = make_room(book, front, bodies);
    book.copy_within(LINE * newest..LINE * oldest, LINE * (newest + 1));
    book[LINE * newest..][..LINE].copy_from_slice(&line(end, version).to_le_bytes());
    book[end] = setpoint.kind();
    book[end + 1..end + BODY].copy_from_slice(&setpoint.number().to_le_bytes());
    Ok(Written { version, moved })
}

/// Where the next body is to stand, and the bytes moved for it. "When no room is left behind the last body, kept bodies
/// slide to the front".
fn make_room(book: &mut [u8], front: usize, bodies: usize) -> (usize, u32) {
    let lines = book[..front].chunks_exact(LINE).map(line_of);
    let last = lines.map(place_of).max().unwrap_or(0);
    // an unused line has place 0
    let end = front.max(last + BODY);
    if book.len() - end >= BODY {
        return (end, 0);
    }
    (front + BODY * bodies, slide(book, front))
}

/// Slides the bodies to the front "in the order of their places". "Vacated bytes become zeros": every byte of an old body
/// that no new body covers. Bytes that no body covered or covers stay. The "bytes moved, equal to the summed lengths of
/// the bodies whose place changed".
fn slide(book: &mut [u8], front: usize) -> u32 {
    // no two bodies begin in one stretch of five bytes: of each stretch the number of its body's line, and 0 for none
    let mut lines = [0u16; MOST_BYTES / BODY + 1];
    for (number, bytes) in (1..).zip(book[..front].chunks_exact(LINE)) {
        let found = line_of(bytes);
        if found != 0 {
            lines[(place_of(found) - front) / BODY] = number;
        }
    }
    let stretches = (book.len() - front).div_ceil(BODY);
    let (mut new, mut moved) = (front, 0);
    for &number in lines[..stretches].iter().filter(|&&number| number != 0) {
        let at = LINE * (usize::from(number) - 1);
        let old = place_of(line_of(&book[at..][..LINE]));
        if old != new {
            let mut body = [0; BODY];
            body.copy_from_slice(&book[old..][..BODY]);
            book[old..][..BODY].fill(0);
            book[new..][..BODY].copy_from_slice(&body);
            book[at..][..2].copy_from_slice(&(new as u16).to_le_bytes());
            moved += BODY as u32;
        }
        new += BODY;
    }
    moved
}

fn version_at(book: &[u8], line: usize) -> u32 {
    version_of(line_of(&book[LINE * line..][..LINE]))
}

/// "Version 0 reads as NeverWritten": a slot's newest setting.
pub fn read_setpoint(head: Head, book: &[u8], slot: u32) -> Result<Kept, BookRefusal> {
    read(head, book, slot, |newest| newest)
}

/// "NeverWritten now also answers for an older version not kept", and for 0 and a version not yet written.
pub fn read_version(head: Head, book: &[u8], slot: u32, version: u32) -> Result<Kept, BookRefusal> {
    read(head, book, slot, |_| version)
}

/// The version of a slot that is asked for, by its newest.
fn read(
    head: Head,
    book: &[u8],
    slot: u32,
    asked: impl Fn(u32) -> u32,
) -> Result<Kept, BookRefusal> {
    let slots = check_slot(rules::cells_of(head)?, book, slot)?;
    starts!(starts of book);
    check_contents(book, slots, starts)?;
    let first = KEPT * slot as usize;
    let newest = version_at(book, first);
    let version = asked(newest);
    if version == 0 || version > newest || newest - version >= KEPT as u32 {
        return Err(BookRefusal::NeverWritten);
    }
    let age = (newest - version) as usize;
    let place = place_of(line_of(&book[LINE * (first + age)..][..LINE]));
    let setpoint = setpoint_at(book, place).ok_or(BookRefusal::DamagedBook)?;
    Ok(Kept { setpoint, version })
}
