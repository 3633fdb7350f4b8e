//! The setpoint book: its length, writes, and reads of what is kept and what is not.

use super::Writer;
use crate::build::Build;
use crate::desk;

/// "one slot for each cell, at most the first 64"; the greatest length; lines of a slot, and bytes of a line and a body.
const MOST_SLOTS: u32 = 64;
const MOST_BYTES: usize = 32_768;
pub(super) const KEPT: u32 = 4;
pub(super) const LINE: u32 = 8;
pub(super) const BODY: u32 = 5;

/// What a build replies to a read of a damaged book.
const DAMAGED: [u64; 2] = [3, 103];

/// Pressures: zero and minus zero, the least and greatest that are finite, infinities and no numbers.
const PRESSURES: [u32; 14] = [
    0,
    0x8000_0000,
    1,
    0x8000_0001,
    0x3f80_0000,
    0xc120_0000,
    0x007f_ffff,
    0x7f7f_ffff,
    0xff7f_ffff,
    0x7f80_0000,
    0xff80_0000,
    0x7f80_0001,
    0x7fc0_0000,
    u32::MAX,
];
/// How many of them are finite: the first.
const FINITE: usize = 9;

impl<B: Build, J: Build + Clone, K: FnMut(&mut B, &[u8], &[u8]) -> bool> Writer<B, J, K> {
    pub(super) fn slots(&self) -> u32 {
        self.cells().min(MOST_SLOTS)
    }

    /// The bytes of the table of contents.
    pub(super) fn contents(&self) -> u32 {
        LINE * KEPT * self.slots()
    }

    /// Whether the lent book is as long as its contents at least, and no longer than the limit.
    pub(super) fn book_fits(&self) -> bool {
        (self.contents() as usize..=MOST_BYTES).contains(&self.desk.lent_book)
    }

    /// Whether a read of the book says that it is damaged.
    pub(super) fn is_damaged(&self) -> bool {
        let book = &self.desk.book[..self.desk.lent_book];
        let mut judge = self.judge.clone();
        judge.read_setpoint(self.desk.head, book, 0)[..2] == DAMAGED
    }

    /// Lends the book anew: mostly with room for a few bodies, and a few bytes more.
    pub(super) fn lend_book(&mut self) {
        let contents = self.contents();
        let bytes = match self.dice.below(24) {
            0 => contents - 1,
            1 => self.dice.number(contents),
            2 => 0,
            3..=4 => self.dice.pick(&[32_768, 32_769, 32_769, 33_000]),
            5 => self.dice.number(desk::BOOK as u32 + 1),
            6 => contents + self.dice.number(BODY),
            7..=9 => contents + BODY * KEPT * self.slots() + self.dice.number(40),
            10 => contents + BODY * (KEPT * self.slots() - 1),
            _ => {
                let bodies = self.dice.number(9) + 1;
                contents + BODY * bodies + self.dice.pick(&[0, 0, 1, 2, 3, 4])
            }
        };
        self.write("book", &[bytes]);
    }

    /// One call of the book or a few, and what surrounds them.
    pub(super) fn book(&mut self) {
        if self.dice.once_in(if self.book_fits() { 20 } else { 2 }) {
            self.lend_book();
        }
        // so is a book of another arena, or of rubbish
        let damaged = self.is_damaged();
        if self.dice.once_in(if damaged { 2 } else { 30 }) {
            self.write("prepare_book", &[]);
        }
        for _ in 0..self.dice.below(2) + 1 {
            match self.dice.below(32) {
                0..=8 => self.set(),
                9 => self.write_with_wrong_table(),
                10..=12 => {
                    let slot = self.low_slot();
                    self.write_slot(slot);
                }
                13..=15 => {
                    let slot = self.slot();
                    self.write("read_setpoint", &[slot]);
                }
                16..=19 => {
                    let slot = self.slot();
                    self.read_version(slot);
                }
                20..=21 => self.write_often(),
                22..=23 => self.book_of_another(),
                _ => self.damage_book(),
            }
        }
        if self.dice.once_in(6) {
            self.show_book();
        }
    }

    /// A slot: mostly one of a few, or one that a setpoint stands in.
    pub(super) fn slot(&mut self) -> u32 {
        let slots = self.slots();
        match self.dice.below(30) {
            0 => slots,
            1 => self.dice.odd_number(),
            2 => slots - 1,
            3..=5 => self.dice.number(slots),
            6..=10 => self.low_slot(),
            _ => self.slot_in_use(),
        }
    }

    /// One of the first slots.
    pub(super) fn low_slot(&mut self) -> u32 {
        self.dice.number(self.slots().min(4))
    }

    /// A slot whose newest line is not all 0, if there is one among the first.
    pub(super) fn slot_in_use(&mut self) -> u32 {
        let slots = self.slots().min(12);
        let used: Vec<u32> = (0..slots).filter(|&slot| self.newest(slot) > 0).collect();
        match used.is_empty() {
            true => self.low_slot(),
            false => self.dice.pick(&used),
        }
    }

    /// The version of a slot's first line, as it stands in the book.
    pub(super) fn newest(&self, slot: u32) -> u32 {
        let at = (LINE * KEPT * slot.min(MOST_SLOTS - 1)) as usize;
        let version = &self.desk.book[at + 4..at + 8];
        u32::from_le_bytes([version[0], version[1], version[2], version[3]])
    }

    pub(super) fn setpoint(&mut self) -> (&'static str, u32) {
        match self.dice.below(12) {
            0..=4 => ("pressure", self.dice.pick(&PRESSURES)),
            5 => ("pressure", self.dice.roll() as u32),
            _ => self.finite_setpoint(),
        }
    }

    pub(super) fn finite_setpoint(&mut self) -> (&'static str, u32) {
        match self.dice.below(7) {
            0 => ("pressure", self.dice.pick(&PRESSURES[..FINITE])),
            1..=3 => ("speed", self.dice.odd_number()),
            _ => ("valve", self.dice.number(2)),
        }
    }

    /// `write_setpoint` with a lease that may be any, mostly of the slot's cell.
    pub(super) fn set(&mut self) {
        let lease = self.lease();
        let slot = match self.dice.below(6) {
            0 => self.slot(),
            _ => lease[0],
        };
        let (kind, value) = self.setpoint();
        self.write_setpoint(slot, lease, kind, value);
    }

    /// A lease of a slot's cell, which is taken if it is free: a live one, unless the cell is damaged.
    pub(super) fn lease_of_slot(&mut self, slot: u32) -> [u32; 3] {
        if self.words(slot)[..2] == [0, 0] {
            self.write("try_acquire", &[slot]);
        }
        [slot, self.words(slot)[1], self.boot()]
    }

    /// `write_setpoint` that is done, if the book is sound and has room.
    pub(super) fn write_slot(&mut self, slot: u32) {
        let lease = self.lease_of_slot(slot);
        let (kind, value) = self.finite_setpoint();
        self.write_setpoint(slot, lease, kind, value);
    }

    /// `write_setpoint` of a slot's cell, where the lease, the setpoint or both may be wrong too.
    pub(super) fn write_doubtfully(&mut self, slot: u32) {
        let [cell, serial, boot] = self.lease_of_slot(slot);
        let lease = match self.dice.below(8) {
            0 => self.of_another_boot([cell, serial, boot]),
            1 => [cell, serial.wrapping_add(1), boot],
            _ => [cell, serial, boot],
        };
        let (kind, value) = match self.dice.once_in(8) {
            true => ("pressure", self.dice.pick(&PRESSURES[FINITE..])),
            false => self.finite_setpoint(),
        };
        self.write_setpoint(slot, lease, kind, value);
    }

    /// A write with a word of the table too few or too many, which may have other faults too.
    fn write_with_wrong_table(&mut self) {
        let slot = self.slot();
        if self.desk.lent.is_some() {
            return self.write_doubtfully(slot);
        }
        let (words, bytes) = self.desk.lent(self.desk.head);
        let other = self.dice.pick(&[words.saturating_sub(1), words + 1]);
        let other = other.min(desk::TABLE) as u32;
        self.write("lend", &[other, bytes as u32]);
        self.write_doubtfully(slot);
        self.write("lend", &[]);
    }

    /// `read_version` of a slot: a version that is kept, one that was dropped, none, one that is not yet written, any.
    pub(super) fn read_version(&mut self, slot: u32) {
        let newest = self.newest(slot);
        let version = match self.dice.below(12) {
            0 => 0,
            1 => newest.wrapping_add(1),
            2 => self.dice.odd_number(),
            3..=4 => newest.wrapping_sub(KEPT),
            5 => newest.saturating_sub(KEPT + self.dice.number(3)),
            _ => newest.saturating_sub(self.dice.number(KEPT)),
        };
        self.write("read_version", &[slot, version]);
    }

    /// Several writes to two slots or one of a book of little room, by which settings are dropped, bodies slide, and the
    /// room ends; and reads of what is kept then.
    fn write_often(&mut self) {
        let bodies = self.dice.number(4) + 3;
        let more = self.dice.pick(&[0, 0, 1, 2, 3, 4]);
        let bytes = self.contents() + BODY * bodies + more;
        self.write("book", &[bytes]);
        self.write("prepare_book", &[]);
        if more > 0 && self.dice.once_in(2) {
            self.write("book_byte", &[bytes - 1, 7]);
        }
        let slots = [self.low_slot(), self.low_slot()];
        self.write_slot(slots[1]);
        for _ in 0..self.dice.below(6) + 4 {
            let slot = self.dice.pick(&[slots[0], slots[0], slots[0], slots[1]]);
            match self.dice.once_in(6) {
                true => self.write_doubtfully(slot),
                false => self.write_slot(slot),
            }
        }
        self.read_version(slots[0]);
        if self.dice.once_in(4) {
            self.write("book", &[bytes + BODY]);
            self.write_slot(slots[1]);
        }
    }
}
