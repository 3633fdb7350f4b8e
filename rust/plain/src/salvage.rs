//! Request L6 of document 02: salvage after a warm restart. "Power dips, RAM mostly survives, and I hold the last head
//! on paper. Given that head, go over the arena".
//!
//! No argument makes it panic. Refusals change nothing.

use crate::rules::{self, Head};
use std::slice::ChunksExactMut;

/// Words of an entry of the report: "place, old, new".
pub const ENTRY: usize = 3;

/// What the salvage gives back; the head is the one that it was given. "Salvage keeps the boot number of the head it was
/// given" (L8).
#[derive(Clone, Copy, Debug, PartialEq, Eq)]
pub struct SalvageReply {
    pub head: Head,
    pub answer: Result<Salvaged, SalvageRefusal>,
}

/// How many words and bytes were changed, and how many cells were left held: the entries of report and list.
#[derive(Clone, Copy, Debug, Default, PartialEq, Eq)]
pub struct Salvaged {
    pub changed: usize,
    pub held: usize,
}

#[derive(Clone, Copy, Debug, PartialEq, Eq)]
pub enum SalvageRefusal {
    /// Refusal 1 of document 01.
    BadShape,
    /// "the report or that list cannot hold all its entries".
    ReportFull,
}

/// "damaged cells become free, all waiters become 0, health bytes other than 0 and 1 become 1, and sound cells keep
/// their bit and owner. A lent report lists each word or byte changed: place, old, new, in rising order, health places
/// counting on from the table's. Cells left held are listed apart as unconfirmed." Words behind the entries are left
/// alone.
pub fn salvage(
    head: Head,
    table: &mut [u32],
    health: &mut [u8],
    report: &mut [u32],
    unconfirmed: &mut [u32],
) -> SalvageReply {
    let answer = if rules::is_arena(head, table, health) {
        let found = look(head.next, table, health);
        if report.len() / ENTRY < found.changed || unconfirmed.len() < found.held {
            Err(SalvageRefusal::ReportFull)
        } else {
            if found.held > 0 {
                list(head.next, table, unconfirmed);
            }
            if found.changed > 0 {
                mend(head.next, table, health, report);
            }
            Ok(found)
        }
    } else {
        Err(SalvageRefusal::BadShape)
    };
    SalvageReply { head, answer }
}

/// Held: bit 1, owner from 1 to next - 1.
fn is_held(bit: u32, owner: u32, next: u32) -> bool {
    bit == 1 && rules::is_issued(owner, next)
}

/// What there is to change, and what is held. Of a held cell the waiters become 0, of any other every word. Most are all 0.
#[inline(never)]
fn look(next: u32, table: &[u32], health: &[u8]) -> Salvaged {
    let mut found = Salvaged::default();
    for cell in table.chunks_exact(3) {
        let (bit, owner, waiters) = (cell[0], cell[1], cell[2]);
        if bit | owner | waiters == 0 {
            continue;
        }
        if is_held(bit, owner, next) {
            found.held += 1;
        } else {
            found.changed += usize::from(bit != 0) + usize::from(owner != 0);
        }
        found.changed += usize::from(waiters != 0);
    }
    found.changed += health.iter().filter(|&&byte| byte > 1).count();
    found
}

/// Lists the cells left held. There is room for all.
#[inline(never)]
fn list(next: u32, table: &[u32], unconfirmed: &mut [u32]) {
    let mut room = unconfirmed.iter_mut();
    for (number, cell) in (0..).zip(table.chunks_exact(3)) {
        if is_held(cell[0], cell[1], next) {
            if let Some(entry) = room.next() {
                *entry = number;
            }
        }
    }
}

/// Makes the changes, and lists them. There is room for all.
#[inline(never)]
fn mend(next: u32, table: &mut [u32], health: &mut [u8], report: &mut [u32]) {
    let mut entries = report.chunks_exact_mut(ENTRY);
    for (number, cell) in (0..).zip(table.chunks_exact_mut(3)) {
        let (bit, owner, waiters) = (cell[0], cell[1], cell[2]);
        if bit | owner | waiters == 0 {
            continue;
        }
        if !is_held(bit, owner, next) {
            (cell[0], cell[1]) = (0, 0);
            enter(&mut entries, 3 * number, bit);
            enter(&mut entries, 3 * number + 1, owner);
        }
        cell[2] = 0;
        enter(&mut entries, 3 * number + 2, waiters);
    }
    for (place, byte) in (table.len() as u32..).zip(health) {
        if *byte > 1 {
            if let Some(entry) = entries.next() {
                entry.copy_from_slice(&[place, u32::from(*byte), 1]);
            }
            *byte = 1;
        }
    }
}

/// The entry of a word that becomes 0, if it was not.
#[inline(always)]
fn enter(entries: &mut ChunksExactMut<u32>, place: u32, old: u32) {
    if old != 0 {
        if let Some(entry) = entries.next() {
            entry.copy_from_slice(&[place, old, 0]);
        }
    }
}
