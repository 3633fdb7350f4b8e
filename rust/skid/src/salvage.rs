//! Salvage after a warm restart (document 02, L6): an arena mended by the head that was kept on paper.
use crate::{raw, Arena, Head};

/// A word or byte that a salvage changed.
#[derive(Clone, Copy, Debug, Default, PartialEq, Eq, PartialOrd, Ord, Hash)]
#[repr(C)]
pub struct Change {
    /// A word of the table, from 0; from 3 x H x B on, a health byte.
    pub place: u32,
    /// What stood there.
    pub old: u32,
    /// What stands there now.
    pub new: u32,
}

/// What a salvage found.
#[derive(Clone, Copy, Debug, PartialEq, Eq)]
pub struct Salvaged {
    /// How many changes stand in the report.
    pub changed: usize,
    /// How many cells were left held, and stand in the list.
    pub held: usize,
}

/// The refusals of a salvage. Each changes no lent word.
#[derive(Clone, Copy, Debug, PartialEq, Eq, PartialOrd, Ord, Hash)]
#[non_exhaustive]
pub enum SalvageRefusal {
    /// Document 01's 1: the head or a length breaks the arena's rules.
    BadShape,
    /// The report or the list of cells left held has no room for all its entries.
    ReportFull,
}

impl<'a> Arena<'a> {
    /// Power dipped, and RAM mostly survived. Goes over the arena by the head that was kept on paper: a damaged cell
    /// becomes free, all waiters become 0, a health byte other than 0 and 1 becomes 1; a sound cell keeps its bit and
    /// owner. The report has each word or byte changed, in rising order of places; `unconfirmed` has the cells left
    /// held, rising. What stands behind the entries of both is left alone. Refused before the first change:
    /// [`SalvageRefusal::BadShape`], then [`SalvageRefusal::ReportFull`]. A second salvage reports no change. The boot
    /// number is not tested, and stays what the head says.
    ///
    /// The head must be the last one: by an older head, leases issued since look damaged and are freed, and their
    /// serials are issued again; by one from before the last preparation, leases of that earlier boot number can be
    /// accepted again. A cell left held is not thereby confirmed: its owner is to confirm the lease or to drop it. RAM
    /// may have left one serial as the owner of two cells; both stand in the list, and the table says who owns each.
    ///
    /// ```
    /// use skid::{Arena, Change, Head};
    ///
    /// # let (mut table, mut health) = ([0u32; 24], [0u8; 2]);
    /// let (mut report, mut unconfirmed) = ([Change::default(); 26], [0; 8]);
    /// let head = Head { headers: 2, buckets: 4, next: 7, boot: 1 };
    /// let (arena, found) =
    ///     Arena::salvage(head, &mut table, &mut health, &mut report, &mut unconfirmed).unwrap();
    /// for change in &report[..found.changed] {
    ///     // for the service log
    ///     let _ = (change.place, change.old, change.new);
    /// }
    /// for cell in &unconfirmed[..found.held] {
    ///     let owner = arena.table()[3 * *cell as usize + 1];
    ///     // to be asked whether the lease is still wanted
    ///     let _ = owner;
    /// }
    /// ```
    pub fn salvage(
        head: Head,
        table: &'a mut [u32],
        health: &'a mut [u8],
        report: &mut [Change],
        unconfirmed: &mut [u32],
    ) -> Result<(Arena<'a>, Salvaged), SalvageRefusal> {
        let w = raw::salvage(head, table, health, raw::words_mut(report), unconfirmed);
        // The library gives no kind but 0 and 5, no refusal but 1 and 106, and the head as it was given.
        match (w[4], w[5]) {
            (0, changed) => {
                let found = Salvaged {
                    changed: changed as usize,
                    held: w[6] as usize,
                };
                Ok((Arena::resume(head, table, health), found))
            }
            (_, 1) => Err(SalvageRefusal::BadShape),
            _ => Err(SalvageRefusal::ReportFull),
        }
    }
}
