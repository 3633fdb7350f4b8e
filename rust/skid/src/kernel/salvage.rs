use super::memory::{PerBucket, PerHeader};
use super::{Arena, Buckets, Headers, Lease, Memory};
use crate::{Change, Head, SalvageRefusal, CELL_WORDS};

/// Room for all that a salvage of such a memory can find, so that it is never [`SalvageRefusal::ReportFull`]. It has 56
/// bytes a cell: of a large arena it is better a static than on the stack.
#[derive(Clone, Debug)]
pub struct Report<H: PerHeader, B: PerBucket> {
    // A change for each word and each health byte: (3 x B + 1) x H, at most this.
    changes: H::Of<B::Of<[Change; CELL_WORDS + 1]>>,
    cells: H::Of<B::Of<u32>>,
    owners: H::Of<B::Of<u32>>,
}

impl<const H: usize, const B: usize> Report<Headers<H>, Buckets<B>> {
    /// Empty.
    pub const fn new() -> Self {
        let () = Memory::<Headers<H>, Buckets<B>>::FITS;
        let none = Change {
            place: 0,
            old: 0,
            new: 0,
        };
        Report {
            changes: [[[none; CELL_WORDS + 1]; B]; H],
            cells: [[0; B]; H],
            owners: [[0; B]; H],
        }
    }

    /// Salvages table and health by this head, and tells what was found.
    fn salvaged(
        &mut self,
        head: Head,
        table: &mut [u32],
        health: &mut [u8],
    ) -> Result<Salvaged<'_>, SalvageRefusal> {
        let changes = self.changes.as_flattened_mut().as_flattened_mut();
        let cells = self.cells.as_flattened_mut();
        let owners = self.owners.as_flattened_mut();
        let (calls, found) = crate::Arena::salvage(head, table, health, changes, cells)?;
        for (owner, cell) in owners.iter_mut().zip(&cells[..found.held]) {
            *owner = calls.table()[CELL_WORDS * *cell as usize + 1];
        }
        let left = Left {
            cells: &cells[..found.held],
            owners: &owners[..found.held],
            boot: head.boot,
        };
        let changes = &changes[..found.changed];
        Ok(Salvaged { changes, left })
    }
}

impl<const H: usize, const B: usize> Default for Report<Headers<H>, Buckets<B>> {
    fn default() -> Self {
        Self::new()
    }
}

/// What a salvage found.
#[derive(Debug)]
#[must_use = "each cell left held is to be confirmed or given back"]
pub struct Salvaged<'r> {
    /// Each word and byte that it changed, rising.
    pub changes: &'r [Change],
    /// The cells left held.
    pub left: Left<'r>,
}

/// The leases of the cells left held, rising: each is to be confirmed by its owner or given back. They come once.
#[derive(Debug)]
#[must_use = "each cell left held is to be confirmed or given back"]
pub struct Left<'r> {
    cells: &'r [u32],
    owners: &'r [u32],
    boot: u32,
}

impl Iterator for Left<'_> {
    type Item = Lease;

    fn next(&mut self) -> Option<Lease> {
        let (&cell, cells) = self.cells.split_first()?;
        let (&serial, owners) = self.owners.split_first()?;
        (self.cells, self.owners) = (cells, owners);
        Some(Lease(crate::Lease {
            cell,
            serial,
            boot: self.boot,
        }))
    }

    fn size_hint(&self) -> (usize, Option<usize>) {
        (self.cells.len(), Some(self.cells.len()))
    }
}

impl ExactSizeIterator for Left<'_> {}

impl<'a> Arena<'a> {
    /// After a power dip: mends the arena by the last head, which was kept on paper. Damaged cells become free, waiters
    /// 0, health bytes 0 or 1; sound cells keep their owners. [`SalvageRefusal::BadShape`] if the paper is not of this
    /// memory. An older head than the last one frees leases that were given since, and gives their serials out again.
    ///
    /// ```
    /// use skid::kernel::{Arena, Buckets, Headers, Key, Memory, Report};
    ///
    /// let mut memory = Memory::<Headers<2>, Buckets<4>>::new();
    /// let mut report = Report::<Headers<2>, Buckets<4>>::new();
    /// let mut arena = Arena::open(&mut memory, &[0, 1], 1);
    /// let numbers = arena.take(Key { binding: 0, bucket: 2 }).unwrap().into_raw();
    /// let paper = arena.head();
    /// memory.as_mut_slices().0[0] = 7; // the dip
    /// let (mut arena, found) = Arena::salvage(paper, &mut memory, &[0, 1], &mut report)?;
    /// assert_eq!((found.changes[0].old, found.changes[0].new), (7, 0));
    /// for lease in found.left {
    ///     assert_eq!(lease.cell(), numbers.cell);
    ///     arena.give(lease).unwrap(); // or kept, if its owner wants it
    /// }
    /// # Ok::<(), skid::SalvageRefusal>(())
    /// ```
    pub fn salvage<'r, const H: usize, const B: usize, const BINDINGS: usize>(
        paper: Head,
        memory: &'a mut Memory<Headers<H>, Buckets<B>>,
        registry: &'a [u32; BINDINGS],
        report: &'r mut Report<Headers<H>, Buckets<B>>,
    ) -> Result<(Arena<'a>, Salvaged<'r>), SalvageRefusal> {
        let () = Memory::<Headers<H>, Buckets<B>>::FITS;
        Self::registry_fits::<BINDINGS>();
        let (table, health) = memory.as_mut_slices();
        let found = report.salvaged(paper, table, health)?;
        let calls = crate::Arena::resume(paper, table, health);
        Ok((Arena { calls, registry }, found))
    }

    /// Mends an open arena in place, by the head in force: where a stray write has hit it, [`Refusal::Damaged`]. It
    /// tells what was changed. Leases that were live stay so, with their owners; waiters become 0.
    /// [`SalvageRefusal::ReportFull`] if the report is of a smaller memory and has no room: then nothing was mended.
    ///
    /// [`Refusal::Damaged`]: crate::Refusal::Damaged
    pub fn mend<'r, const H: usize, const B: usize>(
        &mut self,
        report: &'r mut Report<Headers<H>, Buckets<B>>,
    ) -> Result<&'r [Change], SalvageRefusal> {
        let head = self.head();
        let found = report.salvaged(head, self.calls.table, self.calls.health)?;
        Ok(found.changes)
    }
}
