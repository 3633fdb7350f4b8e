use crate::MAX_LEASES;

/// A cell that is ours, until it is given back: whoever gives it back has it no longer.
///
/// ```compile_fail,E0382
/// # use skid::kernel::{Arena, Buckets, Headers, Key, Memory};
/// # let mut memory = Memory::<Headers<2>, Buckets<4>>::new();
/// # let mut arena = Arena::open(&mut memory, &[0, 1], 1);
/// let lease = arena.take(Key { binding: 0, bucket: 0 }).unwrap();
/// arena.give(lease).unwrap();
/// arena.give(lease).unwrap();
/// ```
#[derive(Debug, PartialEq, Eq, PartialOrd, Ord, Hash)]
#[must_use = "a lease that is forgotten leaves its cell held"]
pub struct Lease(pub(super) crate::Lease);

impl Lease {
    /// The cell: header x B + bucket.
    pub const fn cell(&self) -> u32 {
        self.0.cell
    }

    /// The serial that owns the cell.
    pub const fn serial(&self) -> u32 {
        self.0.serial
    }

    /// The boot number of the opening that it is from.
    pub const fn boot(&self) -> u32 {
        self.0.boot
    }

    /// Its three numbers, to be kept where a dip does not reach them. The cell stays held.
    pub const fn into_raw(self) -> crate::Lease {
        self.0
    }

    /// The lease of three numbers that were kept. Calls believe none of them: one that is not live is refused.
    pub const fn from_raw(numbers: crate::Lease) -> Lease {
        Lease(numbers)
    }
}

/// A lease for each of N keys. Keys of one cell share one lease, which has one owner: this.
#[derive(Debug, PartialEq, Eq)]
#[must_use = "leases that are forgotten leave their cells held"]
pub struct Grants<const N: usize>(pub(super) [Lease; N]);

impl<const N: usize> Grants<N> {
    pub(super) const FITS: () = assert!(N <= MAX_LEASES, "at most 64 keys");

    /// The lease of the key at this position.
    pub fn get(&self, position: usize) -> Option<&Lease> {
        self.0.get(position)
    }

    /// The leases of the keys, in their order; one that two keys share comes twice.
    pub fn iter(&self) -> core::slice::Iter<'_, Lease> {
        self.0.iter()
    }

    /// The position of the first key of each cell, rising.
    pub(super) fn firsts(&self) -> impl Iterator<Item = usize> + '_ {
        (0..N).filter(|&at| !self.0[..at].contains(&self.0[at]))
    }

    /// The leases one by one, each once, by the first key that asks for it.
    pub fn into_leases(self) -> impl Iterator<Item = Lease> {
        let mut at = 0;
        core::iter::from_fn(move || {
            while at < N && self.0[..at].contains(&self.0[at]) {
                at += 1;
            }
            at += 1;
            self.0.get(at - 1).map(|lease| Lease(lease.0))
        })
    }
}

impl<'g, const N: usize> IntoIterator for &'g Grants<N> {
    type Item = &'g Lease;
    type IntoIter = core::slice::Iter<'g, Lease>;

    fn into_iter(self) -> Self::IntoIter {
        self.iter()
    }
}
