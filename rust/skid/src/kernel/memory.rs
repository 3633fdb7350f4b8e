use crate::{CELL_WORDS, MAX_BUCKETS, MAX_CELLS, MAX_HEADERS};

/// So many headers: the first number of a [`Memory`] and of a [`super::Report`].
#[derive(Clone, Copy, Debug, PartialEq, Eq)]
pub struct Headers<const N: usize>;

/// So many buckets per header: the second number.
#[derive(Clone, Copy, Debug, PartialEq, Eq)]
pub struct Buckets<const N: usize>;

mod sealed {
    pub trait Number {}
    impl<const N: usize> Number for super::Headers<N> {}
    impl<const N: usize> Number for super::Buckets<N> {}
}

/// Of [`Headers`] alone.
#[diagnostic::on_unimplemented(
    message = "headers stand first: `Memory<Headers<H>, Buckets<B>>`, and so in a report"
)]
pub trait PerHeader: sealed::Number {
    /// One of these for each header.
    type Of<T>;
}

impl<const N: usize> PerHeader for Headers<N> {
    type Of<T> = [T; N];
}

/// Of [`Buckets`] alone.
#[diagnostic::on_unimplemented(
    message = "buckets stand second: `Memory<Headers<H>, Buckets<B>>`, and so in a report"
)]
pub trait PerBucket: sealed::Number {
    /// One of these for each bucket of a header.
    type Of<T>;
}

impl<const N: usize> PerBucket for Buckets<N> {
    type Of<T> = [T; N];
}

/// Table and health of an arena, of exactly the right lengths. Another shape than 1 to 64 headers, 1 to 1,024 buckets
/// and at most 4,096 cells does not compile, and headers and buckets cannot be exchanged:
///
/// ```
/// use skid::kernel::{Buckets, Headers, Memory};
/// let memory = Memory::<Headers<2>, Buckets<4>>::new();
/// ```
///
/// ```compile_fail
/// use skid::kernel::{Buckets, Headers, Memory};
/// let memory = Memory::<Headers<65>, Buckets<1>>::new();
/// ```
///
/// ```compile_fail,E0277
/// use skid::kernel::{Buckets, Headers, Memory};
/// let memory = Memory::<Buckets<4>, Headers<2>>::new();
/// ```
///
/// Any bytes are such a memory, so it may stand in a section that a cold start does not clear. It has 12 bytes a cell and
/// one a header.
#[derive(Clone, Debug, PartialEq, Eq)]
#[repr(C)]
pub struct Memory<H: PerHeader, B: PerBucket> {
    table: H::Of<B::Of<[u32; CELL_WORDS]>>,
    health: H::Of<u8>,
}

impl<const H: usize, const B: usize> Memory<Headers<H>, Buckets<B>> {
    pub(super) const FITS: () = assert!(
        H >= 1 && H <= MAX_HEADERS && B >= 1 && B <= MAX_BUCKETS && H * B <= MAX_CELLS,
        "1 to 64 headers, 1 to 1,024 buckets, at most 4,096 cells"
    );

    /// All zeros. Opening writes every word, whatever it holds.
    pub const fn new() -> Self {
        let () = Self::FITS;
        Memory {
            table: [[[0; CELL_WORDS]; B]; H],
            health: [0; H],
        }
    }

    /// The words of the table and the bytes of the health, as RAM holds them: for trials. No arena borrows the memory
    /// meanwhile.
    pub fn as_mut_slices(&mut self) -> (&mut [u32], &mut [u8]) {
        let table = self.table.as_flattened_mut().as_flattened_mut();
        (table, &mut self.health)
    }
}

impl<const H: usize, const B: usize> Default for Memory<Headers<H>, Buckets<B>> {
    fn default() -> Self {
        Self::new()
    }
}
