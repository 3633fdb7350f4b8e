use super::{Arena, Lease};
use crate::{BookAnswer, BookRefusal, Setpoint, LONGEST_BOOK, ROOMY_BYTES, SLOTS};

/// Memory of a book that is never full: room for the four newest settings of every slot. 1 to 64 slots, one for each
/// cell of the arena up to 64; another number does not compile.
#[derive(Clone, Debug, PartialEq, Eq)]
#[repr(C)]
pub struct BookMemory<const COUNT: usize> {
    bytes: [[u8; ROOMY_BYTES]; COUNT],
}

impl<const COUNT: usize> BookMemory<COUNT> {
    const FITS: () = assert!(COUNT >= 1 && COUNT <= SLOTS as usize, "1 to 64 slots");

    /// All zeros.
    pub const fn new() -> Self {
        let () = Self::FITS;
        BookMemory {
            bytes: [[0; ROOMY_BYTES]; COUNT],
        }
    }

    /// Its bytes as RAM holds them: for trials.
    pub fn as_mut_slice(&mut self) -> &mut [u8] {
        self.bytes.as_flattened_mut()
    }
}

impl<const COUNT: usize> Default for BookMemory<COUNT> {
    fn default() -> Self {
        Self::new()
    }
}

const _: () = assert!(SLOTS as usize * ROOMY_BYTES <= LONGEST_BOOK);

/// What a write did.
#[derive(Clone, Copy, Debug, PartialEq, Eq, PartialOrd, Ord, Hash)]
pub struct Written {
    /// The slot's new version, from 1.
    pub version: u32,
    /// The bytes of kept settings that moved to make room.
    pub moved: u32,
}

/// A setpoint and its version.
#[derive(Clone, Copy, Debug, PartialEq)]
pub struct Setting {
    /// What was set.
    pub setpoint: Setpoint,
    /// Its version, from 1.
    pub version: u32,
}

/// The setpoint book: the newest four settings of each of the first 64 cells.
///
/// ```
/// use skid::kernel::{Arena, Book, BookMemory, Buckets, Headers, Key, Memory, Setpoint};
///
/// let (mut memory, mut pages) = (Memory::<Headers<2>, Buckets<4>>::new(), BookMemory::<8>::new());
/// let mut arena = Arena::open(&mut memory, &[0, 1], 1);
/// let mut book = Book::open(&arena, &mut pages)?;
/// let valve = arena.take(Key { binding: 0, bucket: 2 }).unwrap();
/// let written = book.write(&arena, &valve, Setpoint::Pressure(1.5))?;
/// assert_eq!((written.version, written.moved), (1, 0));
/// assert_eq!(book.read(&arena, 2)?.setpoint, Setpoint::Pressure(1.5));
/// arena.give(valve).unwrap();
/// # Ok::<(), skid::BookRefusal>(())
/// ```
#[derive(Debug)]
pub struct Book<'b>(&'b mut [u8]);

fn setting(answer: BookAnswer) -> Result<Setting, BookRefusal> {
    match answer {
        BookAnswer::Setting(setpoint, version) => Ok(Setting { setpoint, version }),
        BookAnswer::Refused(refusal) => Err(refusal),
        // A read gives one of these two.
        BookAnswer::Done | BookAnswer::Written { .. } => Err(BookRefusal::NeverWritten),
    }
}

impl<'b> Book<'b> {
    /// Forgets every setting: after a cold start, or where the book is [`BookRefusal::DamagedBook`]. It is
    /// [`BookRefusal::BadSlot`] if there are fewer slots than the arena has cells, up to 64.
    pub fn open<const COUNT: usize>(
        arena: &Arena<'_>,
        memory: &'b mut BookMemory<COUNT>,
    ) -> Result<Book<'b>, BookRefusal> {
        let () = BookMemory::<COUNT>::FITS;
        let bytes = memory.as_mut_slice();
        match arena.calls.prepare_book(bytes) {
            BookAnswer::Refused(refusal) => Err(refusal),
            _ => Ok(Book(bytes)),
        }
    }

    /// The book as it stands, after a dip: every read and write tests all of it first, and refuses a damaged one.
    pub fn resume<const COUNT: usize>(memory: &'b mut BookMemory<COUNT>) -> Book<'b> {
        let () = BookMemory::<COUNT>::FITS;
        Book(memory.as_mut_slice())
    }

    /// Writes a setpoint to the slot of the lease's own cell: who holds the valve sets the valve.
    pub fn write(
        &mut self,
        arena: &Arena<'_>,
        lease: &Lease,
        setpoint: Setpoint,
    ) -> Result<Written, BookRefusal> {
        let calls = &arena.calls;
        match calls.write_setpoint(self.0, lease.cell(), lease.0, setpoint) {
            BookAnswer::Written { version, moved } => Ok(Written { version, moved }),
            BookAnswer::Refused(refusal) => Err(refusal),
            // A write gives one of these two.
            BookAnswer::Done | BookAnswer::Setting(..) => Err(BookRefusal::BadShape),
        }
    }

    /// The newest setting of a slot; it needs no lease.
    pub fn read(&self, arena: &Arena<'_>, slot: u32) -> Result<Setting, BookRefusal> {
        setting(arena.calls.read_setpoint(self.0, slot))
    }

    /// One of the newest four, by its version.
    pub fn read_version(
        &self,
        arena: &Arena<'_>,
        slot: u32,
        version: u32,
    ) -> Result<Setting, BookRefusal> {
        setting(arena.calls.read_version(self.0, slot, version))
    }

    /// The kept settings of a slot, oldest first: at most four, none of a slot that was never written or cannot be
    /// read.
    pub fn history<'s>(
        &'s self,
        arena: &'s Arena<'_>,
        slot: u32,
    ) -> impl Iterator<Item = Setting> + 's {
        let newest = self.read(arena, slot).map_or(0, |newest| newest.version);
        let kept = newest.saturating_sub(crate::KEPT_VERSIONS);
        (kept + 1..=newest).filter_map(move |version| self.read_version(arena, slot, version).ok())
    }
}
