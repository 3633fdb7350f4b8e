//! A build of the rules: every call over lent slices, as include/skid.h has it, and the words that it replies.

/// The words of a reply, of the crew's, the salvage's, the book's and the waveform's.
pub type Reply = [u64; 15];
pub type CrewReply = [u64; 49];
pub type SalvageReply = [u64; 7];
pub type BookReply = [u64; 4];
pub type WaveReply = [u64; 3];

/// Header slots, buckets per header, the next serial, the boot number.
#[derive(Clone, Copy, Debug, Default, PartialEq, Eq)]
pub struct Head {
    pub headers: u32,
    pub buckets: u32,
    pub next: u32,
    pub boot: u32,
}

impl Head {
    /// The head of a reply: its first four words.
    pub fn of(reply: &[u64]) -> Head {
        Head {
            headers: reply[0] as u32,
            buckets: reply[1] as u32,
            next: reply[2] as u32,
            boot: reply[3] as u32,
        }
    }
}

/// Cell, serial, boot number.
#[derive(Clone, Copy, Debug, PartialEq, Eq)]
pub struct Lease {
    pub cell: u32,
    pub serial: u32,
    pub boot: u32,
}

/// A place in the registry, and a bucket.
#[derive(Clone, Copy, Debug, PartialEq, Eq)]
pub struct Key {
    pub binding: u32,
    pub bucket: u32,
}

/// Every call once: its name, what it is given, what it replies. `write!` makes something of the list; the types must be
/// in scope there. What is behind a `&` and no `&mut` no call may change.
#[macro_export]
macro_rules! for_every_call {
    ($write:ident) => {
        $write! {
            prepare(head: Head, table: &mut [u32], health: &mut [u8]) -> Reply;
            try_acquire(head: Head, table: &mut [u32], cell: u32) -> Reply;
            drop_lease(head: Head, table: &mut [u32], lease: Lease) -> Reply;
            read_permission(head: Head, table: &[u32], lease: Lease) -> Reply;
            competing_acquire_is_excluded(head: Head, table: &mut [u32], lease: Lease) -> Reply;
            release_then_handoff(head: Head, table: &mut [u32], lease: Lease) -> Reply;
            foreign_release_between_attempts(
                head: Head, table: &mut [u32], held: &[u32], lease: Lease,
            ) -> Reply;
            acquire_preserving_borrows(
                head: Head, table: &mut [u32], held: &[u32], cell: u32,
            ) -> Reply;
            drop_preserving_borrows(
                head: Head, table: &mut [u32], held: &[u32], lease: Lease,
            ) -> Reply;
            environment(
                head: Head, table: &mut [u32], health: &mut [u8], script: &[u32], place: usize,
                held: &[u32],
            ) -> Reply;
            environment_for_borrows(
                head: Head, table: &mut [u32], health: &mut [u8], script: &[u32], place: usize,
                held: &[u32],
            ) -> Reply;
            try_lock(
                head: Head, table: &mut [u32], health: &mut [u8], script: &[u32], place: usize,
                held: &[u32], cell: u32,
            ) -> Reply;
            other_mutex_preserves_leases(
                head: Head, table: &mut [u32], health: &mut [u8], script: &[u32], place: usize,
                held: &[u32], cell: u32,
            ) -> Reply;
            transactional_try_lock_bucket(
                head: Head, table: &mut [u32], health: &mut [u8], registry: &[u32], script: &[u32],
                place: usize, held: &[u32], key: Key,
            ) -> Reply;
            acquire_index_bucket(
                head: Head, table: &mut [u32], health: &mut [u8], registry: &[u32], script: &[u32],
                place: usize, held: &[u32], key: Key,
            ) -> Reply;
            release_all(
                head: Head, table: &mut [u32], health: &mut [u8], script: &[u32], place: usize,
                leases: &[u32],
            ) -> Reply;
            acquire_index_locks(
                head: Head, table: &mut [u32], health: &mut [u8], registry: &[u32], script: &[u32],
                place: usize, held: &[u32], keys: &[u32], grants: &mut [u32],
            ) -> Reply;
            acquire_sorted_locks(
                head: Head, table: &mut [u32], health: &mut [u8], registry: &[u32], script: &[u32],
                place: usize, held: &[u32], keys: &[u32], grants: &mut [u32],
            ) -> Reply;
            crew(
                head: Head, table: &mut [u32], health: &[u8], counts: &[u32], cells: &[u32],
                turns: &[u32],
            ) -> CrewReply;
            crew_at_work(
                head: Head, table: &mut [u32], health: &[u8], counts: &[u32], cells: &[u32],
                turns: &[u32], counters: &mut [u16],
            ) -> CrewReply;
            salvage(
                head: Head, table: &mut [u32], health: &mut [u8], report: &mut [u32],
                unconfirmed: &mut [u32],
            ) -> SalvageReply;
            prepare_book(head: Head, book: &mut [u8]) -> BookReply;
            write_pressure(
                head: Head, table: &[u32], book: &mut [u8], slot: u32, lease: Lease, bits: u32,
            ) -> BookReply;
            write_speed(
                head: Head, table: &[u32], book: &mut [u8], slot: u32, lease: Lease, speed: u32,
            ) -> BookReply;
            write_valve(
                head: Head, table: &[u32], book: &mut [u8], slot: u32, lease: Lease, open: bool,
            ) -> BookReply;
            read_setpoint(head: Head, book: &[u8], slot: u32) -> BookReply;
            read_version(head: Head, book: &[u8], slot: u32, version: u32) -> BookReply;
            write_dump(cells: u32, script: &[u32], text: &mut [u8]) -> WaveReply;
            read_dump(text: &[u8], script: &mut [u32]) -> WaveReply;
        }
    };
}
macro_rules! the_trait {
    ($($call:ident($($given:ident: $kind:ty),* $(,)?) -> $reply:ty;)*) => {
        /// A build of the rules.
        #[allow(clippy::too_many_arguments)]
        pub trait Build {
            $(fn $call(&mut self, $($given: $kind),*) -> $reply;)*
        }
    };
}
crate::for_every_call!(the_trait);
