//! The list of the library's functions, once: the name without `skid_`, what a call is given, and how many words it
//! replies. tests/signatures.py writes it from the exported functions of crates/skid/src, and the gate compares.

/// Hands the list to a macro.
macro_rules! for_every_call {
    ($write:ident) => {
        $write! {
            // calls: begin
            /// The head is the one that is to be made: its next serial is the first one.
            prepare(head: Head, table: &mut [u32], health: &mut [u8]) -> REPLY;
            salvage(
                head: Head, table: &mut [u32], health: &mut [u8], report: &mut [u32],
                unconfirmed: &mut [u32],
            ) -> SALVAGE;
            try_acquire(head: Head, table: &mut [u32], cell: u32) -> REPLY;
            drop_lease(head: Head, table: &mut [u32], lease: Lease) -> REPLY;
            read_permission(head: Head, table: &[u32], lease: Lease) -> REPLY;
            competing_acquire_is_excluded(head: Head, table: &mut [u32], lease: Lease) -> REPLY;
            release_then_handoff(head: Head, table: &mut [u32], lease: Lease) -> REPLY;
            foreign_release_between_attempts(
                head: Head, table: &mut [u32], held: &[u32], lease: Lease,
            ) -> REPLY;
            acquire_preserving_borrows(
                head: Head, table: &mut [u32], held: &[u32], cell: u32,
            ) -> REPLY;
            drop_preserving_borrows(
                head: Head, table: &mut [u32], held: &[u32], lease: Lease,
            ) -> REPLY;
            environment(
                head: Head, table: &mut [u32], health: &mut [u8], script: &[u32], place: usize,
                held: &[u32],
            ) -> REPLY;
            environment_for_borrows(
                head: Head, table: &mut [u32], health: &mut [u8], script: &[u32], place: usize,
                held: &[u32],
            ) -> REPLY;
            try_lock(
                head: Head, table: &mut [u32], health: &mut [u8], script: &[u32], place: usize,
                held: &[u32], cell: u32,
            ) -> REPLY;
            other_mutex_preserves_leases(
                head: Head, table: &mut [u32], health: &mut [u8], script: &[u32], place: usize,
                held: &[u32], cell: u32,
            ) -> REPLY;
            transactional_try_lock_bucket(
                head: Head, table: &mut [u32], health: &mut [u8], registry: &[u32], script: &[u32],
                place: usize, held: &[u32], key: Key,
            ) -> REPLY;
            acquire_index_bucket(
                head: Head, table: &mut [u32], health: &mut [u8], registry: &[u32], script: &[u32],
                place: usize, held: &[u32], key: Key,
            ) -> REPLY;
            release_all(
                head: Head, table: &mut [u32], health: &mut [u8], script: &[u32], place: usize,
                leases: &[u32],
            ) -> REPLY;
            acquire_index_locks(
                head: Head, table: &mut [u32], health: &mut [u8], registry: &[u32], script: &[u32],
                place: usize, held: &[u32], keys: &[u32], grants: &mut [u32],
            ) -> REPLY;
            acquire_sorted_locks(
                head: Head, table: &mut [u32], health: &mut [u8], registry: &[u32], script: &[u32],
                place: usize, held: &[u32], keys: &[u32], grants: &mut [u32],
            ) -> REPLY;
            crew(
                head: Head, table: &mut [u32], health: &[u8], counts: &[u32], cells: &[u32],
                turns: &[u32],
            ) -> CREW;
            crew_at_work(
                head: Head, table: &mut [u32], health: &[u8], counts: &[u32], cells: &[u32],
                turns: &[u32], counters: &mut [u16],
            ) -> CREW;
            prepare_book(head: Head, book: &mut [u8]) -> BOOK;
            write_pressure(
                head: Head, table: &[u32], book: &mut [u8], slot: u32, lease: Lease, bits: u32,
            ) -> BOOK;
            write_speed(
                head: Head, table: &[u32], book: &mut [u8], slot: u32, lease: Lease, speed: u32,
            ) -> BOOK;
            write_valve(
                head: Head, table: &[u32], book: &mut [u8], slot: u32, lease: Lease, opened: bool,
            ) -> BOOK;
            read_setpoint(head: Head, book: &[u8], slot: u32) -> BOOK;
            read_version(head: Head, book: &[u8], slot: u32, version: u32) -> BOOK;
            write_dump(cells: u32, script: &[u32], text: &mut [u8]) -> WAVE;
            read_dump(text: &[u8], script: &mut [u32]) -> WAVE;
            // calls: end
        }
    };
}
pub(super) use for_every_call;
