//! The limits of include/skid.h, each once.

/// Words of a table for each cell: bit, owner, waiters.
pub const CELL_WORDS: usize = 3;
/// Words of a [`crate::Lease`], in a held list, a list to release or a grant buffer: cell, serial, boot number.
pub const LEASE_WORDS: usize = 3;
/// Words of a [`crate::Key`]: binding, bucket.
pub const KEY_WORDS: usize = 2;
/// A next serial at which none remains.
pub const NO_SERIAL: u32 = 4_294_967_295;
/// Attempts on a key before [`crate::Refusal::SerializationFailure`].
pub const ATTEMPTS: usize = 4096;
/// The most header slots, H.
pub const MAX_HEADERS: usize = 64;
/// The most buckets per header, B.
pub const MAX_BUCKETS: usize = 1024;
/// The most cells, H x B.
pub const MAX_CELLS: usize = 4096;
/// The most bindings of a registry.
pub const MAX_BINDINGS: usize = 64;
/// The most steps of a script.
pub const MAX_STEPS: usize = 32_768;
/// The most leases of a list; in multi-lock, held leases and keys together.
pub const MAX_LEASES: usize = 64;
/// The most members of a crew.
pub const MAX_MEMBERS: usize = 16;
/// The most cells of one member.
pub const MAX_MEMBER_CELLS: usize = 64;
/// The most cells of all members together.
pub const MAX_CREW_CELLS: usize = 256;
/// The most turns of a crew.
pub const MAX_TURNS: usize = 65_536;
/// No report of a salvage has more changes.
pub const MAX_CHANGES: usize = 12_352;
