//! The lease layer of the skid kernel: the calls of document 01, keys in any order
//! ([`Arena::acquire_sorted_locks`]), salvage after a warm restart ([`Arena::salvage`]), the setpoint book
//! ([`Setpoint`]) and the waveform of the cells ([`wave_rules`]), safe to call.
//!
//! The programs of a pump skid's kernel share one arena of setpoint buckets. Each bucket has a mutex cell. A program
//! that takes a cell gets a [`Lease`]: the number of the cell, a serial, and the boot number of the arena's preparation.
//!
//! Each call is made by a proved library, `libskid.a`: for every argument the answer and every lent word afterwards are
//! what the documents say, refusals included. This crate only lends the runs and reads the reply's words. It has no
//! heap, no thread and no dependency.
//!
//! # Two faces
//!
//! [`kernel`] is the one to use: an arena that keeps its registry, leases with one owner, a `Result` for what can be
//! refused. No call of it has a script or a held list, since a kernel's others act between its calls.
//!
//! ```
//! use skid::kernel::{Arena, Buckets, Headers, Key, Memory, TakeError};
//!
//! let mut memory = Memory::<Headers<2>, Buckets<4>>::new(); // the shape is checked when it is compiled
//! let mut arena = Arena::open(&mut memory, &[0, 1, 1], 5); // the registry, boot number 5
//! match arena.take(Key { binding: 0, bucket: 2 }) {
//!     Ok(valve) => arena.give(valve).unwrap(), // ours until it is given back
//!     Err(TakeError::Busy { reason, .. }) => println!("{reason}: come back from the scheduler"),
//!     Err(refused) => println!("{refused}"),
//! }
//! ```
//!
//! The types beside it, with [`Arena`] and its [`Answer`]s, are every call of the documents with scripts, held lists and
//! counts, as a bench needs them; [`raw`] is the same over words and slices.
//!
//! # Where the library is
//!
//! `rt lib --cpu x86-64` in crates/skid writes `crates/skid/out/libskid.a`. The build looks there, or in the folder that
//! the environment variable `SKID_LIB_DIR` names. The archive is x86-64 code.
//!
//! # What a kernel must know
//!
//! The archive keeps to the calling convention of Linux on x86-64 (System V). The stack is aligned to 16 bytes where a
//! call is made; on another one an aligned SSE store faults. The SSE registers are used and must be switched on; who takes
//! the processor from a task inside a call saves them. The 128 bytes below the stack pointer (the red zone) are used, so
//! an interrupt needs a stack of its own, or the calls are made with interrupts off. No float crosses to the library: a
//! pressure goes as its 32 bits. docs/INTEGRATION.md lists which call uses what.
//!
//! With one caller at a time a cell that is held cannot come free inside a call. So a kernel asks once
//! ([`kernel::Arena::take`]) and comes back from its own scheduler; [`Arena::acquire_index_bucket`] would ask 4,096 times.
//! A target without SSE, such as `x86_64-unknown-none`, needs the feature `sse_is_on`, by which a kernel says that it
//! has switched the registers on.
//!
//! # What the caller must see to
//!
//! An [`Arena`] keeps the head, and borrows table and health, so that each call gets what the last one left and one
//! caller at a time works on a table. Who takes an arena apart and goes on later ([`Arena::resume`]) must see to that
//! himself. No boot number may be used twice: then a lease from before a preparation is refused, by
//! [`Refusal::StaleBoot`] unless an earlier check applies, up to the next salvage. No serial from before a preparation
//! may be written into a script: a step has no boot number, and means the head's own. The last head is to be kept where
//! a power dip does not reach it, for [`Arena::salvage`].
#![no_std]
#![deny(unsafe_code)]
#![deny(unsafe_op_in_unsafe_fn)]
#![deny(missing_docs)]

#[cfg(not(any(target_arch = "x86_64", doc, clippy)))]
compile_error!("libskid.a is x86-64 code: build for an x86-64 target; elsewhere cross compile");
#[cfg(any(
    all(target_arch = "x86_64", not(target_pointer_width = "64")),
    windows,
    target_os = "uefi"
))]
compile_error!("libskid.a is called by the System V convention, with 64 bits in a pointer, and this target has another one");
#[cfg(all(
    target_arch = "x86_64",
    not(any(target_feature = "sse", feature = "sse_is_on"))
))]
compile_error!("libskid.a uses the SSE registers, and this target is without them: switch them on before the first call, and say so by the feature `sse_is_on`");

mod book;
pub mod kernel;
mod limits;
#[allow(unsafe_code)]
pub mod raw;
mod salvage;
pub mod wave;
mod words;

pub use book::{
    BookAnswer, BookRefusal, Setpoint, KEPT_VERSIONS, LONGEST_BOOK, ROOMY_BYTES, SLOTS, SLOT_BYTES,
};
pub use limits::*;
pub use salvage::{Change, SalvageRefusal, Salvaged};

use raw::{words, words_mut};

/// The version of this crate and of the library under it; CHANGELOG.md says what came with which.
pub const VERSION: &str = env!("CARGO_PKG_VERSION");
/// Header slots H, buckets per header B, the next serial, and the boot number.
#[derive(Clone, Copy, Debug, PartialEq, Eq, Hash)]
pub struct Head {
    /// H, 1 to 64.
    pub headers: u32,
    /// B, 1 to 1,024; H x B is at most 4,096.
    pub buckets: u32,
    /// 1 to 4,294,967,295; there none remains.
    pub next: u32,
    /// What the preparation was given; any number.
    pub boot: u32,
}

/// A cell, the serial that owns it, and the boot number of the head that gave the lease.
#[derive(Clone, Copy, Debug, Default, PartialEq, Eq, PartialOrd, Ord, Hash)]
#[repr(C)]
pub struct Lease {
    /// Header x B + bucket.
    pub cell: u32,
    /// The cell's owner while the lease is live.
    pub serial: u32,
    /// The head's boot number; by a head with another one it is [`Refusal::StaleBoot`].
    pub boot: u32,
}

/// A place in the registry, and a bucket of the header that stands there.
#[derive(Clone, Copy, Debug, PartialEq, Eq, PartialOrd, Ord, Hash)]
#[repr(C)]
pub struct Key {
    /// A place in the registry.
    pub binding: u32,
    /// Below B.
    pub bucket: u32,
}

/// A foreign step. One that is not legal at its turn is dropped and counted.
#[derive(Clone, Copy, Debug, PartialEq, Eq, Hash)]
#[repr(C)]
pub struct Step {
    /// 0 to 5; another kind is dropped.
    pub kind: u32,
    /// A cell, or a header.
    pub place: u32,
    /// A serial, waiters, or a health.
    pub number: u32,
}

impl Step {
    /// Changes nothing.
    pub const OBSERVE: Step = Step {
        kind: 0,
        place: 0,
        number: 0,
    };
    /// The end of a boundary.
    pub const END: Step = Step {
        kind: 5,
        place: 0,
        number: 0,
    };

    /// Takes a free cell, if a serial remains.
    pub const fn take(cell: u32) -> Step {
        Step {
            kind: 1,
            place: cell,
            number: 0,
        }
    }

    /// Releases a live lease that is not protected. A step has no boot number and means the head's: of a lease from
    /// before a preparation it releases the new lease with that cell and serial.
    pub const fn release(lease: Lease) -> Step {
        Step {
            kind: 2,
            place: lease.cell,
            number: lease.serial,
        }
    }

    /// Sets a cell's waiters.
    pub const fn waiters(cell: u32, number: u32) -> Step {
        Step {
            kind: 3,
            place: cell,
            number,
        }
    }

    /// Poisons a header, or heals it.
    pub const fn health(header: u32, poisoned: bool) -> Step {
        Step {
            kind: 4,
            place: header,
            number: poisoned as u32,
        }
    }
}

/// Foreign steps, and the place up to which they have run. A call that takes it moves the place on.
#[derive(Clone, Copy, Debug)]
pub struct Script<'s> {
    steps: &'s [Step],
    place: usize,
}

impl<'s> Script<'s> {
    /// A script from its first step on; at most 32,768 steps.
    pub const fn new(steps: &'s [Step]) -> Script<'s> {
        Script { steps, place: 0 }
    }

    /// A script from a place on.
    pub const fn starting_at(steps: &'s [Step], place: usize) -> Script<'s> {
        Script { steps, place }
    }

    /// No step: every boundary is quiet.
    pub const fn quiet() -> Script<'static> {
        Script {
            steps: &[],
            place: 0,
        }
    }

    /// How many steps have run.
    pub const fn place(&self) -> usize {
        self.place
    }
}

/// Each result gives attempts begun, boundaries, yields and dropped steps.
#[derive(Clone, Copy, Debug, PartialEq, Eq)]
pub struct Counts {
    /// Attempts begun.
    pub attempts: usize,
    /// Boundaries.
    pub boundaries: usize,
    /// Yields.
    pub yields: usize,
    /// Foreign steps dropped.
    pub dropped: usize,
}

/// Why it is Busy. In a try_lock the waiters are looked at first, so a held cell that somebody waits for is `Before`
/// there.
#[derive(Clone, Copy, Debug, PartialEq, Eq, PartialOrd, Ord, Hash)]
pub enum Reason {
    /// The cell is held, by this serial.
    Held(u32),
    /// Somebody waited for the cell, seen before the compare-and-set.
    Before,
    /// Somebody waited for it, seen after the compare-and-set; this serial was spent.
    After(u32),
}

impl Reason {
    /// The reason that words 13 and 14 of a reply tell. Where there is one, the library gives no number but 1 to 3.
    const fn of(w: &[u64; raw::REPLY]) -> Reason {
        let serial = w[14] as u32;
        match w[13] {
            1 => Reason::Held(serial),
            2 => Reason::Before,
            _ => Reason::After(serial),
        }
    }
}

/// The sixteen refusals, with what each carries, in the order of their numbers.
#[derive(Clone, Copy, Debug, PartialEq, Eq, PartialOrd, Ord, Hash)]
#[non_exhaustive]
pub enum Refusal {
    /// 1: the head or a length breaks the arena's rules.
    BadShape,
    /// 2: too many steps, or a place past the end.
    BadScript,
    /// 3: the held list is over 64 leases (carries how many), or else the first position that is not live.
    BadHeld(usize),
    /// 4: too many keys or leases, or the grant buffer is not one lease a key.
    TooMany,
    /// 5: the first position of a key whose binding is past the registry.
    BadBinding(usize),
    /// 6: the registry names this header, and it is at least H.
    BadHeader(u32),
    /// 7: this header is poisoned.
    Poisoned(u32),
    /// 8: this bucket is at least B; in a call by cell, this cell is at least H x B.
    InvalidBucket(u32),
    /// 9: this cell is neither free nor held.
    Damaged(u32),
    /// 10: this cell is free, and no serial remains.
    SerialsSpent(u32),
    /// 11: 4,096 attempts were Busy, the last one for this reason.
    SerializationFailure(Reason),
    /// 12: a lease to release or read is not live; its position, 0 for one.
    NotHeld(usize),
    /// 13: the lease is live and in the held list.
    Protected,
    /// 14: the position of the later of two equal live leases in the list.
    Repeated(usize),
    /// 15: 0 for a limit of the crew; the member of a bad list; the turn that names no member.
    BadCrew(usize),
    /// 16: a lease has another boot number than the head; its position, 0 for one. Tested after the length of its list,
    /// position by position, before 3 and 12 at that place.
    StaleBoot(usize),
}

impl Refusal {
    /// Document 01's number; 16 is document 02's.
    pub const fn number(self) -> u32 {
        match self {
            Refusal::BadShape => 1,
            Refusal::BadScript => 2,
            Refusal::BadHeld(_) => 3,
            Refusal::TooMany => 4,
            Refusal::BadBinding(_) => 5,
            Refusal::BadHeader(_) => 6,
            Refusal::Poisoned(_) => 7,
            Refusal::InvalidBucket(_) => 8,
            Refusal::Damaged(_) => 9,
            Refusal::SerialsSpent(_) => 10,
            Refusal::SerializationFailure(_) => 11,
            Refusal::NotHeld(_) => 12,
            Refusal::Protected => 13,
            Refusal::Repeated(_) => 14,
            Refusal::BadCrew(_) => 15,
            Refusal::StaleBoot(_) => 16,
        }
    }

    /// The refusal that words 10, 11, 13 and 14 of a reply tell: its number, what it carries, the reason of 11. The
    /// library gives no number but 1 to 16, and carries in 6 to 10 what fits a `u32`.
    const fn of(w: &[u64; raw::REPLY]) -> Refusal {
        let n = w[11] as usize;
        let k = w[11] as u32;
        match w[10] {
            1 => Refusal::BadShape,
            2 => Refusal::BadScript,
            3 => Refusal::BadHeld(n),
            4 => Refusal::TooMany,
            5 => Refusal::BadBinding(n),
            6 => Refusal::BadHeader(k),
            7 => Refusal::Poisoned(k),
            8 => Refusal::InvalidBucket(k),
            9 => Refusal::Damaged(k),
            10 => Refusal::SerialsSpent(k),
            11 => Refusal::SerializationFailure(Reason::of(w)),
            12 => Refusal::NotHeld(n),
            13 => Refusal::Protected,
            14 => Refusal::Repeated(n),
            15 => Refusal::BadCrew(n),
            _ => Refusal::StaleBoot(n),
        }
    }
}

/// A call's answer. Busy is no refusal. `AllGranted` and `RefusedAt` (with the key's position) are multi-lock's alone.
#[derive(Clone, Copy, Debug, PartialEq, Eq, Hash)]
pub enum Answer {
    /// What was asked is done.
    Done,
    /// The cell of a lease that may be read.
    Cell(u32),
    /// A new lease.
    Granted(Lease),
    /// A lease for each key, in the grant buffer.
    AllGranted,
    /// Another holds the cell, or waits for it.
    Busy(Reason),
    /// Refused.
    Refused(Refusal),
    /// Refused at a key, by its position; the leases taken before are released.
    RefusedAt(Refusal, usize),
}

impl Answer {
    /// The answer that words 9 to 14 of a reply tell. The library gives no kind but 0 to 6.
    const fn of(w: &[u64; raw::REPLY]) -> Answer {
        match w[9] {
            0 => Answer::Done,
            1 => Answer::Cell(w[10] as u32),
            2 => Answer::Granted(Lease {
                cell: w[10] as u32,
                serial: w[11] as u32,
                boot: w[12] as u32,
            }),
            3 => Answer::AllGranted,
            4 => Answer::Busy(Reason::of(w)),
            5 => Answer::Refused(Refusal::of(w)),
            _ => Answer::RefusedAt(Refusal::of(w), w[12] as usize),
        }
    }
}

/// The result of a call that takes no script.
#[derive(Clone, Copy, Debug, PartialEq, Eq)]
#[must_use]
pub struct Reply {
    /// The head after the call.
    pub head: Head,
    /// Its counts.
    pub counts: Counts,
    /// Its answer.
    pub answer: Answer,
}

/// The result of a call that takes a script.
#[derive(Clone, Copy, Debug, PartialEq, Eq)]
#[must_use]
pub struct Played {
    /// The head after the call.
    pub head: Head,
    /// Where the script was left.
    pub place: usize,
    /// Its counts.
    pub counts: Counts,
    /// Its answer.
    pub answer: Answer,
}

/// The result of the crew's run.
#[derive(Clone, Copy, Debug, PartialEq, Eq)]
#[must_use]
pub struct CrewReply {
    /// The head after the call.
    pub head: Head,
    /// Turns that took or released a cell or, at work, added to its counter.
    pub moving: usize,
    /// Turns that did none of it.
    pub idle: usize,
    /// For each member, cells taken; 0 where there is no member.
    pub taken: [usize; 16],
    /// For each member, cells released.
    pub released: [usize; 16],
    /// Done, or a refusal.
    pub answer: Answer,
}

const fn head_of(w: &[u64; raw::REPLY]) -> Head {
    Head {
        headers: w[0] as u32,
        buckets: w[1] as u32,
        next: w[2] as u32,
        boot: w[3] as u32,
    }
}

const fn counts_of(w: &[u64; raw::REPLY]) -> Counts {
    Counts {
        attempts: w[5] as usize,
        boundaries: w[6] as usize,
        yields: w[7] as usize,
        dropped: w[8] as usize,
    }
}

const fn reply_of(w: &[u64; raw::REPLY]) -> Reply {
    Reply {
        head: head_of(w),
        counts: counts_of(w),
        answer: Answer::of(w),
    }
}

const fn played_of(w: &[u64; raw::REPLY]) -> Played {
    Played {
        head: head_of(w),
        place: w[4] as usize,
        counts: counts_of(w),
        answer: Answer::of(w),
    }
}

fn crew_of(w: &[u64; raw::CREW]) -> CrewReply {
    let mut front = [0; raw::REPLY];
    front.copy_from_slice(&w[..raw::REPLY]);
    let (mut taken, mut released) = ([0; 16], [0; 16]);
    for m in 0..16 {
        taken[m] = w[17 + m] as usize;
        released[m] = w[33 + m] as usize;
    }
    CrewReply {
        head: head_of(&front),
        moving: w[15] as usize,
        idle: w[16] as usize,
        taken,
        released,
        answer: Answer::of(&front),
    }
}

/// An arena: its head, and the table and the health that it borrows.
#[derive(Debug)]
pub struct Arena<'a> {
    head: Head,
    table: &'a mut [u32],
    health: &'a mut [u8],
}

impl<'a> Arena<'a> {
    /// Preparing: sets every table word and health byte to 0, whatever they held. The table has exactly 3 x H x B
    /// words, the health exactly H bytes, and the first serial is at least 1; else [`Refusal::BadShape`], and no word
    /// changes. Every lease that the arena grants has the boot number, which may be any number and is to be a new one.
    pub fn prepare(
        headers: u32,
        buckets: u32,
        serial: u32,
        boot: u32,
        table: &'a mut [u32],
        health: &'a mut [u8],
    ) -> Result<Arena<'a>, Refusal> {
        let head = Head {
            headers,
            buckets,
            next: serial,
            boot,
        };
        let reply = reply_of(&raw::prepare(head, table, health));
        match reply.answer {
            Answer::Refused(refusal) => Err(refusal),
            _ => Ok(Arena {
                head: reply.head,
                table,
                health,
            }),
        }
    }

    /// An arena that was prepared before, as the last call left it. A head that does not belong to the table is
    /// refused by the calls where it breaks the arena's rules, and else believed.
    pub fn resume(head: Head, table: &'a mut [u32], health: &'a mut [u8]) -> Arena<'a> {
        Arena {
            head,
            table,
            health,
        }
    }

    /// The head.
    pub const fn head(&self) -> Head {
        self.head
    }

    /// The table: bit, owner and waiters of each cell.
    pub fn table(&self) -> &[u32] {
        self.table
    }

    /// The health: a byte for each header, 0 is healthy.
    pub fn health(&self) -> &[u8] {
        self.health
    }

    fn replied(&mut self, words: [u64; raw::REPLY]) -> Reply {
        let reply = reply_of(&words);
        self.head = reply.head;
        reply
    }

    fn played(&mut self, script: &mut Script, words: [u64; raw::REPLY]) -> Played {
        let played = played_of(&words);
        self.head = played.head;
        script.place = played.place;
        played
    }

    // ---- calls without a script

    /// One compare-and-set of a cell: granted, Busy if it is held (with its owner's serial), or refused.
    pub fn try_acquire(&mut self, cell: u32) -> Reply {
        let words = raw::try_acquire(self.head, self.table, cell);
        self.replied(words)
    }

    /// One release of a live lease, and no boundary. In each call a lease of another boot number than the head's is
    /// [`Refusal::StaleBoot`].
    pub fn drop_lease(&mut self, lease: Lease) -> Reply {
        let words = raw::drop_lease(self.head, self.table, lease);
        self.replied(words)
    }

    /// The cell of a live lease. Changes nothing.
    pub fn read_permission(&self, lease: Lease) -> Reply {
        reply_of(&raw::read_permission(self.head, self.table, lease))
    }

    /// One compare-and-set of a live lease's cell: it is Busy, held by the lease's serial, and changes nothing.
    pub fn competing_acquire_is_excluded(&mut self, lease: Lease) -> Reply {
        let words = raw::competing_acquire_is_excluded(self.head, self.table, lease);
        self.replied(words)
    }

    /// A live lease released, and its cell taken anew. Where no serial remains, the release stands.
    pub fn release_then_handoff(&mut self, lease: Lease) -> Reply {
        let words = raw::release_then_handoff(self.head, self.table, lease);
        self.replied(words)
    }

    /// A compare-and-set of a live lease's cell that is Busy, a release of the lease, which may not be in the held
    /// list, and a compare-and-set again. Where no serial remains, the release stands.
    pub fn foreign_release_between_attempts(&mut self, held: &[Lease], lease: Lease) -> Reply {
        let words =
            raw::foreign_release_between_attempts(self.head, self.table, words(held), lease);
        self.replied(words)
    }

    /// [`Arena::try_acquire`] after the held list's check.
    pub fn acquire_preserving_borrows(&mut self, held: &[Lease], cell: u32) -> Reply {
        let words = raw::acquire_preserving_borrows(self.head, self.table, words(held), cell);
        self.replied(words)
    }

    /// [`Arena::drop_lease`], but not of a lease in the held list.
    pub fn drop_preserving_borrows(&mut self, held: &[Lease], lease: Lease) -> Reply {
        let words = raw::drop_preserving_borrows(self.head, self.table, words(held), lease);
        self.replied(words)
    }

    // ---- calls with a script: foreign steps run at each boundary, from the script's place on

    /// One boundary. A foreign release of a lease in the held list is dropped.
    pub fn environment(&mut self, script: &mut Script, held: &[Lease]) -> Played {
        let words = raw::environment(
            self.head,
            self.table,
            self.health,
            words(script.steps),
            script.place,
            words(held),
        );
        self.played(script, words)
    }

    /// One boundary.
    pub fn environment_for_borrows(&mut self, script: &mut Script, held: &[Lease]) -> Played {
        let words = raw::environment_for_borrows(
            self.head,
            self.table,
            self.health,
            words(script.steps),
            script.place,
            words(held),
        );
        self.played(script, words)
    }

    /// Boundary, waiters, boundary, compare-and-set, boundary, the health of the cell's header, waiters. A late
    /// [`Refusal::Poisoned`] or Busy releases the cell, and its serial stays spent ([`Reason::After`] gives it).
    pub fn try_lock(&mut self, script: &mut Script, held: &[Lease], cell: u32) -> Played {
        let words = raw::try_lock(
            self.head,
            self.table,
            self.health,
            words(script.steps),
            script.place,
            words(held),
            cell,
        );
        self.played(script, words)
    }

    /// [`Arena::try_lock`].
    pub fn other_mutex_preserves_leases(
        &mut self,
        script: &mut Script,
        held: &[Lease],
        cell: u32,
    ) -> Played {
        let words = raw::other_mutex_preserves_leases(
            self.head,
            self.table,
            self.health,
            words(script.steps),
            script.place,
            words(held),
            cell,
        );
        self.played(script, words)
    }

    /// One attempt on a key: header from the registry, then its health, then the bucket, then a try_lock, which reads
    /// the health again. [`Refusal::Poisoned`] before the try_lock has taken nothing; after it the serial stays spent.
    pub fn transactional_try_lock_bucket(
        &mut self,
        registry: &[u32],
        script: &mut Script,
        held: &[Lease],
        key: Key,
    ) -> Played {
        let words = raw::transactional_try_lock_bucket(
            self.head,
            self.table,
            self.health,
            registry,
            words(script.steps),
            script.place,
            words(held),
            key,
        );
        self.played(script, words)
    }

    /// Up to 4,096 attempts on a key, with boundaries, yields and spins between them. Granted or refused, never Busy. A
    /// refusal ends it at once, also [`Refusal::Poisoned`] after a try_lock's third boundary. After 4,096 Busy attempts
    /// it is [`Refusal::SerializationFailure`], with the last one's reason.
    pub fn acquire_index_bucket(
        &mut self,
        registry: &[u32],
        script: &mut Script,
        held: &[Lease],
        key: Key,
    ) -> Played {
        let words = raw::acquire_index_bucket(
            self.head,
            self.table,
            self.health,
            registry,
            words(script.steps),
            script.place,
            words(held),
            key,
        );
        self.played(script, words)
    }

    /// All leases of a list released, last first, a boundary after each. Those not yet released are protected.
    pub fn release_all(&mut self, script: &mut Script, leases: &[Lease]) -> Played {
        let words = raw::release_all(
            self.head,
            self.table,
            self.health,
            words(script.steps),
            script.place,
            words(leases),
        );
        self.played(script, words)
    }

    /// Multi-lock: the keys in the order given, each as [`Arena::acquire_index_bucket`] takes it. All granted, and the
    /// buffer holds a lease for each key, in key order; or refused at a key, all taken leases released as in
    /// [`Arena::release_all`], and the buffer unchanged.
    pub fn acquire_index_locks(
        &mut self,
        registry: &[u32],
        script: &mut Script,
        held: &[Lease],
        keys: &[Key],
        grants: &mut [Lease],
    ) -> Played {
        let words = raw::acquire_index_locks(
            self.head,
            self.table,
            self.health,
            registry,
            words(script.steps),
            script.place,
            words(held),
            words(keys),
            words_mut(grants),
        );
        self.played(script, words)
    }

    /// Multi-lock with keys in any order, and doubles (document 02, L4). Each distinct cell is taken once, in rising
    /// order, as [`Arena::acquire_index_locks`] takes a key. All granted, and the buffer holds a lease for each key, in
    /// the caller's order; keys of one cell share one lease, which [`Arena::release_all`] takes once (else
    /// [`Refusal::Repeated`]).
    ///
    /// What [`Arena::acquire_index_locks`] checks comes first, every binding among it. Then, before any attempt and
    /// position by position, [`Refusal::BadHeader`] and [`Refusal::InvalidBucket`], with all counts 0. A later refusal
    /// has the first position that asks for its cell. Refused, all taken leases are released, and the buffer is
    /// unchanged.
    ///
    /// Bindings 1 and 2 both name header 1, so two of these three keys are one cell:
    ///
    /// ```
    /// use skid::{Answer, Arena, Key, Lease, Script};
    ///
    /// let (mut table, mut health) = ([0u32; 24], [0u8; 2]);
    /// let mut arena = Arena::prepare(2, 4, 1, 1, &mut table, &mut health).unwrap();
    /// let keys = [(1, 0), (0, 2), (2, 0)].map(|(binding, bucket)| Key { binding, bucket });
    /// let mut grants = [Lease::default(); 3];
    /// let quiet = &mut Script::quiet();
    /// let played = arena.acquire_sorted_locks(&[0, 1, 1], quiet, &[], &keys, &mut grants);
    /// assert_eq!(played.answer, Answer::AllGranted);
    /// assert_eq!(grants[0], Lease { cell: 4, serial: 2, boot: 1 });
    /// assert_eq!(grants[1], Lease { cell: 2, serial: 1, boot: 1 });
    /// assert_eq!(grants[2], grants[0]);
    /// // each lease once
    /// assert_eq!(arena.release_all(quiet, &grants[..2]).answer, Answer::Done);
    /// ```
    pub fn acquire_sorted_locks(
        &mut self,
        registry: &[u32],
        script: &mut Script,
        held: &[Lease],
        keys: &[Key],
        grants: &mut [Lease],
    ) -> Played {
        let words = raw::acquire_sorted_locks(
            self.head,
            self.table,
            self.health,
            registry,
            words(script.steps),
            script.place,
            words(held),
            words(keys),
            words_mut(grants),
        );
        self.played(script, words)
    }

    // ---- the crew

    /// The crew's run. `counts` says how many cells each member wants, `cells` has their lists one behind the other,
    /// each strictly rising, and `turns` names members.
    pub fn crew(&mut self, counts: &[u32], cells: &[u32], turns: &[u32]) -> CrewReply {
        let reply = crew_of(&raw::crew(
            self.head,
            self.table,
            self.health,
            counts,
            cells,
            turns,
        ));
        self.head = reply.head;
        reply
    }

    /// The crew at work (document 02, L13): [`Arena::crew`], and a member that has come to hold all its cells adds
    /// before it releases, a moving turn for each cell, rising. To each cell's counter it adds the value that its
    /// lowest cell's counter had when it came to hold all; sums wrap at 65,536. `counters` has one for each cell, else
    /// [`Refusal::BadShape`]; a refusal leaves them as they were.
    pub fn crew_at_work(
        &mut self,
        counts: &[u32],
        cells: &[u32],
        turns: &[u32],
        counters: &mut [u16],
    ) -> CrewReply {
        let reply = crew_of(&raw::crew_at_work(
            self.head,
            self.table,
            self.health,
            counts,
            cells,
            turns,
            counters,
        ));
        self.head = reply.head;
        reply
    }
}
