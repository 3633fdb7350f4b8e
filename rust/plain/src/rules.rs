//! Document 01: the arena, foreign steps, the steps of a lock, the crew, the refusals; with document 02's L1, the
//! reasons of a Busy, L3, the health that is read after the lock too, L4, keys in any order, L8, a boot number in every
//! lease, and L13, the crew at work.
//!
//! One public function for each call, over lent slices. A call checks what it takes in the order of the table
//! of refusals, and then runs its steps; no argument makes it panic.

/// The head is handed over and given back by value; any boot number is a good one. "The head and every lease gain a boot
/// number (u32)".
pub use console::build::{Head, Lease};

/// Header slots, buckets per header, cells: the greatest numbers that the arena's rules allow.
pub const MOST_HEADERS: u32 = 64;
pub const MOST_BUCKETS: u32 = 1024;
pub const MOST_CELLS: u32 = 4096;
/// Header numbers in a registry.
pub const MOST_BINDINGS: usize = 64;
/// Steps of a script.
pub const MOST_STEPS: usize = 32_768;
/// Leases in a held list or to release; held leases and keys together in multi-lock.
pub const MOST_LEASES: usize = 64;
/// Attempts of `acquire_index_bucket`.
pub const ATTEMPTS: u32 = 4096;
/// Every how many attempts there is a yield.
pub const YIELD_EVERY: u32 = 64;
/// The next serial where none remains.
pub const NO_SERIAL: u32 = u32::MAX;
/// The crew: members, cells a member, cells in all (K), turns.
pub const MOST_MEMBERS: usize = 16;
pub const MOST_MEMBER_CELLS: u32 = 64;
pub const MOST_CREW_CELLS: usize = 256;
pub const MOST_TURNS: usize = 65_536;

/// Words of a lease in a list or a grant buffer: cell, serial, boot number.
pub const LEASE: usize = 3;
/// Words of a key: binding, bucket.
pub const KEY: usize = 2;

/// Why an attempt is Busy: "held, with the owner's serial; waiters seen before the compare-and-set; waiters seen after
/// it. The last one also gives the serial that was spent."
#[derive(Clone, Copy, Debug, PartialEq, Eq)]
pub enum Reason {
    Held(u32),
    Before,
    After(u32),
}

/// The sixteen refusals, each with what it carries where that is not fixed.
#[derive(Clone, Copy, Debug, PartialEq, Eq)]
pub enum Refusal {
    BadShape,
    BadScript,
    BadHeld(u32),
    TooMany,
    BadBinding(u32),
    BadHeader(u32),
    Poisoned(u32),
    InvalidBucket(u32),
    Damaged(u32),
    SerialsSpent(u32),
    /// It carries the reason of the last Busy attempt besides 4,096.
    SerializationFailure(Reason),
    NotHeld(u32),
    Protected,
    Repeated(u32),
    BadCrew(u32),
    StaleBoot(u32),
}

impl Refusal {
    pub fn number(self) -> u32 {
        match self {
            Refusal::BadShape => 1,
            Refusal::BadScript => 2,
            Refusal::BadHeld(_) => 3,
            Refusal::TooMany => 4,
            Refusal::BadBinding(_) => 5,
            Refusal::BadHeader(_) => 6,
            Refusal::Poisoned(_) => 7,
            Refusal::InvalidBucket(_) => 8,
            Refusal::Damaged(_) => 9,
            Refusal::SerialsSpent(_) => 10,
            Refusal::SerializationFailure(_) => 11,
            Refusal::NotHeld(_) => 12,
            Refusal::Protected => 13,
            Refusal::Repeated(_) => 14,
            Refusal::BadCrew(_) => 15,
            Refusal::StaleBoot(_) => 16,
        }
    }

    pub fn name(self) -> &'static str {
        match self {
            Refusal::BadShape => "BadShape",
            Refusal::BadScript => "BadScript",
            Refusal::BadHeld(_) => "BadHeld",
            Refusal::TooMany => "TooMany",
            Refusal::BadBinding(_) => "BadBinding",
            Refusal::BadHeader(_) => "BadHeader",
            Refusal::Poisoned(_) => "Poisoned",
            Refusal::InvalidBucket(_) => "InvalidBucket",
            Refusal::Damaged(_) => "Damaged",
            Refusal::SerialsSpent(_) => "SerialsSpent",
            Refusal::SerializationFailure(_) => "SerializationFailure",
            Refusal::NotHeld(_) => "NotHeld",
            Refusal::Protected => "Protected",
            Refusal::Repeated(_) => "Repeated",
            Refusal::BadCrew(_) => "BadCrew",
            Refusal::StaleBoot(_) => "StaleBoot",
        }
    }

    pub fn carries(self) -> u32 {
        match self {
            Refusal::BadShape | Refusal::BadScript | Refusal::TooMany | Refusal::Protected => 0,
            Refusal::SerializationFailure(_) => ATTEMPTS,
            Refusal::BadHeld(n)
            | Refusal::BadBinding(n)
            | Refusal::BadHeader(n)
            | Refusal::Poisoned(n)
            | Refusal::InvalidBucket(n)
            | Refusal::Damaged(n)
            | Refusal::SerialsSpent(n)
            | Refusal::NotHeld(n)
            | Refusal::Repeated(n)
            | Refusal::BadCrew(n)
            | Refusal::StaleBoot(n) => n,
        }
    }

    /// "refusal 11 carries that reason besides 4,096"; no other refusal has one.
    pub fn reason(self) -> Option<Reason> {
        match self {
            Refusal::SerializationFailure(reason) => Some(reason),
            _ => None,
        }
    }
}

#[derive(Clone, Copy, Debug, PartialEq, Eq)]
pub enum Answer {
    Granted(Lease),
    /// Multi-lock's grant; its leases stand in the grant buffer.
    AllGranted,
    Done,
    Cell(u32),
    Busy(Reason),
    Refused(Refusal),
    /// Multi-lock's refusals 6 to 11, with the key's position; in the sorted call the first that asks for that cell.
    RefusedAt(Refusal, u32),
}

/// The numbers of such events in the steps of a call.
#[derive(Clone, Copy, Debug, Default, PartialEq, Eq)]
pub struct Counts {
    pub attempts: u32,
    pub boundaries: u32,
    pub yields: u32,
    pub dropped: u32,
}

/// What a call without a script gives back.
#[derive(Clone, Copy, Debug, PartialEq, Eq)]
pub struct Reply {
    pub head: Head,
    pub answer: Answer,
    pub counts: Counts,
}

/// What a call with a script gives back.
#[derive(Clone, Copy, Debug, PartialEq, Eq)]
pub struct ScriptReply {
    pub head: Head,
    pub place: usize,
    pub answer: Answer,
    pub counts: Counts,
}

/// What the crew's run gives back: how it went, or refusal 1 or 15.
#[derive(Clone, Copy, Debug, PartialEq, Eq)]
pub struct CrewReply {
    pub head: Head,
    pub answer: Result<CrewRun, Refusal>,
}

/// Cells taken and cells released by each member, and the counts of moving and idle turns.
#[derive(Clone, Copy, Debug, Default, PartialEq, Eq)]
pub struct CrewRun {
    pub taken: [u32; MOST_MEMBERS],
    pub released: [u32; MOST_MEMBERS],
    pub moving: u32,
    pub idle: u32,
}

/// How an attempt ends that is not refused: the serial of the new lease, or the reason.
#[derive(Clone, Copy, Debug, PartialEq, Eq)]
enum Tried {
    Granted(u32),
    Busy(Reason),
}

/// How an attempt ends.
type Attempt = Result<Tried, Refusal>;

// ---- The arena

/// A table whose length fits its head.
struct Arena<'a> {
    head: Head,
    table: &'a mut [u32],
}

/// Bit, owner, waiters.
type Cell = [u32; 3];

/// Refusal 1, as far as the head goes; else the number of cells.
pub(crate) fn cells_of(head: Head) -> Result<u32, Refusal> {
    if !(1..=MOST_HEADERS).contains(&head.headers)
        || !(1..=MOST_BUCKETS).contains(&head.buckets)
        || head.next == 0
    {
        return Err(Refusal::BadShape);
    }
    let cells = head.headers * head.buckets;
    if cells > MOST_CELLS {
        return Err(Refusal::BadShape);
    }
    Ok(cells)
}

/// Refusal 1, as far as head and table go; else the number of cells.
pub(crate) fn shape(head: Head, table: &[u32]) -> Result<u32, Refusal> {
    let cells = cells_of(head)?;
    if table.len() != 3 * cells as usize {
        return Err(Refusal::BadShape);
    }
    Ok(cells)
}

/// The head keeps the arena's rules, and table and health have the lengths it asks for.
pub fn is_arena(head: Head, table: &[u32], health: &[u8]) -> bool {
    shape(head, table).is_ok() && health.len() == head.headers as usize
}

/// The owner of a held cell is a serial that was issued: from 1 to next - 1. The next serial is not 0.
pub(crate) fn is_issued(serial: u32, next: u32) -> bool {
    serial.wrapping_sub(1) < next.wrapping_sub(1)
}

/// A lease is live if the cell is held by that serial; one whose cell is out of range is not. Its boot number is asked
/// for apart, by refusal 16.
pub(crate) fn is_live(table: &[u32], next: u32, lease: Lease) -> bool {
    let at = 3 * lease.cell as usize;
    match table.get(at..at + 2) {
        Some(&[bit, owner]) => bit == 1 && owner == lease.serial && is_issued(owner, next),
        _ => false,
    }
}

impl<'a> Arena<'a> {
    fn new(head: Head, table: &'a mut [u32]) -> Result<Self, Refusal> {
        shape(head, table)?;
        Ok(Arena { head, table })
    }

    /// A cell's words; none if it is out of range.
    #[inline(always)]
    fn cell(&mut self, cell: u32) -> Option<&mut Cell> {
        let at = 3 * cell as usize;
        self.table.get_mut(at..at + 3)?.try_into().ok()
    }

    /// Cell number = header x B + bucket.
    fn header_of(&self, cell: u32) -> u32 {
        cell / self.head.buckets
    }

    fn lease(&self, cell: u32, serial: u32) -> Lease {
        let boot = self.head.boot;
        Lease { cell, serial, boot }
    }

    fn is_live(&self, lease: Lease) -> bool {
        is_live(self.table, self.head.next, lease)
    }

    /// The cell is in range and held.
    #[inline(always)]
    fn release(&mut self, cell: u32) {
        if let Some([bit, owner, _]) = self.cell(cell) {
            (*bit, *owner) = (0, 0);
        }
    }

    /// In order, damaged: Damaged; held: Busy, with the owner's serial; no serial: SerialsSpent; else it gets bit 1 and
    /// the next serial, which rises by 1. The cell is in range.
    #[inline(always)]
    fn try_acquire(&mut self, cell: u32) -> Attempt {
        let next = self.head.next;
        let Some([bit, owner, _]) = self.cell(cell) else {
            return Err(Refusal::Damaged(cell));
        };
        if *bit == 1 && is_issued(*owner, next) {
            return Ok(Tried::Busy(Reason::Held(*owner)));
        }
        if *bit != 0 || *owner != 0 {
            return Err(Refusal::Damaged(cell));
        }
        if next == NO_SERIAL {
            return Err(Refusal::SerialsSpent(cell));
        }
        (*bit, *owner) = (1, next);
        self.head.next = next + 1;
        Ok(Tried::Granted(next))
    }

    /// What an attempt on a cell comes to.
    fn answer(&self, cell: u32, attempt: Attempt) -> Answer {
        match attempt {
            Ok(Tried::Granted(serial)) => Answer::Granted(self.lease(cell, serial)),
            Ok(Tried::Busy(reason)) => Answer::Busy(reason),
            Err(refusal) => Answer::Refused(refusal),
        }
    }

    /// Refusal 3 by length: no whole leases, or over 64 of them. Then "position by position" 16, and 3 where the lease
    /// is not live.
    #[inline(always)]
    fn check_held(&self, held: &[u32]) -> Result<(), Refusal> {
        if held.is_empty() {
            return Ok(());
        }
        let count = held.len() / LEASE;
        if held.len() % LEASE != 0 || count > MOST_LEASES {
            return Err(Refusal::BadHeld(count as u32));
        }
        let Head { next, boot, .. } = self.head;
        let live = live_in_front(self.table, next, boot, held);
        match held.get(LEASE * live + 2) {
            None => Ok(()),
            Some(&stale) if stale != boot => Err(Refusal::StaleBoot(live as u32)),
            Some(_) => Err(Refusal::BadHeld(live as u32)),
        }
    }

    /// The same as a function of its own: among all that a call with a script keeps in registers its loop is slow.
    #[inline(never)]
    fn check_held_apart(&self, held: &[u32]) -> Result<(), Refusal> {
        self.check_held(held)
    }

    fn check_live(&self, lease: Lease) -> Result<(), Refusal> {
        check_live(self.head, self.table, lease)
    }

    /// Refusal 8 in a call by cell.
    fn check_cell(&self, cell: u32) -> Result<(), Refusal> {
        if 3 * (cell as usize) < self.table.len() {
            Ok(())
        } else {
            Err(Refusal::InvalidBucket(cell))
        }
    }
}

/// How many leases in front of a list are of this boot number and live.
#[inline(always)]
fn live_in_front(table: &[u32], next: u32, boot: u32, held: &[u32]) -> usize {
    let (mut live, mut rest) = (0, held);
    while let [cell, serial, lease_boot, behind @ ..] = rest {
        let (cell, serial) = (*cell, *serial);
        if *lease_boot != boot || !is_live(table, next, Lease { cell, serial, boot }) {
            break;
        }
        live += 1;
        rest = behind;
    }
    live
}

/// Refusals 16, "A lease with another boot number is refused as StaleBoot (16), with its position", and 12 for one lease.
pub(crate) fn check_live(head: Head, table: &[u32], lease: Lease) -> Result<(), Refusal> {
    if lease.boot != head.boot {
        Err(Refusal::StaleBoot(0))
    } else if is_live(table, head.next, lease) {
        Ok(())
    } else {
        Err(Refusal::NotHeld(0))
    }
}

/// Refusal 13: the lease is in the held list. It is live, and so are those of the list: one on the same cell is the same.
fn check_unprotected(held: &[u32], lease: Lease) -> Result<(), Refusal> {
    if leases_of(held).any(|one| one.cell == lease.cell) {
        Err(Refusal::Protected)
    } else {
        Ok(())
    }
}

/// The leases of a list: "three words a lease in all lists", cell, serial, boot number.
fn leases_of(words: &[u32]) -> impl Iterator<Item = Lease> + '_ {
    words.chunks_exact(LEASE).map(|words| Lease {
        cell: words[0],
        serial: words[1],
        boot: words[2],
    })
}

// ---- Foreign steps

/// The cells of protected leases, a bit each; empty where nothing can be released. A protected lease stays live, for
/// nobody may release it, and a cell has one owner: so a live lease on such a cell is the protected one.
struct Marks<'a>(&'a mut [u64]);

/// Words of marks for every cell there can be.
const MARKS: usize = MOST_CELLS as usize / 64;

impl Marks<'_> {
    fn set(&mut self, cell: u32) {
        if let Some(word) = self.0.get_mut(cell as usize / 64) {
            *word |= 1 << (cell % 64);
        }
    }

    fn clear(&mut self, cell: u32) {
        if let Some(word) = self.0.get_mut(cell as usize / 64) {
            *word &= !(1 << (cell % 64));
        }
    }

    fn has(&self, cell: u32) -> bool {
        let word = self.0.get(cell as usize / 64);
        word.is_some_and(|word| word >> (cell % 64) & 1 == 1)
    }
}

/// Marks if they are needed, and else none: then nothing is cleared for them.
macro_rules! marks {
    ($marks:ident if $needed:expr) => {
        let mut words;
        let $marks: &mut [u64] = if $needed {
            words = [0; MARKS];
            &mut words
        } else {
            &mut []
        };
    };
}

/// Whether a script has steps left.
fn has_steps(script: &[u32], place: usize) -> bool {
    place < script.len() / 3
}

/// So few steps that to look through the held list costs less than to mark it.
const FEW_STEPS: usize = 8;

/// A call with a script, past its checks: what its steps read and change.
struct Run<'a> {
    arena: Arena<'a>,
    health: &'a mut [u8],
    /// How many steps the script has, and those that are left.
    steps: usize,
    left: &'a [u32],
    held: &'a [u32],
    /// The held list; in `release_all` what it was given; what this call has taken. And never what it has given up. Where
    /// they are empty, the held list is all.
    protected: Marks<'a>,
    counts: Counts,
}

impl<'a> Run<'a> {
    /// Refusals 1, 2, and 3 and 16 of the held list. A call without a registry gives an empty one.
    #[inline(always)]
    #[allow(clippy::too_many_arguments)]
    fn new(
        head: Head,
        table: &'a mut [u32],
        health: &'a mut [u8],
        registry: &[u32],
        script: &'a [u32],
        place: usize,
        held: &'a [u32],
        marks: &'a mut [u64],
    ) -> Result<Self, Refusal> {
        let arena = Arena::new(head, table)?;
        if health.len() != head.headers as usize || registry.len() > MOST_BINDINGS {
            return Err(Refusal::BadShape);
        }
        let steps = script.len() / 3;
        if script.len() % 3 != 0 || steps > MOST_STEPS || place > steps {
            return Err(Refusal::BadScript);
        }
        if !held.is_empty() {
            arena.check_held_apart(held)?;
        }
        let mut protected = Marks(marks);
        if !protected.0.is_empty() {
            for lease in leases_of(held) {
                protected.set(lease.cell);
            }
        }
        Ok(Run {
            arena,
            health,
            steps,
            left: &script[3 * place..],
            held,
            protected,
            counts: Counts::default(),
        })
    }

    fn reply(self, answer: Answer) -> ScriptReply {
        ScriptReply {
            head: self.arena.head,
            place: self.steps - self.left.len() / 3,
            answer,
            counts: self.counts,
        }
    }

    /// Steps up to and including the next 5, or to the script's end; past the end it is quiet.
    #[inline(always)]
    fn boundary(&mut self) {
        self.counts.boundaries += 1;
        if !self.left.is_empty() {
            self.play();
        }
    }

    #[inline(never)]
    fn play(&mut self) {
        let mut dropped = 0;
        let mut left = self.left;
        while let [kind, place, number, behind @ ..] = left {
            left = behind;
            let legal = match *kind {
                0 => true,
                1 => self.step_take(*place),
                2 => self.step_release(*place, *number),
                3 => self.step_waiters(*place, *number),
                4 => self.step_health(*place, *number),
                5 => break,
                _ => false,
            };
            dropped += u32::from(!legal);
        }
        self.left = left;
        self.counts.dropped += dropped;
    }

    // Of these steps false: the step is to be dropped, and nothing has changed.

    /// In range and free, and a serial remains.
    #[inline(always)]
    fn step_take(&mut self, cell: u32) -> bool {
        let next = self.arena.head.next;
        match self.arena.cell(cell) {
            Some([bit @ 0, owner @ 0, _]) if next != NO_SERIAL => {
                (*bit, *owner) = (1, next);
                self.arena.head.next = next + 1;
                true
            }
            _ => false,
        }
    }

    /// That lease is live and not protected. "Script steps mean the head's own boot number."
    #[inline(always)]
    fn step_release(&mut self, cell: u32, serial: u32) -> bool {
        let next = self.arena.head.next;
        match self.arena.cell(cell) {
            Some([bit @ 1, owner, _]) if *owner == serial && is_issued(serial, next) => {
                let protected = if self.protected.0.is_empty() {
                    leases_of(self.held).any(|one| one.cell == cell)
                } else {
                    self.protected.has(cell)
                };
                if !protected {
                    (*bit, *owner) = (0, 0);
                }
                !protected
            }
            _ => false,
        }
    }

    #[inline(always)]
    fn step_waiters(&mut self, cell: u32, number: u32) -> bool {
        match self.arena.cell(cell) {
            Some([_, _, waiters]) => {
                *waiters = number;
                true
            }
            None => false,
        }
    }

    #[inline(always)]
    fn step_health(&mut self, header: u32, number: u32) -> bool {
        match self.health.get_mut(header as usize) {
            Some(health) if number <= 1 => {
                *health = number as u8;
                true
            }
            _ => false,
        }
    }

    // ---- The steps of a lock

    fn has_waiters(&mut self, cell: u32) -> bool {
        self.arena.cell(cell).is_some_and(|words| words[2] != 0)
    }

    /// Boundary, look at the waiters, boundary, try_acquire, boundary (protecting the new lease), look at the
    /// health of the cell's header, look at the waiters again. The serial of a lease given up here stays spent, and
    /// where others wait the reason gives it. The cell is in range, and of this header.
    #[inline(always)]
    fn try_lock(&mut self, header: u32, cell: u32) -> Attempt {
        self.boundary();
        if self.has_waiters(cell) {
            return Ok(Tried::Busy(Reason::Before));
        }
        self.boundary();
        let serial = match self.arena.try_acquire(cell)? {
            Tried::Granted(serial) => serial,
            busy => return Ok(busy),
        };
        self.protected.set(cell);
        self.boundary();
        if self.health[header as usize] != 0 {
            self.give_up(cell);
            return Err(Refusal::Poisoned(header));
        }
        if self.has_waiters(cell) {
            self.give_up(cell);
            return Ok(Tried::Busy(Reason::After(serial)));
        }
        Ok(Tried::Granted(serial))
    }

    /// Gives up a lease that this call has taken. It was protected, so it is live.
    fn give_up(&mut self, cell: u32) {
        self.protected.clear(cell);
        self.arena.release(cell);
    }

    /// Header, then its health, then the bucket: the cell.
    #[inline(always)]
    fn find(&self, header: u32, bucket: u32) -> Result<u32, Refusal> {
        match self.health.get(header as usize) {
            None => Err(Refusal::BadHeader(header)),
            Some(0) if bucket < self.arena.head.buckets => {
                Ok(header * self.arena.head.buckets + bucket)
            }
            Some(0) => Err(Refusal::InvalidBucket(bucket)),
            Some(_) => Err(Refusal::Poisoned(header)),
        }
    }

    /// Up to 4,096 attempts. After a Busy one whose number has remainder 63 by 64, a boundary and a yield; then,
    /// after each Busy one, a boundary and a spin. A spin is not counted. The reason of the last Busy attempt is passed
    /// on. Nobody changes the registry or the head's shape, so the cell is found once; the header's health is read at each
    /// attempt.
    #[inline(always)]
    fn acquire_bucket(&mut self, header: u32, bucket: u32) -> Result<Lease, Refusal> {
        self.counts.attempts += 1;
        let cell = self.find(header, bucket)?;
        let mut attempt = 0;
        loop {
            let reason = match self.try_lock(header, cell)? {
                Tried::Granted(serial) => return Ok(self.arena.lease(cell, serial)),
                Tried::Busy(reason) => reason,
            };
            if attempt % YIELD_EVERY == YIELD_EVERY - 1 {
                self.boundary();
                self.counts.yields += 1;
            }
            self.boundary();
            attempt += 1;
            if attempt == ATTEMPTS {
                return Err(Refusal::SerializationFailure(reason));
            }
            self.counts.attempts += 1;
            if self.health[header as usize] != 0 {
                return Err(Refusal::Poisoned(header));
            }
        }
    }

    /// Keys in the order given: header, bucket, and the position in the caller's list. The leases go to `taken`, which has
    /// room for them. On a refusal all are released, last first, a boundary after each.
    #[inline(always)]
    fn acquire_all(
        &mut self,
        keys: impl Iterator<Item = (u32, u32, usize)>,
        taken: &mut [[u32; 2]; MOST_LEASES],
    ) -> Answer {
        for (count, (header, bucket, position)) in keys.enumerate() {
            match self.acquire_bucket(header, bucket) {
                Ok(lease) => taken[count] = [lease.cell, lease.serial],
                Err(refusal) => {
                    for &[cell, _] in taken[..count].iter().rev() {
                        self.give_up(cell);
                        self.boundary();
                    }
                    return Answer::RefusedAt(refusal, position as u32);
                }
            }
        }
        Answer::AllGranted
    }

    /// Refusals 4, 16, 12 and 14 of `release_all`; the last three together, by position. A live lease on a cell that is
    /// marked stood in the list before. One lease alone needs no marks.
    fn check_leases(&mut self, leases: &[u32]) -> Result<(), Refusal> {
        if leases.len() % LEASE != 0 || leases.len() / LEASE > MOST_LEASES {
            return Err(Refusal::TooMany);
        }
        for (position, lease) in leases_of(leases).enumerate() {
            if lease.boot != self.arena.head.boot {
                return Err(Refusal::StaleBoot(position as u32));
            }
            if !self.arena.is_live(lease) {
                return Err(Refusal::NotHeld(position as u32));
            }
            if self.protected.has(lease.cell) {
                return Err(Refusal::Repeated(position as u32));
            }
            self.protected.set(lease.cell);
        }
        Ok(())
    }
}

/// Refusal 5: the first key whose binding is past the registry.
fn check_bindings(registry: &[u32], keys: &[u32]) -> Result<(), Refusal> {
    let past = |key: &[u32]| key[0] as usize >= registry.len();
    match keys.chunks_exact(KEY).position(past) {
        Some(position) => Err(Refusal::BadBinding(position as u32)),
        None => Ok(()),
    }
}

impl Reply {
    /// A refusal that changes nothing, all counts 0.
    fn refused(head: Head, refusal: Refusal) -> Self {
        Reply {
            head,
            answer: Answer::Refused(refusal),
            counts: Counts::default(),
        }
    }

    /// What the checks and steps of a call without a script came to.
    fn of(head: Head, steps: impl FnOnce() -> Result<Reply, Refusal>) -> Self {
        steps().unwrap_or_else(|refusal| Reply::refused(head, refusal))
    }

    fn done(head: Head) -> Self {
        Reply {
            head,
            answer: Answer::Done,
            counts: Counts::default(),
        }
    }

    fn attempted(arena: &Arena, attempts: u32, cell: u32, attempt: Attempt) -> Self {
        Reply {
            head: arena.head,
            answer: arena.answer(cell, attempt),
            counts: Counts {
                attempts,
                ..Counts::default()
            },
        }
    }
}

impl ScriptReply {
    /// What the checks and steps of a call with a script came to; a refusal here changes nothing, all counts 0.
    fn of(head: Head, place: usize, steps: impl FnOnce() -> Result<ScriptReply, Refusal>) -> Self {
        steps().unwrap_or_else(|refusal| ScriptReply {
            head,
            place,
            answer: Answer::Refused(refusal),
            counts: Counts::default(),
        })
    }
}

// ---- The calls without a script

/// Sets every table word and health byte to 0. Refused, it changes no lent word and hands back a head of four zeros.
pub fn prepare(
    headers: u32,
    buckets: u32,
    first: u32,
    boot: u32,
    table: &mut [u32],
    health: &mut [u8],
) -> Reply {
    let head = Head {
        headers,
        buckets,
        next: first,
        boot,
    };
    if !is_arena(head, table, health) {
        return Reply::refused(Head::default(), Refusal::BadShape);
    }
    table.fill(0);
    health.fill(0);
    Reply::done(head)
}

pub fn try_acquire(head: Head, table: &mut [u32], cell: u32) -> Reply {
    Reply::of(head, || {
        let mut arena = Arena::new(head, table)?;
        arena.check_cell(cell)?;
        let attempt = arena.try_acquire(cell);
        Ok(Reply::attempted(&arena, 1, cell, attempt))
    })
}

/// One release and no boundary.
pub fn drop_lease(head: Head, table: &mut [u32], lease: Lease) -> Reply {
    Reply::of(head, || {
        let mut arena = Arena::new(head, table)?;
        arena.check_live(lease)?;
        arena.release(lease.cell);
        Ok(Reply::done(head))
    })
}

/// The lease's cell.
pub fn read_permission(head: Head, table: &[u32], lease: Lease) -> Reply {
    Reply::of(head, || {
        shape(head, table)?;
        check_live(head, table, lease)?;
        Ok(Reply {
            answer: Answer::Cell(lease.cell),
            ..Reply::done(head)
        })
    })
}

/// One `try_acquire` of a live lease's cell, which is Busy, held by that lease's serial, and changes nothing.
pub fn competing_acquire_is_excluded(head: Head, table: &mut [u32], lease: Lease) -> Reply {
    Reply::of(head, || {
        let mut arena = Arena::new(head, table)?;
        arena.check_live(lease)?;
        let attempt = arena.try_acquire(lease.cell);
        Ok(Reply::attempted(&arena, 1, lease.cell, attempt))
    })
}

/// Release and `try_acquire`. Where no serial remains, the release stands and the cell is free.
pub fn release_then_handoff(head: Head, table: &mut [u32], lease: Lease) -> Reply {
    Reply::of(head, || {
        let mut arena = Arena::new(head, table)?;
        arena.check_live(lease)?;
        arena.release(lease.cell);
        let attempt = arena.try_acquire(lease.cell);
        Ok(Reply::attempted(&arena, 1, lease.cell, attempt))
    })
}

/// A `try_acquire` that is Busy, a release, a `try_acquire`.
pub fn foreign_release_between_attempts(
    head: Head,
    table: &mut [u32],
    held: &[u32],
    lease: Lease,
) -> Reply {
    Reply::of(head, || {
        let mut arena = Arena::new(head, table)?;
        arena.check_held(held)?;
        arena.check_live(lease)?;
        check_unprotected(held, lease)?;
        // the lease is live, so this one is Busy; a grant has no reason, so it is not passed on
        let _busy = arena.try_acquire(lease.cell);
        arena.release(lease.cell);
        let attempt = arena.try_acquire(lease.cell);
        Ok(Reply::attempted(&arena, 2, lease.cell, attempt))
    })
}

/// `try_acquire` after the held list's check.
pub fn acquire_preserving_borrows(head: Head, table: &mut [u32], held: &[u32], cell: u32) -> Reply {
    Reply::of(head, || {
        let mut arena = Arena::new(head, table)?;
        arena.check_held(held)?;
        arena.check_cell(cell)?;
        let attempt = arena.try_acquire(cell);
        Ok(Reply::attempted(&arena, 1, cell, attempt))
    })
}

/// `drop_lease` that refuses a lease in its held list.
pub fn drop_preserving_borrows(head: Head, table: &mut [u32], held: &[u32], lease: Lease) -> Reply {
    Reply::of(head, || {
        let mut arena = Arena::new(head, table)?;
        arena.check_held(held)?;
        arena.check_live(lease)?;
        check_unprotected(held, lease)?;
        arena.release(lease.cell);
        Ok(Reply::done(head))
    })
}

// ---- The calls with a script

/// One boundary.
pub fn environment(
    head: Head,
    table: &mut [u32],
    health: &mut [u8],
    script: &[u32],
    place: usize,
    held: &[u32],
) -> ScriptReply {
    marks!(marks if !held.is_empty() && has_steps(script, place.saturating_add(FEW_STEPS)));
    ScriptReply::of(head, place, || {
        let mut run = Run::new(head, table, health, &[], script, place, held, marks)?;
        run.boundary();
        Ok(run.reply(Answer::Done))
    })
}

/// One boundary.
pub fn environment_for_borrows(
    head: Head,
    table: &mut [u32],
    health: &mut [u8],
    script: &[u32],
    place: usize,
    held: &[u32],
) -> ScriptReply {
    environment(head, table, health, script, place, held)
}

pub fn try_lock(
    head: Head,
    table: &mut [u32],
    health: &mut [u8],
    script: &[u32],
    place: usize,
    held: &[u32],
    cell: u32,
) -> ScriptReply {
    marks!(marks if has_steps(script, place));
    ScriptReply::of(head, place, || {
        let mut run = Run::new(head, table, health, &[], script, place, held, marks)?;
        run.arena.check_cell(cell)?;
        run.counts.attempts = 1;
        let header = run.arena.header_of(cell);
        let attempt = run.try_lock(header, cell);
        let answer = run.arena.answer(cell, attempt);
        Ok(run.reply(answer))
    })
}

/// `try_lock`.
pub fn other_mutex_preserves_leases(
    head: Head,
    table: &mut [u32],
    health: &mut [u8],
    script: &[u32],
    place: usize,
    held: &[u32],
    cell: u32,
) -> ScriptReply {
    try_lock(head, table, health, script, place, held, cell)
}

/// Header from the registry, then its health, then the bucket, then `try_lock`, which reads that health again.
#[allow(clippy::too_many_arguments)]
pub fn transactional_try_lock_bucket(
    head: Head,
    table: &mut [u32],
    health: &mut [u8],
    registry: &[u32],
    script: &[u32],
    place: usize,
    held: &[u32],
    binding: u32,
    bucket: u32,
) -> ScriptReply {
    marks!(marks if has_steps(script, place));
    ScriptReply::of(head, place, || {
        let mut run = Run::new(head, table, health, registry, script, place, held, marks)?;
        let &header = registry
            .get(binding as usize)
            .ok_or(Refusal::BadBinding(0))?;
        run.counts.attempts = 1;
        let answer = match run.find(header, bucket) {
            Ok(cell) => {
                let attempt = run.try_lock(header, cell);
                run.arena.answer(cell, attempt)
            }
            Err(refusal) => Answer::Refused(refusal),
        };
        Ok(run.reply(answer))
    })
}

#[allow(clippy::too_many_arguments)]
pub fn acquire_index_bucket(
    head: Head,
    table: &mut [u32],
    health: &mut [u8],
    registry: &[u32],
    script: &[u32],
    place: usize,
    held: &[u32],
    binding: u32,
    bucket: u32,
) -> ScriptReply {
    marks!(marks if has_steps(script, place));
    ScriptReply::of(head, place, || {
        let mut run = Run::new(head, table, health, registry, script, place, held, marks)?;
        let &header = registry
            .get(binding as usize)
            .ok_or(Refusal::BadBinding(0))?;
        let answer = match run.acquire_bucket(header, bucket) {
            Ok(lease) => Answer::Granted(lease),
            Err(refusal) => Answer::Refused(refusal),
        };
        Ok(run.reply(answer))
    })
}

/// Last first, a boundary after each release.
pub fn release_all(
    head: Head,
    table: &mut [u32],
    health: &mut [u8],
    script: &[u32],
    place: usize,
    leases: &[u32],
) -> ScriptReply {
    marks!(marks if leases.len() > LEASE);
    ScriptReply::of(head, place, || {
        let mut run = Run::new(head, table, health, &[], script, place, &[], marks)?;
        run.check_leases(leases)?;
        for lease in leases.rchunks_exact(LEASE) {
            run.give_up(lease[0]);
            run.boundary();
        }
        Ok(run.reply(Answer::Done))
    })
}

/// Refusal 4 of multi-lock. Keys keep their two words; "the grant buffer has three words a key".
fn check_keys(held: &[u32], keys: &[u32], grants: &[u32]) -> Result<(), Refusal> {
    let count = keys.len() / KEY;
    if keys.len() % KEY != 0
        || held.len() / LEASE + count > MOST_LEASES
        || grants.len() != LEASE * count
    {
        return Err(Refusal::TooMany);
    }
    Ok(())
}

/// Multi-lock. On a grant the buffer holds cell, serial and boot number for each key, in key order.
#[allow(clippy::too_many_arguments)]
pub fn acquire_index_locks(
    head: Head,
    table: &mut [u32],
    health: &mut [u8],
    registry: &[u32],
    script: &[u32],
    place: usize,
    held: &[u32],
    keys: &[u32],
    grants: &mut [u32],
) -> ScriptReply {
    marks!(marks if has_steps(script, place));
    let mut taken = [[0; 2]; MOST_LEASES];
    ScriptReply::of(head, place, || {
        let mut run = Run::new(head, table, health, registry, script, place, held, marks)?;
        check_keys(held, keys, grants)?;
        check_bindings(registry, keys)?;
        let asked = keys.chunks_exact(KEY).enumerate();
        let answer = run.acquire_all(
            asked.map(|(position, key)| (registry[key[0] as usize], key[1], position)),
            &mut taken,
        );
        if answer == Answer::AllGranted {
            for (grant, [cell, serial]) in grants.chunks_exact_mut(LEASE).zip(taken) {
                grant.copy_from_slice(&[cell, serial, head.boot]);
            }
        }
        Ok(run.reply(answer))
    })
}

/// A key's cell and position in one number, which sort by cell and then by position: a position is below 64.
fn packed(cell: u32, position: usize) -> u32 {
    cell * MOST_LEASES as u32 + position as u32
}

/// Multi-lock with keys in any order, and doubles (L4). "Resolve the keys, sort by cell .., drop doubles, lock in
/// rising order, then hand back one lease per key in the caller's order, doubled keys sharing one." "BadHeader and
/// InvalidBucket are now also tested in this call before any attempt, .. header before bucket".
#[allow(clippy::too_many_arguments)]
pub fn acquire_sorted_locks(
    head: Head,
    table: &mut [u32],
    health: &mut [u8],
    registry: &[u32],
    script: &[u32],
    place: usize,
    held: &[u32],
    keys: &[u32],
    grants: &mut [u32],
) -> ScriptReply {
    marks!(marks if has_steps(script, place));
    let mut taken = [[0; 2]; MOST_LEASES];
    ScriptReply::of(head, place, || {
        let mut run = Run::new(head, table, health, registry, script, place, held, marks)?;
        check_keys(held, keys, grants)?;
        check_bindings(registry, keys)?;
        let mut asked = [0; MOST_LEASES];
        let asked = &mut asked[..keys.len() / KEY];
        for (position, key) in keys.chunks_exact(KEY).enumerate() {
            let (header, bucket) = (registry[key[0] as usize], key[1]);
            let refusal = match (header < head.headers, bucket < head.buckets) {
                (true, true) => {
                    asked[position] = packed(header * head.buckets + bucket, position);
                    continue;
                }
                (false, _) => Refusal::BadHeader(header),
                (true, false) => Refusal::InvalidBucket(bucket),
            };
            return Ok(run.reply(Answer::RefusedAt(refusal, position as u32)));
        }
        asked.sort_unstable();
        // the first position of equal cells comes first
        let firsts = asked.chunk_by(|one, other| one / 64 == other / 64);
        let answer = run.acquire_all(
            firsts.map(|same| {
                let position = same[0] as usize % MOST_LEASES;
                let (binding, bucket) = (keys[KEY * position], keys[KEY * position + 1]);
                (registry[binding as usize], bucket, position)
            }),
            &mut taken,
        );
        if answer == Answer::AllGranted {
            let firsts = asked.chunk_by(|one, other| one / 64 == other / 64);
            for (same, [cell, serial]) in firsts.zip(taken) {
                for &one in same {
                    let at = LEASE * (one as usize % MOST_LEASES);
                    grants[at..at + LEASE].copy_from_slice(&[cell, serial, head.boot]);
                }
            }
        }
        Ok(run.reply(answer))
    })
}

// ---- The crew

/// A member of a crew: its list, and how many moves it has still to make until it is finished.
#[derive(Clone, Copy, Default)]
struct Member<'c> {
    cells: &'c [u32],
    left: usize,
    /// In the crew at work: what it adds.
    adds: u16,
}

/// The crew's run: `counts` has the number of cells of each member, `cells` their lists one behind the other. A member
/// takes its cells, as many moves, and then releases them, last first.
pub fn crew(
    head: Head,
    table: &mut [u32],
    health: &[u8],
    counts: &[u32],
    cells: &[u32],
    turns: &[u32],
) -> CrewReply {
    CrewReply::of(head, || {
        let mut arena = Arena::new(head, table)?;
        if health.len() != head.headers as usize {
            return Err(Refusal::BadShape);
        }
        let mut members = check_crew(&arena, counts, cells, turns, 2)?;
        let mut moving = 0;
        for &turn in turns {
            let member = &mut members[turn as usize];
            let (left, count) = (member.left, member.cells.len());
            if left == 0 {
                continue;
            }
            if left > count {
                if !crew_take(&mut arena, health, member.cells[2 * count - left]) {
                    continue;
                }
            } else {
                arena.release(member.cells[left - 1]);
            }
            member.left = left - 1;
            moving += 1;
        }
        Ok((arena.head, CrewRun::of(&members, 2, moving, turns.len())))
    })
}

/// The crew's run with a counter for each cell. "Between holding all and releasing, a member spends one moving turn a
/// cell, rising: to each it adds the value that its lowest cell's counter had when it came to hold all, and sums wrap at
/// 65,536."
pub fn crew_at_work(
    head: Head,
    table: &mut [u32],
    health: &[u8],
    counts: &[u32],
    cells: &[u32],
    turns: &[u32],
    counters: &mut [u16],
) -> CrewReply {
    CrewReply::of(head, || {
        let mut arena = Arena::new(head, table)?;
        // "not one a cell: BadShape"
        if health.len() != head.headers as usize || 3 * counters.len() != arena.table.len() {
            return Err(Refusal::BadShape);
        }
        let mut members = check_crew(&arena, counts, cells, turns, 3)?;
        let mut moving = 0;
        for &turn in turns {
            let member = &mut members[turn as usize];
            let (left, count) = (member.left, member.cells.len());
            if left == 0 {
                continue;
            }
            if left > 2 * count {
                if !crew_take(&mut arena, health, member.cells[3 * count - left]) {
                    continue;
                }
                if left == 2 * count + 1 {
                    member.adds = counters[member.cells[0] as usize];
                }
            } else if left > count {
                let counter = &mut counters[member.cells[2 * count - left] as usize];
                *counter = counter.wrapping_add(member.adds);
            } else {
                arena.release(member.cells[left - 1]);
            }
            member.left = left - 1;
            moving += 1;
        }
        Ok((arena.head, CrewRun::of(&members, 3, moving, turns.len())))
    })
}

/// One try_lock with no script, after a health reading: nothing can change between that reading and the one in it, nor
/// between its two looks at the waiters. True if it was granted; else nothing has changed.
#[inline(always)]
fn crew_take(arena: &mut Arena, health: &[u8], cell: u32) -> bool {
    let next = arena.head.next;
    let header = arena.header_of(cell) as usize;
    match arena.cell(cell) {
        Some([bit @ 0, owner @ 0, 0]) if next != NO_SERIAL && health[header] == 0 => {
            (*bit, *owner) = (1, next);
            arena.head.next = next + 1;
            true
        }
        _ => false,
    }
}

impl CrewReply {
    /// What the checks and turns of a crew came to; a refusal changes nothing.
    fn of(head: Head, turns: impl FnOnce() -> Result<(Head, CrewRun), Refusal>) -> Self {
        match turns() {
            Ok((head, run)) => CrewReply {
                head,
                answer: Ok(run),
            },
            Err(refusal) => CrewReply {
                head,
                answer: Err(refusal),
            },
        }
    }
}

impl CrewRun {
    /// Of a member's moves, so many a cell, the first are takes and the last releases.
    fn of(members: &[Member], moves: usize, moving: u32, turns: usize) -> Self {
        let mut run = CrewRun {
            moving,
            idle: turns as u32 - moving,
            ..CrewRun::default()
        };
        for (place, member) in members.iter().enumerate() {
            let count = member.cells.len();
            run.taken[place] = count.min(moves * count - member.left) as u32;
            run.released[place] = count.saturating_sub(member.left) as u32;
        }
        run
    }
}

/// Refusal 15: crew limits; then the lists, by member; then the turns. Else the members, each with
/// so many moves a cell to make; those that there are not have no cells.
fn check_crew<'c>(
    arena: &Arena,
    counts: &[u32],
    cells: &'c [u32],
    turns: &[u32],
    moves: usize,
) -> Result<[Member<'c>; MOST_MEMBERS], Refusal> {
    let sum: u64 = counts.iter().map(|&count| u64::from(count)).sum();
    if !(1..=MOST_MEMBERS).contains(&counts.len())
        || counts.iter().any(|&count| count > MOST_MEMBER_CELLS)
        || cells.len() > MOST_CREW_CELLS
        || turns.len() > MOST_TURNS
        || sum != cells.len() as u64
    {
        return Err(Refusal::BadCrew(0));
    }
    let mut members = [Member::default(); MOST_MEMBERS];
    let mut rest = cells;
    for (number, &count) in counts.iter().enumerate() {
        let (list, behind) = rest.split_at(count as usize);
        if list
            .iter()
            .any(|&cell| 3 * cell as usize >= arena.table.len())
            || list.windows(2).any(|pair| pair[0] >= pair[1])
        {
            return Err(Refusal::BadCrew(number as u32));
        }
        members[number].cells = list;
        members[number].left = moves * list.len();
        rest = behind;
    }
    let is_member = |turn: u32| turn < counts.len() as u32;
    // without a stop at the first one the compiler tests several at once
    if turns.iter().fold(true, |all, &turn| all & is_member(turn)) {
        return Ok(members);
    }
    let first = turns.iter().position(|&turn| !is_member(turn));
    Err(Refusal::BadCrew(first.unwrap_or(0) as u32))
}
