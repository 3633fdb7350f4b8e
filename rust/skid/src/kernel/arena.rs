use super::error::not_taken;
use super::{Buckets, Grants, Headers, Lease, Memory, NotGiven, TakeError};
use crate::{
    raw, Answer, Head, Key, Reason, Refusal, Script, Step, CELL_WORDS, MAX_BINDINGS, MAX_LEASES,
};

/// What a cell's words say.
#[derive(Clone, Copy, Debug, PartialEq, Eq, PartialOrd, Ord, Hash)]
pub enum State {
    /// Nobody holds it.
    Free,
    /// This serial holds it.
    Held(u32),
    /// Neither: preparing or a salvage mends it.
    Damaged,
}

/// A cell as it stands.
#[derive(Clone, Copy, Debug, PartialEq, Eq, PartialOrd, Ord, Hash)]
pub struct Cell {
    /// Header x B + bucket.
    pub cell: u32,
    /// Free, held or damaged.
    pub state: State,
    /// How many wait for it; one with waiters is not granted.
    pub waiters: u32,
}

impl Cell {
    /// The cell that three words are, by the next serial.
    fn of(cell: u32, words: &[u32], next: u32) -> Cell {
        Cell {
            cell,
            state: match (words[0], words[1]) {
                (0, 0) => State::Free,
                (1, owner) if owner >= 1 && owner < next => State::Held(owner),
                _ => State::Damaged,
            },
            waiters: words[2],
        }
    }
}

/// An open arena: its head, its registry, and the memory that it borrows.
#[derive(Debug)]
pub struct Arena<'a> {
    pub(super) calls: crate::Arena<'a>,
    pub(super) registry: &'a [u32],
}

/// The refusal of a call that cannot be Busy.
fn done(answer: Answer) -> Result<(), Refusal> {
    match answer {
        Answer::Refused(refusal) | Answer::RefusedAt(refusal, _) => Err(refusal),
        _ => Ok(()),
    }
}

fn granted(answer: Answer) -> Result<Lease, TakeError> {
    match answer {
        Answer::Granted(lease) => Ok(Lease(lease)),
        other => Err(not_taken(other)),
    }
}

impl<'a> Arena<'a> {
    /// That a registry fits, when it is compiled.
    pub(super) const fn registry_fits<const BINDINGS: usize>() {
        const {
            assert!(BINDINGS <= MAX_BINDINGS, "at most 64 bindings");
        }
    }

    /// Prepares the arena: every cell free, every header healthy, serials from 1. `boot` is a number that no opening
    /// before it had. The registry says which header each binding names. It cannot be refused: lengths and limits are
    /// checked when it is compiled.
    pub fn open<const H: usize, const B: usize, const BINDINGS: usize>(
        memory: &'a mut Memory<Headers<H>, Buckets<B>>,
        registry: &'a [u32; BINDINGS],
        boot: u32,
    ) -> Arena<'a> {
        let () = Memory::<Headers<H>, Buckets<B>>::FITS;
        Self::registry_fits::<BINDINGS>();
        let head = Head {
            headers: H as u32,
            buckets: B as u32,
            next: 1,
            boot,
        };
        let (table, health) = memory.as_mut_slices();
        // Done, and the head as it was given: see above.
        raw::prepare(head, table, health);
        Arena {
            calls: crate::Arena::resume(head, table, health),
            registry,
        }
    }

    /// Prepares it again, under a boot number that no opening before it had: every lease from before is stale.
    pub fn reopen(&mut self, boot: u32) {
        let head = Head {
            next: 1,
            boot,
            ..self.head()
        };
        raw::prepare(head, self.calls.table, self.calls.health);
        self.calls.head = head;
    }

    /// The head in force: to be kept on paper, where a dip does not reach it, before a lease is used.
    pub const fn head(&self) -> Head {
        self.calls.head()
    }

    /// One look at a key: a lease, or why not.
    pub fn take(&mut self, key: Key) -> Result<Lease, TakeError> {
        let quiet = &mut Script::quiet();
        let played = self
            .calls
            .transactional_try_lock_bucket(self.registry, quiet, &[], key);
        granted(played.answer)
    }

    /// One look at a cell, by its number: header x B + bucket.
    pub fn take_cell(&mut self, cell: u32) -> Result<Lease, TakeError> {
        granted(self.calls.try_lock(&mut Script::quiet(), &[], cell).answer)
    }

    /// Why a key's cell would be Busy now, as [`Arena::take`] would find it. A key of no cell or of a poisoned header is
    /// not Busy, nor a damaged cell that nobody waits for: these are for the call to refuse.
    ///
    /// It reads the cell's words itself, and that is tested and not proved. It grants nothing: a wrong look could only
    /// say Busy in vain, or let a call of several keys ask a held cell 4,096 times.
    pub fn look(&self, key: Key) -> Option<Reason> {
        let Head { buckets, .. } = self.head();
        let header = *self.registry.get(key.binding as usize)?;
        if *self.calls.health().get(header as usize)? != 0 || key.bucket >= buckets {
            return None;
        }
        let cell = self.cell(header * buckets + key.bucket)?;
        match cell.state {
            _ if cell.waiters != 0 => Some(Reason::Before),
            State::Held(serial) => Some(Reason::Held(serial)),
            _ => None,
        }
    }

    /// The first key that is Busy.
    fn look_all(&self, keys: &[Key]) -> Result<(), TakeError> {
        for (position, key) in keys.iter().enumerate() {
            if let Some(reason) = self.look(*key) {
                return Err(TakeError::Busy { position, reason });
            }
        }
        Ok(())
    }

    /// All keys or none, in any order, doubles too. Cells are taken in rising order, so that callers who take all they
    /// need at once never wait for one another in a circle. Keys of one cell share a lease. Busy is looked for first
    /// ([`Arena::look`]): the library's own call would ask a held cell 4,096 times.
    ///
    /// Bindings 1 and 2 both name header 1, so two of these three keys are one cell:
    ///
    /// ```
    /// use skid::kernel::{Arena, Buckets, Headers, Key, Memory};
    ///
    /// let mut memory = Memory::<Headers<2>, Buckets<4>>::new();
    /// let mut arena = Arena::open(&mut memory, &[0, 1, 1], 1);
    /// let keys = [(1, 0), (0, 2), (2, 0)].map(|(binding, bucket)| Key { binding, bucket });
    /// let grants = arena.take_all(keys).unwrap();
    /// let cells: Vec<u32> = grants.iter().map(|lease| lease.cell()).collect();
    /// assert_eq!(cells, [4, 2, 4]);
    /// arena.give_all(grants).unwrap();
    /// ```
    pub fn take_all<const N: usize>(&mut self, keys: [Key; N]) -> Result<Grants<N>, TakeError> {
        self.all(keys, true)
    }

    /// All keys or none, in the order given. Who uses it sees to it that nobody waits in a circle. Two keys of one cell
    /// cannot both be granted: [`Refusal::SerializationFailure`], after the library's 4,096 attempts.
    pub fn take_in_order<const N: usize>(
        &mut self,
        keys: [Key; N],
    ) -> Result<Grants<N>, TakeError> {
        self.all(keys, false)
    }

    fn all<const N: usize>(
        &mut self,
        keys: [Key; N],
        sorted: bool,
    ) -> Result<Grants<N>, TakeError> {
        let () = Grants::<N>::FITS;
        self.look_all(&keys)?;
        let mut grants = [crate::Lease::default(); N];
        let (calls, quiet) = (&mut self.calls, &mut Script::quiet());
        let played = if sorted {
            calls.acquire_sorted_locks(self.registry, quiet, &[], &keys, &mut grants)
        } else {
            calls.acquire_index_locks(self.registry, quiet, &[], &keys, &mut grants)
        };
        match played.answer {
            Answer::AllGranted => Ok(Grants(grants.map(Lease))),
            other => Err(not_taken(other)),
        }
    }

    /// Gives a cell back. Refused, the lease was not live: there is nothing to give.
    pub fn give(&mut self, lease: Lease) -> Result<(), Refusal> {
        done(self.calls.drop_lease(lease.0).answer)
    }

    /// Gives the cells of several keys back, each once; or, if one is refused, none, and the leases come back with the
    /// refusal. A position is that of the key.
    pub fn give_all<const N: usize>(&mut self, grants: Grants<N>) -> Result<(), NotGiven<N>> {
        let mut once = [crate::Lease::default(); MAX_LEASES];
        let mut count = 0;
        for at in grants.firsts() {
            once[count] = grants.0[at].0;
            count += 1;
        }
        let played = self.calls.release_all(&mut Script::quiet(), &once[..count]);
        done(played.answer).map_err(|refusal| {
            let at_key = |at| grants.firsts().nth(at).unwrap_or(at);
            let refusal = match refusal {
                Refusal::NotHeld(at) => Refusal::NotHeld(at_key(at)),
                Refusal::StaleBoot(at) => Refusal::StaleBoot(at_key(at)),
                other => other,
            };
            NotGiven { refusal, grants }
        })
    }

    /// The cell of a lease that is live and of this boot: its holder may read and write what the cell guards.
    pub fn read_permission(&self, lease: &Lease) -> Result<u32, Refusal> {
        done(self.calls.read_permission(lease.0).answer).map(|()| lease.cell())
    }

    fn one_step(&mut self, step: Step) -> Result<(), Refusal> {
        let steps = [step];
        done(self.calls.environment(&mut Script::new(&steps), &[]).answer)
    }

    fn set_health(&mut self, header: u32, poisoned: bool) -> Result<(), Refusal> {
        if header >= self.head().headers {
            return Err(Refusal::BadHeader(header));
        }
        self.one_step(Step::health(header, poisoned))
    }

    /// No cell of a poisoned header is granted until it is healed. A header that is not there is
    /// [`Refusal::BadHeader`].
    pub fn poison(&mut self, header: u32) -> Result<(), Refusal> {
        self.set_health(header, true)
    }

    /// Heals a header.
    pub fn heal(&mut self, header: u32) -> Result<(), Refusal> {
        self.set_health(header, false)
    }

    /// A cell that somebody waits for is not granted. A cell that is not there is [`Refusal::InvalidBucket`].
    pub fn set_waiters(&mut self, cell: u32, waiters: u32) -> Result<(), Refusal> {
        if cell >= self.head().headers * self.head().buckets {
            return Err(Refusal::InvalidBucket(cell));
        }
        self.one_step(Step::waiters(cell, waiters))
    }

    /// Whether a header is healthy; none if it is not there.
    pub fn is_healthy(&self, header: u32) -> Option<bool> {
        let health = self.calls.health().get(header as usize)?;
        Some(*health == 0)
    }

    /// A cell as it stands; none if it is not there.
    pub fn cell(&self, cell: u32) -> Option<Cell> {
        let place = CELL_WORDS * cell as usize;
        let words = self.calls.table().get(place..place + CELL_WORDS)?;
        Some(Cell::of(cell, words, self.head().next))
    }

    /// The cells as they stand, rising.
    pub fn cells(&self) -> impl ExactSizeIterator<Item = Cell> + '_ {
        let next = self.head().next;
        let cells = self.calls.table().chunks_exact(CELL_WORDS).enumerate();
        cells.map(move |(cell, words)| Cell::of(cell as u32, words, next))
    }
}
