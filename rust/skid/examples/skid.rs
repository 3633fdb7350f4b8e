//! A governor, a panel and a logger through `skid::kernel`, over cold RAM of ten seeds: opening, keys, contention, all
//! keys at once, health and waiters, the book with its slides and versions, a dip and its salvage, leases of the boot
//! before. Each figure is checked; the last line says how many were.
use skid::kernel::{
    Arena, Book, BookMemory, BookRefusal, Buckets, Change, Guard, Head, Headers, Key, Lease, Lock,
    Memory, Reason, Refusal, Report, SalvageRefusal, Setpoint, State, TakeError,
};
use std::cell::RefCell;
use std::sync::atomic::{AtomicUsize, Ordering};

const HEADERS: usize = 3;
const BUCKETS: usize = 4;
const CELLS: usize = HEADERS * BUCKETS;
const VALVES: u32 = 1;
const SENSORS: u32 = 2;
/// Bindings 1 and 3 both name the valves; binding 4 names a header that is not there.
const REGISTRY: [u32; 5] = [0, VALVES, SENSORS, VALVES, 7];

type Plant = Memory<Headers<HEADERS>, Buckets<BUCKETS>>;
type Pages = BookMemory<CELLS>;

/// The limits themselves are allowed.
const _: Memory<Headers<64>, Buckets<64>> = Memory::new();
const _: Memory<Headers<4>, Buckets<1024>> = Memory::new();
const _: BookMemory<64> = BookMemory::new();

static CHECKS: AtomicUsize = AtomicUsize::new(0);

/// One figure.
macro_rules! check {
    ($got:expr, $want:expr) => {
        CHECKS.fetch_add(1, Ordering::Relaxed);
        assert_eq!($got, $want);
    };
}

/// Numbers by chance, the same on every machine.
struct Chance(u32);

impl Chance {
    fn below(&mut self, limit: u32) -> u32 {
        self.0 = self.0.wrapping_mul(1_664_525).wrapping_add(1_013_904_223);
        (self.0 >> 8) % limit
    }
}

fn key(binding: u32, bucket: u32) -> Key {
    Key { binding, bucket }
}

fn busy<T>(position: usize, reason: Reason) -> Result<T, TakeError> {
    Err(TakeError::Busy { position, reason })
}

fn numbers(lease: &Lease) -> (u32, u32, u32) {
    (lease.cell(), lease.serial(), lease.boot())
}

/// The refusal of a taking, and the position of its key.
fn refused<T>(taken: Result<T, TakeError>) -> Option<(usize, Refusal)> {
    match taken {
        Err(TakeError::Refused { position, refusal }) => Some((position, refusal)),
        _ => None,
    }
}

fn held(arena: &Arena) -> usize {
    let held = |state| matches!(state, State::Held(_));
    arena.cells().filter(|cell| held(cell.state)).count()
}

/// Half of the words are small, so that many a cell passes for a held one.
fn cold_ram(chance: &mut Chance, memory: &mut Plant, pages: &mut Pages) {
    let (table, health) = memory.as_mut_slices();
    for word in table {
        *word = match chance.below(2) {
            1 => chance.below(3),
            _ => chance.below(1 << 24) << 8,
        };
    }
    for byte in health.iter_mut().chain(pages.as_mut_slice()) {
        *byte = chance.below(256) as u8;
    }
}

fn opened(arena: &Arena, boot: u32) {
    let head = Head {
        headers: 3,
        buckets: 4,
        next: 1,
        boot,
    };
    check!(arena.head(), head);
    check!(arena.cells().len(), CELLS);
    for cell in arena.cells() {
        check!((cell.state, cell.waiters), (State::Free, 0));
    }
    for header in 0..3 {
        check!(arena.is_healthy(header), Some(true));
    }
    check!(arena.is_healthy(3), None);
}

/// Serials 1 to 3: the panel keeps cell 6 by serial 3, the logger cell 9 by serial 2.
fn one_key(arena: &mut Arena, boot: u32) -> (Lease, Lease) {
    let governor = arena.take(key(1, 2)).unwrap();
    check!(numbers(&governor), (6, 1, boot));
    check!(arena.take(key(1, 2)), busy(0, Reason::Held(1)));
    check!(arena.take(key(3, 2)), busy(0, Reason::Held(1)));
    let logger = arena.take_cell(9).unwrap();
    check!(numbers(&logger), (9, 2, boot));
    check!(arena.take_cell(9), busy(0, Reason::Held(2)));
    check!(arena.read_permission(&governor), Ok(6));
    let old = governor.into_raw();
    check!(arena.give(Lease::from_raw(old)), Ok(()));
    check!(arena.give(Lease::from_raw(old)), Err(Refusal::NotHeld(0)));
    let panel = arena.take(key(3, 2)).unwrap();
    check!(numbers(&panel), (6, 3, boot));
    let old = Lease::from_raw(old);
    check!(arena.read_permission(&old), Err(Refusal::NotHeld(0)));
    check!(arena.read_permission(&panel), Ok(6));
    check!(
        refused(arena.take(key(5, 0))),
        Some((0, Refusal::BadBinding(0)))
    );
    check!(
        refused(arena.take(key(4, 0))),
        Some((0, Refusal::BadHeader(7)))
    );
    check!(
        refused(arena.take(key(0, 4))),
        Some((0, Refusal::InvalidBucket(4)))
    );
    check!(
        refused(arena.take_cell(12)),
        Some((0, Refusal::InvalidBucket(12)))
    );
    check!(arena.head().next, 4);
    (panel, logger)
}

/// Serials 4 to 9: three for four keys of three cells, two in order, and one that is spent where two keys in order ask
/// for one cell.
fn all_keys(arena: &mut Arena, boot: u32) {
    let keys = [key(2, 3), key(0, 0), key(3, 1), key(1, 1)];
    let grants = arena.take_all(keys).unwrap();
    let given: Vec<_> = grants.iter().map(numbers).collect();
    check!(
        given,
        [(11, 6, boot), (0, 4, boot), (5, 5, boot), (5, 5, boot)]
    );
    check!(grants.get(3), grants.get(2));
    check!(grants.get(4), None);
    check!(held(arena), 5);
    check!(arena.give_all(grants), Ok(()));
    check!(held(arena), 2);
    let two = arena.take_in_order([keys[0], keys[1]]).unwrap();
    let one_by_one: Vec<_> = two.into_leases().collect();
    check!(numbers(&one_by_one[0]), (11, 7, boot));
    check!(numbers(&one_by_one[1]), (0, 8, boot));
    for lease in one_by_one {
        check!(arena.give(lease), Ok(()));
    }
    let none = arena.take_all([]).unwrap();
    check!(arena.give_all(none), Ok(()));
    let spent = Refusal::SerializationFailure(Reason::Held(9));
    check!(
        refused(arena.take_in_order([keys[2], keys[3]])),
        Some((1, spent))
    );
    check!((held(arena), arena.head().next), (2, 10));
}

fn all_keys_refused(arena: &mut Arena) {
    let taken = key(1, 2);
    check!(arena.take_all([key(0, 0), taken]), busy(1, Reason::Held(3)));
    check!(
        arena.take_in_order([taken, key(0, 0)]),
        busy(0, Reason::Held(3))
    );
    let wrong = [
        (key(5, 0), Refusal::BadBinding(1)),
        (key(4, 0), Refusal::BadHeader(7)),
        (key(0, 9), Refusal::InvalidBucket(9)),
    ];
    for (wrong, refusal) in wrong {
        check!(
            refused(arena.take_all([key(0, 0), wrong])),
            Some((1, refusal))
        );
    }
    let sorted = arena.take_all([key(0, 0); 64]).unwrap();
    check!(
        sorted.into_leases().map(|lease| arena.give(lease)).count(),
        1
    );
    check!((held(arena), arena.head().next), (2, 11));
}

/// A list with a double of which one lease is gone: none is given back, the position is that of the key, and the leases
/// come back.
fn not_all_given(arena: &mut Arena) {
    let grants = arena.take_all([key(0, 0), key(0, 0), key(0, 1)]).unwrap();
    let last = numbers(grants.get(2).unwrap());
    let (cell, serial, boot) = last;
    let copy = Lease::from_raw(skid::Lease { cell, serial, boot });
    check!(arena.give(copy), Ok(()));
    let not_given = arena.give_all(grants).unwrap_err();
    check!(not_given.refusal, Refusal::NotHeld(2));
    check!(held(arena), 3);
    let mut leases = not_given.grants.into_leases();
    check!(leases.next().map(|lease| arena.give(lease)), Some(Ok(())));
    check!(
        leases.next().map(|lease| arena.give(lease)),
        Some(Err(Refusal::NotHeld(0)))
    );
    check!(leases.next(), None);
}

/// What others set.
fn health_and_waiters(arena: &mut Arena, panel: &Lease) {
    let next = arena.head().next;
    check!(arena.poison(VALVES), Ok(()));
    check!(arena.is_healthy(VALVES), Some(false));
    check!(
        refused(arena.take(key(1, 2))),
        Some((0, Refusal::Poisoned(VALVES)))
    );
    check!(arena.look(key(1, 2)), None);
    check!(arena.read_permission(panel), Ok(6));
    check!(arena.heal(VALVES), Ok(()));
    check!(arena.take(key(1, 2)), busy(0, Reason::Held(3)));
    check!(arena.poison(3), Err(Refusal::BadHeader(3)));
    check!(arena.heal(u32::MAX), Err(Refusal::BadHeader(u32::MAX)));
    check!(arena.set_waiters(0, 2), Ok(()));
    check!(arena.cells().next().map(|cell| cell.waiters), Some(2));
    check!(arena.take(key(0, 0)), busy(0, Reason::Before));
    check!(
        arena.take_all([key(0, 1), key(0, 0)]),
        busy(1, Reason::Before)
    );
    check!(arena.set_waiters(0, 0), Ok(()));
    let lease = arena.take(key(0, 0)).unwrap();
    check!(lease.serial(), next);
    check!(arena.give(lease), Ok(()));
    check!(arena.set_waiters(12, 1), Err(Refusal::InvalidBucket(12)));
    check!(arena.head().next, next + 1);
}

fn book_written(arena: &Arena, book: &mut Book, panel: &Lease) {
    check!(book.read(arena, 6), Err(BookRefusal::NeverWritten));
    let settings = [
        Setpoint::Pressure(1.5),
        Setpoint::Speed(u32::MAX),
        Setpoint::Valve(true),
        Setpoint::Pressure(-0.0),
        Setpoint::Valve(false),
    ];
    for (at, setpoint) in settings.into_iter().enumerate() {
        let written = book.write(arena, panel, setpoint).unwrap();
        check!((written.version, written.moved), (at as u32 + 1, 0));
        let newest = book.read(arena, 6).unwrap();
        check!((newest.setpoint, newest.version), (setpoint, at as u32 + 1));
    }
    check!(
        book.read_version(arena, 6, 1),
        Err(BookRefusal::NeverWritten)
    );
    check!(
        book.read_version(arena, 6, 6),
        Err(BookRefusal::NeverWritten)
    );
    let kept: Vec<_> = book.history(arena, 6).map(|kept| kept.setpoint).collect();
    check!(kept, settings[1..]);
}

fn book_refused(arena: &Arena, book: &mut Book, panel: &Lease) {
    for bar in [f32::NAN, f32::NEG_INFINITY] {
        let setpoint = Setpoint::Pressure(bar);
        check!(
            book.write(arena, panel, setpoint),
            Err(BookRefusal::NotFinite)
        );
    }
    let never = Lease::from_raw(skid::Lease {
        cell: 6,
        serial: 1,
        boot: panel.boot(),
    });
    check!(
        book.write(arena, &never, Setpoint::Speed(1)),
        Err(BookRefusal::NotHeld)
    );
    check!(book.read(arena, 12), Err(BookRefusal::BadSlot));
}

/// A setting of the logger's in front, then 100 of the panel's. Twelve slots have room for 48 bodies; where it is used
/// up, the panel's three that stay slide behind the logger's one, 15 bytes, and with that write 44 find room.
fn book_slides(arena: &Arena, book: &mut Book, panel: &Lease, logger: &Lease) {
    book.write(arena, logger, Setpoint::Pressure(2.25)).unwrap();
    for version in 1..=100 {
        let written = book
            .write(arena, panel, Setpoint::Speed(1000 + version))
            .unwrap();
        let moved = if [48, 92].contains(&version) { 15 } else { 0 };
        check!((written.version, written.moved), (version, moved));
        check!(
            book.read(arena, 9).unwrap().setpoint,
            Setpoint::Pressure(2.25)
        );
        let oldest = version.saturating_sub(3).max(1);
        let kept: Vec<_> = book.history(arena, 6).map(|kept| kept.version).collect();
        check!(kept, (oldest..=version).collect::<Vec<_>>());
    }
}

/// One bit word is no bit, somebody seems to wait, a health byte is neither 0 nor 1.
fn dip(memory: &mut Plant) {
    let (table, health) = memory.as_mut_slices();
    table[0] = 5;
    table[17] = 7;
    health[SENSORS as usize] = 9;
}

/// The panel's lease, confirmed; the logger's is given back.
fn salvaged(memory: &mut Plant, paper: Head, panel: skid::Lease) -> Head {
    let mut report = Report::new();
    let turned = Head {
        headers: 4,
        buckets: 3,
        ..paper
    };
    let wrong = Arena::salvage(turned, memory, &REGISTRY, &mut report).map(|_| ());
    check!(wrong, Err(SalvageRefusal::BadShape));
    let (mut arena, found) = Arena::salvage(paper, memory, &REGISTRY, &mut report).unwrap();
    let changes = [(0, 5, 0), (17, 7, 0), (38, 9, 1)];
    check!(
        found.changes,
        changes.map(|(place, old, new)| Change { place, old, new })
    );
    check!(found.left.len(), 2);
    let mut left = found.left;
    let confirmed = left.next().unwrap();
    check!(confirmed, Lease::from_raw(panel));
    check!(arena.read_permission(&confirmed), Ok(6));
    check!(left.next().map(|lease| arena.give(lease)), Some(Ok(())));
    check!(left.next(), None);
    check!(
        refused(arena.take(key(2, 0))),
        Some((0, Refusal::Poisoned(SENSORS)))
    );
    check!(arena.heal(SENSORS), Ok(()));
    let paper = arena.head();
    let (_, found) = Arena::salvage(paper, memory, &REGISTRY, &mut report).unwrap();
    check!((found.changes.len(), found.left.len()), (0, 1));
    paper
}

fn next_boot(arena: &mut Arena, book: &mut Book, panel: skid::Lease) {
    let stale = Lease::from_raw(panel);
    check!(held(arena), 0);
    check!(arena.read_permission(&stale), Err(Refusal::StaleBoot(0)));
    check!(
        book.write(arena, &stale, Setpoint::Speed(1)),
        Err(BookRefusal::StaleBoot)
    );
    check!(arena.give(stale), Err(Refusal::StaleBoot(0)));
    check!(book.read(arena, 6).unwrap().setpoint, Setpoint::Speed(1100));
}

/// Who holds each cell and its version in the book, as a referee notes them beside the arena.
#[derive(Default)]
struct Notes {
    holders: [Option<usize>; CELLS],
    versions: [u32; CELLS],
    grants: u32,
}

/// One of the three: takes one to three keys that it draws, which must be Busy exactly if one of them is held.
fn begins(chance: &mut Chance, arena: &mut Arena, notes: &mut Notes, who: usize) -> Vec<Lease> {
    let count = 1 + chance.below(3);
    let keys = [(); 3].map(|()| key(chance.below(4), chance.below(4)));
    let cell = |key: &Key| (REGISTRY[key.binding as usize] * 4 + key.bucket) as usize;
    let (asked, [one, two, three]) = (&keys[..count as usize], keys);
    let waits = asked.iter().any(|key| notes.holders[cell(key)].is_some());
    let taken: Result<Vec<_>, _> = match count {
        1 => arena.take(one).map(|lease| vec![lease]),
        2 => arena
            .take_all([one, two])
            .map(|grants| grants.into_leases().collect()),
        _ => arena
            .take_all([one, two, three])
            .map(|grants| grants.into_leases().collect()),
    };
    check!(taken.as_ref().is_err_and(|error| error.is_busy()), waits);
    check!(taken.is_ok(), !waits);
    let leases = taken.unwrap_or_default();
    for lease in &leases {
        check!(notes.holders[lease.cell() as usize].replace(who), None);
        notes.grants += 1;
    }
    leases
}

fn works(arena: &Arena, book: &mut Book, notes: &mut Notes, lease: &Lease, setpoint: Setpoint) {
    check!(arena.read_permission(lease), Ok(lease.cell()));
    let version = &mut notes.versions[lease.cell() as usize];
    *version += 1;
    check!(
        book.write(arena, lease, setpoint)
            .map(|written| written.version),
        Ok(*version)
    );
    check!(
        book.read(arena, lease.cell()).map(|newest| newest.setpoint),
        Ok(setpoint)
    );
}

fn ends(arena: &mut Arena, notes: &mut Notes, leases: &mut Vec<Lease>) {
    for lease in leases.drain(..) {
        notes.holders[lease.cell() as usize] = None;
        check!(arena.give(lease), Ok(()));
    }
}

/// The three at work by chance.
fn shift(chance: &mut Chance, arena: &mut Arena, book: &mut Book) {
    let mut notes = Notes::default();
    let mut workers = [const { Vec::new() }; 3];
    for turn in 0..3000 {
        let leases: &mut Vec<Lease> = &mut workers[turn % 3];
        let at = chance.below(leases.len().max(1) as u32) as usize;
        match leases.get(at) {
            None => *leases = begins(chance, arena, &mut notes, turn % 3),
            Some(_) if chance.below(3) == 0 => ends(arena, &mut notes, leases),
            Some(lease) => works(
                arena,
                book,
                &mut notes,
                lease,
                Setpoint::Speed(chance.below(9000)),
            ),
        }
        check!(held(arena), notes.holders.iter().flatten().count());
    }
    for leases in &mut workers {
        ends(arena, &mut notes, leases);
    }
    check!((held(arena), arena.head().next), (0, 1 + notes.grants));
    check!(notes.grants > 100, true);
}

/// A cell goes back when its guard goes, and stays with who keeps the lease. A guard from before a preparation gives
/// nothing back that is another's.
fn guards(arena: &RefCell<Arena>, boot: u32) {
    let held_now = || arena.with(|arena| held(arena));
    {
        let first = Guard::take(arena, key(0, 0)).unwrap();
        let second = Guard::take(arena, key(0, 1)).unwrap();
        check!((first.lease().cell(), second.lease().cell()), (0, 1));
        check!(
            Guard::take(arena, key(0, 0)).is_err_and(|error| error.is_busy()),
            true
        );
        check!(held_now(), 2);
    }
    check!(held_now(), 0);
    let kept = Guard::take(arena, key(0, 0)).unwrap().keep();
    check!(held_now(), 1);
    drop(Guard::of(arena, kept));
    check!(held_now(), 0);
    let stale = Guard::take(arena, key(0, 0)).unwrap();
    arena.with(|arena| arena.reopen(boot));
    let newer = Guard::take(arena, key(0, 0)).unwrap();
    check!(numbers(newer.lease()), (0, 1, boot));
    drop(stale);
    check!(held_now(), 1);
    drop(newer);
    check!(held_now(), 0);
}

fn one_seed(seed: u32) {
    let chance = &mut Chance(seed);
    let (mut memory, mut pages) = (Plant::new(), Pages::new());
    let boot = 3 * seed;
    cold_ram(chance, &mut memory, &mut pages);
    let mut arena = Arena::open(&mut memory, &REGISTRY, boot);
    opened(&arena, boot);
    let (panel, logger) = one_key(&mut arena, boot);
    all_keys(&mut arena, boot);
    all_keys_refused(&mut arena);
    not_all_given(&mut arena);
    health_and_waiters(&mut arena, &panel);
    let unread = Book::resume(&mut pages).read(&arena, 6);
    check!(unread, Err(BookRefusal::DamagedBook));
    let mut book = Book::open(&arena, &mut pages).unwrap();
    book_written(&arena, &mut book, &panel);
    book_refused(&arena, &mut book, &panel);
    let mut book = Book::open(&arena, &mut pages).unwrap();
    book_slides(&arena, &mut book, &panel, &logger);
    let paper = arena.head();
    let (panel, _) = (panel.into_raw(), logger.into_raw());
    dip(&mut memory);
    check!(salvaged(&mut memory, paper, panel), paper);
    let mut arena = Arena::open(&mut memory, &REGISTRY, boot + 1);
    next_boot(&mut arena, &mut Book::resume(&mut pages), panel);
    let mut book = Book::open(&arena, &mut pages).unwrap();
    shift(chance, &mut arena, &mut book);
    guards(&RefCell::new(arena), boot + 2);
}

fn main() {
    for seed in 1..=10 {
        one_seed(seed);
    }
    let checks = CHECKS.load(Ordering::Relaxed);
    println!("the kernel's face: {checks} figures of ten seeds, all as they should be");
}
