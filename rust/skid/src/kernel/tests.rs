extern crate std;

use super::*;
use std::collections::BTreeSet;
use std::format;
use std::string::{String, ToString};

/// Numbers by chance, the same on every machine.
struct Chance(u32);

impl Chance {
    fn below(&mut self, limit: u32) -> u32 {
        self.0 = self.0.wrapping_mul(1_664_525).wrapping_add(1_013_904_223);
        (self.0 >> 8) % limit
    }
}

/// A look says Busy exactly where a take does, and for the same reason, whatever the words are.
#[test]
fn a_look_is_what_a_take_finds() {
    let chance = &mut Chance(1);
    let registry = [0, 1, 2, 1, 7];
    let mut busy = 0;
    for _ in 0..4000 {
        let (mut table, mut health) = ([0; 36], [0; 3]);
        for word in &mut table {
            *word = [0, 1, chance.below(6)][chance.below(3) as usize];
        }
        health[chance.below(3) as usize] = chance.below(2) as u8;
        let (headers, buckets, next, boot) = (3, 4, 1 + chance.below(5), 1);
        let head = Head {
            headers,
            buckets,
            next,
            boot,
        };
        let calls = crate::Arena::resume(head, &mut table, &mut health);
        let registry = &registry;
        let mut arena = Arena { calls, registry };
        let key = Key {
            binding: chance.below(6),
            bucket: chance.below(5),
        };
        let seen = arena.look(key);
        busy += usize::from(seen.is_some());
        let found = match arena.take(key) {
            Err(TakeError::Busy { reason, .. }) => Some(reason),
            _ => None,
        };
        assert_eq!(seen, found, "{head:?} {key:?}");
    }
    assert!(busy > 1000 && busy < 3000, "{busy} of 4,000 were Busy");
}

/// The same at every edge of a cell's words, of its header's health and of the next serial.
#[test]
fn a_look_is_what_a_take_finds_at_the_edges() {
    const EDGES: [u32; 8] = [0, 1, 2, 3, 4, 5, u32::MAX - 1, u32::MAX];
    for case in 0..3 * 8 * 3 * 3 * 8 {
        let mut table = [
            case as u32 % 3,
            EDGES[case / 3 % 8],
            EDGES[3 * (case / 24 % 3)],
        ];
        let mut health = [127 * (case / 72 % 3) as u8];
        let head = Head {
            headers: 1,
            buckets: 1,
            next: EDGES[case / 216],
            boot: 1,
        };
        let calls = crate::Arena::resume(head, &mut table, &mut health);
        let registry = &[0];
        let mut arena = Arena { calls, registry };
        let key = Key {
            binding: 0,
            bucket: 0,
        };
        let seen = arena.look(key);
        let found = match arena.take(key) {
            Err(TakeError::Busy { reason, .. }) => Some(reason),
            _ => None,
        };
        // No open arena has next serial 0: there a take is refused, and what a look says is of no use.
        assert!(head.next == 0 || seen == found, "{head:?} case {case}");
    }
}

/// What a cell's state says is what the library's compare-and-set answers.
#[test]
fn a_state_is_what_the_library_finds() {
    for (bit, owner) in [
        (0, 0),
        (0, 1),
        (1, 0),
        (1, 1),
        (1, 4),
        (1, 5),
        (1, 6),
        (2, 1),
    ] {
        let (mut table, mut health) = ([bit, owner, 0], [0]);
        let head = Head {
            headers: 1,
            buckets: 1,
            next: 5,
            boot: 1,
        };
        let calls = crate::Arena::resume(head, &mut table, &mut health);
        let registry = &[0];
        let mut arena = Arena { calls, registry };
        let state = arena.cells().next().map(|cell| cell.state);
        let found = match arena.calls.try_acquire(0).answer {
            crate::Answer::Granted(_) => State::Free,
            crate::Answer::Busy(Reason::Held(serial)) => State::Held(serial),
            other => {
                assert_eq!(other, crate::Answer::Refused(Refusal::Damaged(0)));
                State::Damaged
            }
        };
        assert_eq!(state, Some(found), "bit {bit}, owner {owner}");
    }
}

const REFUSALS: [Refusal; 16] = [
    Refusal::BadShape,
    Refusal::BadScript,
    Refusal::BadHeld(77),
    Refusal::TooMany,
    Refusal::BadBinding(77),
    Refusal::BadHeader(77),
    Refusal::Poisoned(77),
    Refusal::InvalidBucket(77),
    Refusal::Damaged(77),
    Refusal::SerialsSpent(77),
    Refusal::SerializationFailure(Reason::Held(77)),
    Refusal::NotHeld(77),
    Refusal::Protected,
    Refusal::Repeated(77),
    Refusal::BadCrew(77),
    Refusal::StaleBoot(77),
];

const BOOK_REFUSALS: [BookRefusal; 9] = [
    BookRefusal::BadShape,
    BookRefusal::NotHeld,
    BookRefusal::StaleBoot,
    BookRefusal::BadSlot,
    BookRefusal::NotFinite,
    BookRefusal::DamagedBook,
    BookRefusal::VersionsSpent,
    BookRefusal::NeverWritten,
    BookRefusal::BookFull,
];

/// Each refusal has a number, a name and a sentence of its own, and the sentence says what it carries.
#[test]
fn refusals_have_words() {
    let mut sentences = BTreeSet::<String>::new();
    for (at, refusal) in REFUSALS.into_iter().enumerate() {
        assert_eq!(refusal.number() as usize, at + 1);
        let carries = format!("{refusal:?}");
        assert!(carries.starts_with(refusal.name()), "{carries}");
        let sentence = refusal.to_string();
        assert_eq!(
            sentence.contains("77"),
            carries.contains("77"),
            "{sentence}"
        );
        assert!(sentences.insert(sentence));
    }
    for refusal in BOOK_REFUSALS {
        assert_eq!(format!("{refusal:?}"), refusal.name());
        let known = REFUSALS
            .iter()
            .find(|known| known.number() == refusal.number());
        assert!(known.is_none_or(|known| known.name() == refusal.name()));
    }
    let full = SalvageRefusal::ReportFull;
    assert_eq!((full.number(), full.name()), (106, "ReportFull"));
}

/// The number that a book's refusal has is the one that it is read from.
#[test]
fn book_refusals_have_their_numbers() {
    let numbers = BOOK_REFUSALS.map(BookRefusal::number);
    assert_eq!(numbers, [1, 12, 16, 101, 102, 103, 104, 105, 107]);
}

/// An error of a taking says which key, and why.
#[test]
fn take_errors_have_words() {
    let busy = TakeError::Busy {
        position: 2,
        reason: Reason::Held(9),
    };
    assert_eq!(busy.to_string(), "key 2 is Busy: held by serial 9");
    assert_eq!((busy.name(), busy.number()), ("Busy", None));
    let refused = TakeError::Refused {
        position: 0,
        refusal: Refusal::Poisoned(1),
    };
    assert_eq!(
        refused.to_string(),
        "key 0 is refused: header 1 is poisoned"
    );
    assert_eq!((refused.name(), refused.number()), ("Poisoned", Some(7)));
    assert_eq!(refused.refusal(), Some(Refusal::Poisoned(1)));
}

/// The largest memory, and a report that has room for every word of it.
#[test]
fn the_widest_memory_is_salvaged() {
    let mut memory = Memory::<Headers<64>, Buckets<64>>::new();
    let mut report = Report::<Headers<64>, Buckets<64>>::new();
    let paper = Arena::open(&mut memory, &[], 1).head();
    let (table, health) = memory.as_mut_slices();
    table.fill(7);
    health.fill(7);
    let (arena, found) = Arena::salvage(paper, &mut memory, &[], &mut report).unwrap();
    assert_eq!(
        (found.changes.len(), found.left.len()),
        (crate::MAX_CHANGES, 0)
    );
    assert!(arena
        .cells()
        .all(|cell| cell.state == State::Free && cell.waiters == 0));
}

/// An open arena is mended in place: what was live stays so, what was damaged can be taken again.
#[test]
fn an_open_arena_is_mended() {
    let (mut table, mut health) = ([0; 24], [0; 2]);
    let calls = crate::Arena::prepare(2, 4, 1, 1, &mut table, &mut health).unwrap();
    let registry = &[0, 1];
    let mut arena = Arena { calls, registry };
    let held = [arena.take_cell(2).unwrap(), arena.take_cell(3).unwrap()];
    arena.calls.table[3 * 5] = 7;
    assert!(arena
        .take_cell(5)
        .is_err_and(|error| error.number() == Some(9)));
    let mut small = Report::<Headers<1>, Buckets<1>>::new();
    assert_eq!(arena.mend(&mut small), Err(SalvageRefusal::ReportFull));
    let mut report = Report::<Headers<2>, Buckets<4>>::new();
    let change = Change {
        place: 15,
        old: 7,
        new: 0,
    };
    assert_eq!(arena.mend(&mut report), Ok(&[change][..]));
    assert_eq!(arena.mend(&mut report), Ok(&[][..]));
    assert_eq!(
        held.map(|lease| arena.read_permission(&lease)),
        [Ok(2), Ok(3)]
    );
    assert!(arena.take_cell(5).is_ok());
}

/// The sizes that the pages say.
#[test]
fn sizes_are_as_said() {
    use core::mem::size_of;
    assert_eq!(size_of::<Memory<Headers<4>, Buckets<4>>>(), 12 * 16 + 4);
    assert_eq!(size_of::<Report<Headers<4>, Buckets<4>>>(), 56 * 16);
    assert_eq!(size_of::<BookMemory<16>>(), 52 * 16);
}
