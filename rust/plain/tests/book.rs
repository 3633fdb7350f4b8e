//! Requests L2 and L10 of document 02: the setpoint book with four versions a slot, and what the console's page says of it.
//! What is expected was worked out from the documents.

use console::dice::Dice;
use plain::book::{self, BookRefusal, Kept, Setpoint, Written};
use plain::rules::{Head, Lease, Refusal};

/// H 2, B 4: 8 slots of four lines, so a table of contents of 256 bytes; and room for four bodies. The lines of slot 2
/// stand from byte 64 on.
const ARENA: &str = "prepare 2 4 1 70\nbook 276\nprepare_book\ntry_acquire 2";
const PREPARED: &str = "done next 1 place 0 attempts 0 boundaries 0 yields 0 dropped 0\ndone\n\
                        granted 2 1 70 next 2 place 0 attempts 1 boundaries 0 yields 0 dropped 0";

fn printed(input: &str) -> String {
    let mut out = Vec::new();
    let end = console::play::play(&mut plain::Plain, &mut input.as_bytes(), &mut out);
    assert_eq!(end.lost, None);
    String::from_utf8(out).expect("the console prints text")
}

/// The lines in that arena, cell 2 held by serial 1, print these lines.
fn bench(lines: &[&str], expected: &[&str]) {
    let printed = printed(&format!("{ARENA}\n{}\n", lines.join("\n")));
    let expected = format!("{PREPARED}\n{}\n", expected.join("\n"));
    assert_eq!(printed, expected, "{lines:?}");
}

/// A head of so many headers and buckets with cells taken, each by the serial behind its number: its table.
fn arena(headers: u32, buckets: u32, taken: &[u32]) -> (Head, Vec<u32>) {
    let head = Head {
        headers,
        buckets,
        next: 5000,
        boot: 70,
    };
    let mut table = vec![0; 3 * (headers * buckets) as usize];
    for &cell in taken {
        table[3 * cell as usize] = 1;
        table[3 * cell as usize + 1] = cell + 1;
    }
    (head, table)
}

/// The lease of a cell that `arena` took.
fn lease(cell: u32) -> Lease {
    Lease {
        cell,
        serial: cell + 1,
        boot: 70,
    }
}

/// An arena of H 1 with all its cells taken, and a book for it.
struct Skid {
    head: Head,
    table: Vec<u32>,
    book: Vec<u8>,
}

/// Three cells, so three slots: a table of contents of 96 bytes.
const FRONT: usize = 96;

impl Skid {
    /// Three slots, and room for so many bytes behind the contents.
    fn new(room: usize) -> Skid {
        let (head, table) = arena(1, 3, &[0, 1, 2]);
        let book = vec![0; FRONT + room];
        Skid { head, table, book }
    }

    /// The same, handed over with these lines: slot, version, place. The lines of a slot stand newest first; each body
    /// is the speed 100 x slot + version.
    fn handed_over(room: usize, lines: &[(u32, u32, usize)]) -> Skid {
        let mut skid = Skid::new(room);
        for (at, &(slot, version, place)) in lines.iter().enumerate() {
            let age = lines[..at].iter().filter(|line| line.0 == slot).count();
            skid.put(slot, age, place, version);
            skid.put_body(place, 2, speed(slot, version));
        }
        skid
    }

    /// Writes a line.
    fn put(&mut self, slot: u32, age: usize, place: usize, version: u32) {
        let line = &mut self.book[32 * slot as usize + 8 * age..][..8];
        line.copy_from_slice(
            &[place as u32 + (5 << 16), version]
                .map(u32::to_le_bytes)
                .concat(),
        );
    }

    /// Writes a body.
    fn put_body(&mut self, place: usize, kind: u8, number: u32) {
        self.book[place] = kind;
        self.book[place + 1..place + 5].copy_from_slice(&number.to_le_bytes());
    }

    /// Writes the speed that belongs to the version that is hoped for.
    fn write(&mut self, slot: u32, version: u32) -> Result<Written, BookRefusal> {
        self.set(slot, Setpoint::Speed(speed(slot, version)))
    }

    fn set(&mut self, slot: u32, setpoint: Setpoint) -> Result<Written, BookRefusal> {
        book::write_setpoint(
            self.head,
            &self.table,
            &mut self.book,
            slot,
            lease(slot),
            setpoint,
        )
    }

    /// The same write, once it must be done with this version and so many bytes moved.
    fn write_done(&mut self, slot: u32, version: u32, moved: u32) {
        let written = self.write(slot, version);
        assert_eq!(written, Ok(Written { version, moved }));
    }

    fn read(&self, slot: u32) -> Result<Kept, BookRefusal> {
        book::read_setpoint(self.head, &self.book, slot)
    }

    fn read_version(&self, slot: u32, version: u32) -> Result<Kept, BookRefusal> {
        book::read_version(self.head, &self.book, slot, version)
    }

    /// The places of a slot's lines, newest first; 0 for an unused one.
    fn places(&self, slot: u32) -> [usize; 4] {
        let lines = &self.book[32 * slot as usize..][..32];
        [0, 8, 16, 24].map(|at| usize::from(lines[at]) + 256 * usize::from(lines[at + 1]))
    }

    /// Exactly these versions of the slot are kept, each with its speed.
    fn keeps(&self, slot: u32, versions: &[u32]) {
        let newest = versions.iter().copied().max().unwrap_or(0);
        for version in (0..newest.saturating_add(3)).chain([u32::MAX - 1, u32::MAX]) {
            let expected = match versions.contains(&version) {
                true => Ok(Kept {
                    setpoint: Setpoint::Speed(speed(slot, version)),
                    version,
                }),
                false => Err(BookRefusal::NeverWritten),
            };
            assert_eq!(self.read_version(slot, version), expected);
        }
        assert_eq!(self.read(slot), self.read_version(slot, newest));
    }

    /// Every read and every write of every slot is DamagedBook, and leaves the book.
    fn is_damaged(&mut self) {
        let before = self.book.clone();
        for slot in 0..3 {
            assert_eq!(self.read(slot), Err(BookRefusal::DamagedBook));
            for version in [0, 1, 5, u32::MAX] {
                let read = self.read_version(slot, version);
                assert_eq!(read, Err(BookRefusal::DamagedBook));
            }
            assert_eq!(self.write(slot, 1), Err(BookRefusal::DamagedBook));
        }
        assert!(self.book == before);
    }

    /// No read and no write is DamagedBook. The book is as before.
    fn is_sound(&mut self) {
        let before = self.book.clone();
        for slot in 0..3 {
            assert_ne!(self.read(slot), Err(BookRefusal::DamagedBook));
            assert_ne!(self.read_version(slot, 1), Err(BookRefusal::DamagedBook));
            assert_ne!(self.write(slot, 1), Err(BookRefusal::DamagedBook));
            self.book.copy_from_slice(&before);
        }
    }
}

/// What a version of a slot is in these tests.
fn speed(slot: u32, version: u32) -> u32 {
    version.wrapping_add(100 * slot)
}

// ---- Lines and bodies

/// "Version 0 reads as NeverWritten": every slot of a book that was only prepared, and every version.
#[test]
fn never_written() {
    for slot in 0..8 {
        bench(
            &[
                &format!("read_setpoint {slot}"),
                &format!("read_version {slot} 0"),
                &format!("read_version {slot} 1"),
                &format!("read_version {slot} 4294967295"),
            ],
            &["refused NeverWritten"; 4],
        );
    }
    bench(&["show_book"], &["book 276"]);
}

/// "place 2, length 2, version 4, low byte first": the newest line of slot 2 stands at 64, the first body behind the
/// contents at 256. A body is "a kind byte (1, 2, 3 in that order) and four bytes, low byte first".
#[test]
fn where_the_bytes_stand() {
    let line = "at 64 0 1 5 0 1 0 0 0 0 0 0 0 0 0 0 0";
    for (setpoint, body) in [
        // 1,144,201,745 is 68 x 2^24 + 51 x 2^16 + 34 x 2^8 + 17
        ("speed 1144201745", "2 17 34 51 68"),
        // 1.5 is 3f c0 00 00
        ("pressure 1069547520", "1 0 0 192 63"),
        ("valve 1", "3 1 0 0 0"),
        ("valve 0", "3 0 0 0 0"),
    ] {
        bench(
            &[&format!("write_setpoint 2 2 1 70 {setpoint}"), "show_book"],
            &[
                "done version 1 moved 0",
                "book 276",
                line,
                &format!("at 256 {body} 0 0 0 0 0 0 0 0 0 0 0"),
            ],
        );
    }
}

/// "four lines a slot, newest first, versions falling by one": the lines of slot 2 stand at 64, 72, 80 and 88. Each body
/// is behind the last.
#[test]
fn newest_first() {
    bench(
        &[
            "write_setpoint 2 2 1 70 speed 7",
            "write_setpoint 2 2 1 70 valve 1",
            "read_setpoint 2",
            "write_setpoint 2 2 1 70 pressure 2147483648",
            "show_book",
            "write_setpoint 2 2 1 70 speed 8",
            "read_setpoint 2",
            "read_version 2 4",
            "read_version 2 3",
            "read_version 2 2",
            "read_version 2 1",
            "show_book",
        ],
        &[
            "done version 1 moved 0",
            "done version 2 moved 0",
            "setpoint valve 1 version 2",
            "done version 3 moved 0",
            "book 276",
            "at 64 10 1 5 0 3 0 0 0 5 1 5 0 2 0 0 0",
            "at 80 0 1 5 0 1 0 0 0 0 0 0 0 0 0 0 0",
            "at 256 2 7 0 0 0 3 1 0 0 0 1 0 0 0 128 0",
            "done version 4 moved 0",
            "setpoint speed 8 version 4",
            "setpoint speed 8 version 4",
            "setpoint pressure 2147483648 version 3",
            "setpoint valve 1 version 2",
            "setpoint speed 7 version 1",
            "book 276",
            "at 64 15 1 5 0 4 0 0 0 10 1 5 0 3 0 0 0",
            "at 80 5 1 5 0 2 0 0 0 0 1 5 0 1 0 0 0",
            "at 256 2 7 0 0 0 3 1 0 0 0 1 0 0 0 128 2",
            "at 272 8 0 0 0",
        ],
    );
}

/// "raises the version by one", also where a byte of it overflows.
#[test]
fn versions_carry() {
    for newest in [0xff, 0xffff, 0x00ff_ffff, 0x0100_00fe] {
        let lines = [0, 1, 2, 3].map(|age| (1, newest - age, FRONT + 5 * age as usize));
        let mut skid = Skid::handed_over(25, &lines);
        skid.write_done(1, newest + 1, 0);
        assert_eq!(skid.book[36..40], (newest + 1).to_le_bytes());
        assert_eq!(skid.book[44..48], newest.to_le_bytes());
        for version in newest - 2..=newest + 1 {
            let kept = skid.read_version(1, version).expect("it is kept");
            assert_eq!(kept.setpoint, Setpoint::Speed(speed(1, version)));
        }
        let dropped = skid.read_version(1, newest - 3);
        assert_eq!(dropped, Err(BookRefusal::NeverWritten));
    }
}

/// "Writing drops the slot's oldest of four before it looks for room, then appends a body": the fifth write, with room
/// for exactly four bodies, for a few bytes more, for five.
#[test]
fn the_fifth_write() {
    for room in 20..25 {
        let mut skid = Skid::new(room);
        for version in 1..=4 {
            skid.write_done(1, version, 0);
        }
        assert_eq!(skid.places(1), [111, 106, 101, 96]);
        skid.keeps(1, &[4, 3, 2, 1]);
        // three bodies slide into the dropped one's room, 15 bytes; every time
        for newest in 5..=9 {
            skid.write_done(1, newest, 15);
            assert_eq!(skid.places(1), [111, 106, 101, 96]);
            skid.keeps(1, &[newest, newest - 1, newest - 2, newest - 3]);
        }
        assert!(skid.book[116..].iter().all(|&byte| byte == 0));
    }
    for room in 25..30 {
        let mut skid = Skid::new(room);
        for version in 1..=5 {
            skid.write_done(1, version, 0);
        }
        // appended, and the dropped one's bytes are zeros
        assert_eq!(skid.places(1), [116, 111, 106, 101]);
        assert_eq!(skid.book[96..101], [0; 5]);
        skid.keeps(1, &[5, 4, 3, 2]);
        // bodies at 106, 111 and 116 are kept, and nothing is left behind them
        skid.write_done(1, 6, 15);
        assert_eq!(skid.places(1), [111, 106, 101, 96]);
        assert!(skid.book[116..].iter().all(|&byte| byte == 0));
        skid.keeps(1, &[6, 5, 4, 3]);
    }
}

/// Every slot for itself, in a book of 64 slots: contents of 2,048 bytes, and room for four bodies each.
#[test]
fn sixty_four_slots() {
    let cells: Vec<u32> = (0..64).collect();
    let (head, table) = arena(8, 8, &cells);
    let mut book = vec![0; 2048 + 1280];
    let write = |book: &mut [u8], slot: u32, version: u32| {
        let setpoint = Setpoint::Speed(100 * slot + version);
        book::write_setpoint(head, &table, book, slot, lease(slot), setpoint)
    };
    for version in 1..=6 {
        for slot in 0..64 {
            // with all 256 bodies there, the slot's oldest stands first, and the other 255 slide
            let moved = if version > 4 { 5 * 255 } else { 0 };
            assert_eq!(
                write(&mut book, slot, version),
                Ok(Written { version, moved })
            );
        }
    }
    for slot in 0..64 {
        for version in 0..9 {
            let expected = match version {
                3..=6 => Ok(Kept {
                    setpoint: Setpoint::Speed(100 * slot + version),
                    version,
                }),
                _ => Err(BookRefusal::NeverWritten),
            };
            assert_eq!(book::read_version(head, &book, slot, version), expected);
        }
    }
    // the last slot's newest line at 32 x 63, its body last: 3,323 is 12 x 256 + 251
    assert_eq!(book[2016..2024], [251, 12, 5, 0, 6, 0, 0, 0]);
    // its oldest at 2,048 + 5 x 63 = 2,363, which is 9 x 256 + 59
    assert_eq!(book[2040..2048], [59, 9, 5, 0, 3, 0, 0, 0]);
    assert_eq!(book[3323..], [2, 162, 24, 0, 0]);
}

// ---- Room

/// A book as long as its contents is good, and BookFull at the first write, as with 4 bytes more; with 5 the second is.
#[test]
fn little_room() {
    for room in 0..10 {
        let mut skid = Skid::new(room);
        assert_eq!(skid.read(1), Err(BookRefusal::NeverWritten));
        if room >= 5 {
            skid.write_done(1, 1, 0);
            skid.keeps(1, &[1]);
        }
        let before = skid.book.clone();
        for slot in 0..3 {
            assert_eq!(skid.write(slot, 1), Err(BookRefusal::BookFull));
        }
        assert!(skid.book == before);
    }
}

/// Room for one body less than four a slot: "exactly when kept bodies after that drop leave fewer than 5 bytes". A slot of
/// four can always be written, since it gives room first; one of three cannot.
#[test]
fn one_body_less_than_four_a_slot() {
    let mut skid = Skid::new(55);
    for version in 1..=4 {
        for slot in 0..3 {
            if (slot, version) != (1, 4) {
                skid.write_done(slot, version, 0);
            }
        }
    }
    for _ in 0..3 {
        let before = skid.book.clone();
        assert_eq!(skid.write(1, 4), Err(BookRefusal::BookFull));
        assert!(skid.book == before);
    }
    skid.keeps(1, &[3, 2, 1]);
    // slot 0's oldest stands first: the ten others slide
    skid.write_done(0, 5, 50);
    // slot 2's oldest stands second then, behind slot 1's
    skid.write_done(2, 5, 45);
    assert_eq!(skid.write(1, 4), Err(BookRefusal::BookFull));
    skid.keeps(0, &[5, 4, 3, 2]);
    skid.keeps(1, &[3, 2, 1]);
    skid.keeps(2, &[5, 4, 3, 2]);
    // lent 5 bytes more, it is done
    skid.book.extend([9; 5]);
    skid.write_done(1, 4, 0);
    skid.keeps(1, &[4, 3, 2, 1]);
}

/// "kept bodies slide to the front in the order of their places", and those that stand there already stay: "bytes moved,
/// equal to the summed lengths of the bodies whose place changed".
#[test]
fn some_slide_and_others_stay() {
    let mut skid = Skid::new(30);
    skid.write_done(0, 1, 0);
    for version in 1..=4 {
        skid.write_done(1, version, 0);
    }
    skid.write_done(0, 2, 0);
    assert_eq!(skid.places(0), [121, 96, 0, 0]);
    assert_eq!(skid.places(1), [116, 111, 106, 101]);
    // 96 stays; 106, 111, 116 and 121 close the gap at 101; the new body, at 121, is not counted
    skid.write_done(1, 5, 20);
    assert_eq!(skid.places(0), [116, 96, 0, 0]);
    assert_eq!(skid.places(1), [121, 111, 106, 101]);
    skid.keeps(0, &[2, 1]);
    skid.keeps(1, &[5, 4, 3, 2]);
    // a third slot finds the book full
    assert_eq!(skid.write(2, 1), Err(BookRefusal::BookFull));
    skid.write_done(1, 6, 20);
    skid.keeps(0, &[2, 1]);
    skid.keeps(1, &[6, 5, 4, 3]);
}

/// A gap of one byte before the last body: it alone slides, over itself, and four bytes behind it are room then.
#[test]
fn a_slide_by_one_byte() {
    let lines = [(0, 1, 96), (1, 1, 101), (2, 1, 107)];
    let mut skid = Skid::handed_over(20, &lines);
    skid.write_done(0, 2, 5);
    assert_eq!(skid.places(0), [111, 96, 0, 0]);
    assert_eq!(skid.places(1), [101, 0, 0, 0]);
    assert_eq!(skid.places(2), [106, 0, 0, 0]);
    skid.keeps(0, &[2, 1]);
    skid.keeps(1, &[1]);
    skid.keeps(2, &[1]);
    // with a byte more there is room behind it, and nothing slides
    let mut skid = Skid::handed_over(21, &lines);
    skid.write_done(0, 2, 0);
    assert_eq!(skid.places(0), [112, 96, 0, 0]);
    assert_eq!(skid.places(2), [107, 0, 0, 0]);
    // the next write finds 20 bytes kept of 21: full
    assert_eq!(skid.write(0, 3), Err(BookRefusal::BookFull));
}

/// In a book handed over the places are in any order; so slide the bodies.
#[test]
fn the_order_of_places() {
    // by place: slot 2, slot 0's older, slot 1, slot 0's newest; gaps of 3, 1, 0 and 2 bytes, and 4 behind
    let lines = [(0, 9, 117), (0, 8, 105), (1, 1, 110), (2, 1, 99)];
    // version 9 has four lines: the two oldest behind these
    let lines = [&lines[..], &[(0, 7, 122), (0, 6, 127)]].concat();
    let mut skid = Skid::handed_over(132 + 4 - FRONT, &lines);
    // version 6 lies last and is dropped, so there is room behind version 7
    skid.write_done(0, 10, 0);
    assert_eq!(skid.places(0), [127, 117, 105, 122]);
    // now version 7 at 122 is dropped, and nothing is left behind 132 but 4 bytes: 99, 105, 110, 117 and 127 slide
    skid.write_done(0, 11, 25);
    assert_eq!(skid.places(2), [96, 0, 0, 0]);
    assert_eq!(skid.places(0), [121, 116, 111, 101]);
    assert_eq!(skid.places(1), [106, 0, 0, 0]);
    skid.keeps(0, &[11, 10, 9, 8]);
    skid.keeps(1, &[1]);
    skid.keeps(2, &[1]);
    assert!(skid.book[126..].iter().all(|&byte| byte == 0));
}

/// A dropped body that lay last, in a book handed over: its room is used again, and a gap before it too.
#[test]
fn the_dropped_body_lay_last() {
    let lines = [(1, 8, 96), (1, 7, 101), (1, 6, 106)];
    let oldest_at = |place| [&lines[..], &[(1, 5, place)]].concat();
    let mut skid = Skid::handed_over(20, &oldest_at(111));
    skid.write_done(1, 9, 0);
    assert_eq!(skid.places(1), [111, 96, 101, 106]);
    skid.keeps(1, &[9, 8, 7, 6]);
    // with room behind it too, it is the dropped one's that is used: behind the last body that is kept
    let mut skid = Skid::handed_over(30, &oldest_at(111));
    skid.write_done(1, 9, 0);
    assert_eq!(skid.places(1), [111, 96, 101, 106]);
    assert!(skid.book[116..].iter().all(|&byte| byte == 0));
    skid.keeps(1, &[9, 8, 7, 6]);
    // behind a gap: the new body stands at its front, and the rest of the dropped one becomes zeros
    let mut skid = Skid::handed_over(25, &oldest_at(113));
    skid.write_done(1, 9, 0);
    assert_eq!(skid.places(1), [111, 96, 101, 106]);
    assert!(skid.book[116..].iter().all(|&byte| byte == 0));
    skid.keeps(1, &[9, 8, 7, 6]);
}

/// "Vacated bytes become zeros": those that a body covered and none covers now. Free bytes that are not zeros are no
/// damage, and stay, unless a body comes to stand on them.
#[test]
fn free_bytes_that_are_not_zeros() {
    let lines = [(1, 4, 106), (1, 3, 101), (1, 2, 113), (1, 1, 119)];
    let mut skid = Skid::handed_over(30, &lines);
    for at in [96, 97, 98, 99, 100, 111, 112, 118, 124, 125] {
        skid.book[at] = 7;
    }
    skid.keeps(1, &[4, 3, 2, 1]);
    assert_eq!(skid.read(0), Err(BookRefusal::NeverWritten));
    // 119 is dropped; the new body stands at 118, where version 2 ends, and of the dropped one byte 123 is left
    skid.write_done(1, 5, 0);
    assert_eq!(skid.places(1), [118, 106, 101, 113]);
    assert_eq!(skid.book[96..101], [7; 5]);
    assert_eq!(skid.book[111..113], [7; 2]);
    assert_eq!(skid.book[123..], [0, 7, 7]);
    skid.keeps(1, &[5, 4, 3, 2]);
    // 113 is dropped; 101, 106 and 118 slide; the new body stands at 111
    skid.write_done(1, 6, 15);
    assert_eq!(skid.places(1), [111, 106, 101, 96]);
    assert_eq!(skid.book[116..], [0, 0, 0, 0, 0, 0, 0, 0, 7, 7]);
    skid.keeps(1, &[6, 5, 4, 3]);
}

/// The speeds that the slots keep, whose newest versions these are, and their places.
fn kept_bodies(skid: &Skid, newest: [u32; 3]) -> Vec<(u32, usize)> {
    let slots = newest.into_iter().zip(0..);
    let bodies = slots.flat_map(|(newest, slot)| {
        let versions = (1..=newest).rev().take(4);
        versions
            .map(move |version| speed(slot, version))
            .zip(skid.places(slot))
    });
    bodies.collect()
}

/// A write to a prepared book whose slots have these newest versions: whether it is full, what is moved, and which bytes
/// are zeros, as told by the contents before and after. The bodies moved and those that stayed; none if it is full.
fn check_write(skid: &mut Skid, newest: &mut [u32; 3], slot: u32) -> Option<(usize, usize)> {
    let version = newest[slot as usize] + 1;
    let mut kept = kept_bodies(skid, *newest);
    kept.retain(|body| version < 5 || body.0 != speed(slot, version - 4));
    let written = skid.write(slot, version);
    if FRONT + 5 * kept.len() + 5 > skid.book.len() {
        assert_eq!(written, Err(BookRefusal::BookFull));
        return None;
    }
    newest[slot as usize] = version;
    let now = kept_bodies(skid, *newest);
    let stayed = kept.iter().filter(|old| now.contains(old)).count();
    let moved = 5 * (kept.len() - stayed) as u32;
    assert_eq!(written, Ok(Written { version, moved }));
    let behind_last = kept.iter().map(|old| old.1 + 5).max().unwrap_or(FRONT);
    assert_eq!(moved > 0, behind_last + 5 > skid.book.len());
    let covered = |at: usize| now.iter().any(|body| (body.1..body.1 + 5).contains(&at));
    assert!((FRONT..skid.book.len()).all(|at| covered(at) || skid.book[at] == 0));
    Some((kept.len() - stayed, stayed))
}

/// Any writes to a prepared book of any room; every version that is kept reads as it was written, and no other.
#[test]
fn any_writes() {
    let mut dice = Dice(10);
    let (mut full, mut some, mut all) = (0, 0, 0);
    for _ in 0..400 {
        let mut skid = Skid::new(dice.below(70));
        let mut newest = [0; 3];
        for _ in 0..40 {
            match check_write(&mut skid, &mut newest, dice.number(3)) {
                None => full += 1,
                Some((0, _)) => {}
                Some((_, 0)) => all += 1,
                Some(_) => some += 1,
            }
            for (slot, newest) in (0..).zip(newest) {
                let versions: Vec<u32> = (1..=newest).rev().take(4).collect();
                skid.keeps(slot, &versions);
            }
        }
    }
    let often = [full, some, all].iter().all(|&times| times > 500);
    assert!(often, "{full} {some} {all}");
}

// ---- BadSlot

/// "one slot for each cell, at most the first 64": headers, buckets, slots.
const SHAPES: [(u32, u32, u32); 7] = [
    (1, 1, 1),
    (2, 4, 8),
    (9, 7, 63),
    (8, 8, 64),
    (5, 13, 64),
    (64, 64, 64),
    (4, 1024, 64),
];

/// 32 bytes a slot and a body; longer is good, up to 32,768. There is no slot behind the last, though there may be such a
/// cell.
#[test]
fn books_of_a_good_length() {
    for (headers, buckets, slots) in SHAPES {
        let last = slots - 1;
        let (head, table) = arena(headers, buckets, &[last]);
        let contents = 32 * slots as usize;
        for length in [contents + 5, contents + 6, 32_768] {
            let mut book = vec![7; length];
            assert_eq!(book::prepare_book(head, &mut book), Ok(()));
            assert!(book.iter().all(|&byte| byte == 0));
            let read = book::read_setpoint(head, &book, last);
            assert_eq!(read, Err(BookRefusal::NeverWritten));
            let setpoint = Setpoint::Valve(true);
            let mut write =
                |slot| book::write_setpoint(head, &table, &mut book, slot, lease(last), setpoint);
            let (version, moved) = (1, 0);
            assert_eq!(write(last), Ok(Written { version, moved }));
            let bad = BookRefusal::BadSlot;
            let behind = [slots, slots + 1, u32::MAX];
            assert_eq!(behind.map(write), [Err(bad); 3]);
            let kept = Kept { setpoint, version };
            assert_eq!(book::read_setpoint(head, &book, last), Ok(kept));
            assert_eq!(book::read_version(head, &book, last, 1), Ok(kept));
            for slot in behind {
                assert_eq!(book::read_setpoint(head, &book, slot), Err(bad));
                assert_eq!(book::read_version(head, &book, slot, 1), Err(bad));
            }
        }
    }
}

/// "A book shorter than its contents is BadSlot", and so is one over the limit. As long as its contents it is none, though
/// it has room for no body.
#[test]
fn books_of_a_bad_length() {
    for (headers, buckets, slots) in SHAPES {
        let (head, table) = arena(headers, buckets, &[0]);
        let write = |book: &mut [u8]| {
            book::write_setpoint(head, &table, book, 0, lease(0), Setpoint::Speed(1))
        };
        let contents = 32 * slots as usize;
        for length in [0, 1, contents - 1, 32_769, 33_000] {
            let mut book = vec![7; length];
            let bad = BookRefusal::BadSlot;
            assert_eq!(book::prepare_book(head, &mut book), Err(bad));
            assert_eq!(book::read_setpoint(head, &book, 0), Err(bad));
            assert_eq!(book::read_version(head, &book, 0, 1), Err(bad));
            assert_eq!(write(&mut book), Err(bad));
            assert!(book.iter().all(|&byte| byte == 7));
        }
        let mut book = vec![7; contents];
        assert_eq!(book::prepare_book(head, &mut book), Ok(()));
        assert_eq!(write(&mut book), Err(BookRefusal::BookFull));
    }
}

/// A cell behind the first 64 has no slot, though its lease is live.
#[test]
fn a_cell_without_a_slot() {
    let (head, table) = arena(5, 13, &[64]);
    let mut book = vec![0; 2100];
    let speed = Setpoint::Speed(1);
    let written = book::write_setpoint(head, &table, &mut book, 64, lease(64), speed);
    assert_eq!(written, Err(BookRefusal::BadSlot));
    let written = book::write_setpoint(head, &table, &mut book, 0, lease(64), speed);
    assert_eq!(written, Err(Refusal::NotHeld(0).into()));
}

/// A body may end with the longest book: place 32,763 is 127 x 256 + 251.
#[test]
fn the_last_place() {
    let mut skid = Skid::new(32_768 - FRONT);
    skid.put(2, 0, 32_763, 1);
    skid.put_body(32_763, 2, speed(2, 1));
    assert_eq!(skid.book[64..66], [251, 127]);
    skid.keeps(2, &[1]);
    skid.write_done(2, 2, 5);
    skid.keeps(2, &[2, 1]);
    assert_eq!(skid.book[32_763..], [0; 5]);
}

// ---- Refusals in order

/// The refusals of a write in their order.
const ORDER: [BookRefusal; 8] = [
    BookRefusal::Numbered(Refusal::BadShape),
    BookRefusal::BadSlot,
    BookRefusal::Numbered(Refusal::StaleBoot(0)),
    BookRefusal::Numbered(Refusal::NotHeld(0)),
    BookRefusal::NotFinite,
    BookRefusal::DamagedBook,
    BookRefusal::VersionsSpent,
    BookRefusal::BookFull,
];

/// How a book can be BadSlot for a call of this slot.
const BAD_SLOTS: usize = 3;

/// A write with these of the faults in `ORDER`. Slot 1 keeps the last four versions, slot 0 two; room for one more body,
/// or for none.
fn faulty_write(faults: u32, bad_slot: usize) -> Result<Written, BookRefusal> {
    let has = |fault: usize| faults >> fault & 1 == 1;
    let mut lines = vec![(0, 2, 96), (0, 1, 101)];
    lines.extend([0, 1, 2, 3].map(|age| (1, u32::MAX - age, 106 + 5 * age as usize)));
    let mut skid = Skid::handed_over(if has(7) { 34 } else { 35 }, &lines);
    let mut slot = u32::from(has(6));
    let mut lease = lease(slot);
    if has(0) {
        skid.table.pop();
    }
    if has(5) {
        // a length
        skid.book[2] = 6;
    }
    if has(1) {
        spoil_slot(&mut skid, &mut slot, bad_slot);
    }
    if has(2) {
        lease.boot = 71;
    }
    if has(3) {
        lease.serial = 9;
    }
    let setpoint = match has(4) {
        true => Setpoint::Pressure(f32::INFINITY),
        false => Setpoint::Valve(true),
    };
    let before = skid.book.clone();
    let Skid { head, table, book } = &mut skid;
    let written = book::write_setpoint(*head, table, book, slot, lease, setpoint);
    assert_eq!(written.is_err(), *book == before);
    written
}

/// "A book shorter than its contents", one over the limit, or no such slot.
fn spoil_slot(skid: &mut Skid, slot: &mut u32, how: usize) {
    match how {
        0 => skid.book.truncate(FRONT - 1),
        1 => skid.book.resize(32_769, 0),
        _ => *slot = 3,
    }
}

/// Any faults at once: the first in the order is given. VersionsSpent and BookFull never apply both: a slot at the last
/// version has four lines, and gives room for a body before it needs it.
#[test]
fn the_order_of_a_write() {
    for faults in 0..256_u32 {
        for bad_slot in 0..BAD_SLOTS {
            let expected = match ORDER.get(faults.trailing_zeros() as usize) {
                Some(&refusal) => Err(refusal),
                None => Ok(Written {
                    version: 3,
                    moved: 0,
                }),
            };
            assert_eq!(faulty_write(faults, bad_slot), expected, "{faults:08b}");
        }
    }
}

/// The reads: 1, BadSlot, DamagedBook, NeverWritten.
#[test]
fn the_order_of_a_read() {
    let order = [ORDER[0], ORDER[1], ORDER[5], BookRefusal::NeverWritten];
    for faults in 0..16_u32 {
        let has = |fault: usize| faults >> fault & 1 == 1;
        for bad_slot in 0..BAD_SLOTS {
            let mut skid = Skid::handed_over(20, &[(0, 2, 96), (0, 1, 101)]);
            if has(0) {
                skid.head.next = 0;
            }
            if has(2) {
                skid.book[2] = 6;
            }
            let mut slot = if has(3) { 2 } else { 0 };
            if has(1) {
                spoil_slot(&mut skid, &mut slot, bad_slot);
            }
            let expected = match order.get(faults.trailing_zeros() as usize) {
                Some(&refusal) => Err(refusal),
                None => Ok(Kept {
                    setpoint: Setpoint::Speed(2),
                    version: 2,
                }),
            };
            assert_eq!(skid.read(slot), expected, "{faults:04b}");
            assert_eq!(skid.read_version(slot, 2), expected, "{faults:04b}");
        }
    }
}

/// "a live lease on the slot's cell"
#[test]
fn leases() {
    let not_held = "refused 12 NotHeld 0";
    for line in [
        // another serial, serial 0, the next serial
        "write_setpoint 2 2 2 70 speed 1",
        "write_setpoint 2 2 0 70 speed 1",
        // a cell that nobody holds, and one that is out of range
        "write_setpoint 3 3 1 70 speed 1",
        "write_setpoint 2 8 1 70 speed 1",
        "write_setpoint 2 4294967295 1 70 speed 1",
        // a live lease on another cell
        "write_setpoint 1 2 1 70 speed 1",
        // a damaged cell: the owner is not below the next serial
        "head 2 4 1 70\nwrite_setpoint 2 2 1 70 speed 1",
        "word 6 2\nwrite_setpoint 2 2 1 70 speed 1",
    ] {
        bench(&[line, "show_book"], &[not_held, "book 276"]);
    }
    // waiters and health are nothing to it; a lease that was given back is dead
    bench(
        &[
            "word 8 3",
            "byte 0 1",
            "write_setpoint 2 2 1 70 speed 1",
            "drop_lease 2 1 70",
            "write_setpoint 2 2 1 70 speed 2",
            "try_acquire 2",
            "write_setpoint 2 2 1 70 speed 2",
            "write_setpoint 2 2 2 70 speed 2",
            "read_setpoint 2",
        ],
        &[
            "done version 1 moved 0",
            "done next 2 place 0 attempts 0 boundaries 0 yields 0 dropped 0",
            not_held,
            "granted 2 2 70 next 3 place 0 attempts 1 boundaries 0 yields 0 dropped 0",
            not_held,
            "done version 2 moved 0",
            "setpoint speed 2 version 2",
        ],
    );
}

/// "A pressure that is not finite: NotFinite." Infinities and NaNs: the eight bits of the exponent are all 1. A speed or a
/// valve of the same number is no pressure.
#[test]
fn not_finite() {
    for bits in [
        0x7f80_0000_u32,
        0xff80_0000,
        0x7f80_0001,
        0x7fc0_0000,
        0xffc0_0000,
        0xffff_ffff,
    ] {
        bench(
            &[
                &format!("write_setpoint 2 2 1 70 pressure {bits}"),
                "show_book",
                &format!("write_setpoint 2 2 1 70 speed {bits}"),
                "read_setpoint 2",
            ],
            &[
                "refused NotFinite",
                "book 276",
                "done version 1 moved 0",
                &format!("setpoint speed {bits} version 1"),
            ],
        );
    }
    // zero, minus zero, the smallest, the greatest, and below zero: their bits are kept
    for bits in [
        0,
        0x8000_0000_u32,
        1,
        0x8000_0001,
        0x007f_ffff,
        0x0080_0000,
        0x7f7f_ffff,
        0xff7f_ffff,
        0xbf80_0000,
    ] {
        bench(
            &[
                &format!("write_setpoint 2 2 1 70 pressure {bits}"),
                "read_setpoint 2",
            ],
            &[
                "done version 1 moved 0",
                &format!("setpoint pressure {bits} version 1"),
            ],
        );
    }
}

/// "VersionsSpent (at version 4,294,967,295)": the version before it can still be raised, and a spent slot still reads.
#[test]
fn versions_at_their_end() {
    let lines = [0, 1, 2, 3].map(|age| (1, u32::MAX - 1 - age, FRONT + 5 * age as usize));
    let mut skid = Skid::handed_over(20, &lines);
    skid.write_done(1, u32::MAX, 0);
    let before = skid.book.clone();
    assert_eq!(skid.write(1, 0), Err(BookRefusal::VersionsSpent));
    assert!(skid.book == before);
    for age in 0..4 {
        let version = u32::MAX - age;
        let kept = Kept {
            setpoint: Setpoint::Speed(speed(1, version)),
            version,
        };
        assert_eq!(skid.read_version(1, version), Ok(kept));
    }
    for version in [0, 1, u32::MAX - 4] {
        let read = skid.read_version(1, version);
        assert_eq!(read, Err(BookRefusal::NeverWritten));
    }
    // the other slots find no room
    assert_eq!(skid.write(0, 1), Err(BookRefusal::BookFull));
    book::prepare_book(skid.head, &mut skid.book).expect("a good book");
    skid.write_done(1, 1, 0);
}

// ---- Damage

/// Slot 0 keeps two versions, slot 1 four, slot 2 none. Room for two bodies more.
fn sound_book() -> Skid {
    let lines = [
        (0, 2, 96),
        (0, 1, 101),
        (1, 6, 106),
        (1, 5, 111),
        (1, 4, 116),
        (1, 3, 121),
    ];
    Skid::handed_over(40, &lines)
}

#[test]
fn no_damage() {
    let mut skid = sound_book();
    skid.is_sound();
    skid.keeps(0, &[2, 1]);
    skid.keeps(1, &[6, 5, 4, 3]);
    skid.keeps(2, &[]);
}

/// "a line .. that fits no rule": in this book, where no other byte can pass for a body, every change of one byte of the
/// contents is damage; and damage of one slot "make[s] every read and write DamagedBook".
#[test]
fn every_byte_of_the_contents() {
    for at in 0..FRONT {
        for byte in 0..=255 {
            let mut skid = sound_book();
            if skid.book[at] != byte {
                skid.book[at] = byte;
                skid.is_damaged();
            }
        }
    }
}

/// Versions that stand in a slot's lines together: "newest first, versions falling by one, unused lines zero", and as many
/// as there were settings, four at most.
const GOOD_VERSIONS: [&[u32]; 7] = [
    &[],
    &[1],
    &[2, 1],
    &[3, 2, 1],
    &[4, 3, 2, 1],
    &[5, 4, 3, 2],
    &[u32::MAX, u32::MAX - 1, u32::MAX - 2, u32::MAX - 3],
];

/// And versions that do not.
const BAD_VERSIONS: [&[u32]; 19] = [
    // too few lines for so many settings, or too many
    &[2],
    &[7, 6],
    &[3, 2],
    &[5, 4, 3],
    &[u32::MAX],
    &[3, 2, 1, 0],
    &[1, 0],
    &[0],
    // not falling by one
    &[1, 2],
    &[2, 2],
    &[3, 1, 2],
    &[4, 3, 2, 2],
    &[5, 4, 3, 1],
    &[5, 4, 2, 1],
    &[1, 2, 3, 4],
    &[0, 1],
    &[2, 1, 0, u32::MAX],
    &[1, 0, u32::MAX, u32::MAX - 1],
    &[0, u32::MAX, u32::MAX - 1, u32::MAX - 2],
];

#[test]
fn lines_that_fit_together_and_lines_that_do_not() {
    for slot in 0..3 {
        let book_of = |versions: &[u32]| {
            let mut skid = Skid::new(20);
            for (age, &version) in versions.iter().enumerate() {
                skid.put(slot, age, FRONT + 5 * age, version);
                skid.put_body(FRONT + 5 * age, 3, 1);
            }
            skid
        };
        for versions in GOOD_VERSIONS {
            book_of(versions).is_sound();
        }
        for versions in BAD_VERSIONS {
            book_of(versions).is_damaged();
        }
        // zeros in place of one of four lines
        for age in 0..4 {
            let mut skid = book_of(&[4, 3, 2, 1]);
            skid.book[32 * slot as usize + 8 * age..][..8].fill(0);
            skid.is_damaged();
        }
    }
}

/// "place": behind the contents, and not past the end. Everywhere in this book stands what may be a speed.
#[test]
fn places() {
    for place in (0..140).chain([255, 256, 65_531, 65_535]) {
        for slot in 0..3 {
            let mut skid = Skid::new(24);
            skid.book[FRONT..].fill(2);
            skid.put(slot, 0, place, 1);
            match place {
                // the book ends with byte 119
                FRONT..=115 => skid.is_sound(),
                _ => skid.is_damaged(),
            }
        }
    }
}

/// A place in the contents fits no rule, though what stands there may pass for a body: slot 2 keeps four versions whose
/// highest byte is 2, so from byte 95 on stands a speed, up to where the first body begins.
#[test]
fn a_place_in_the_contents() {
    let newest = 0x0200_0007;
    let lines = [0, 1, 2, 3].map(|age| (2, newest - age, FRONT + 5 + 5 * age as usize));
    for (place, sound) in [(FRONT - 1, false), (FRONT, true)] {
        let mut skid = Skid::handed_over(30, &lines);
        skid.put(0, 0, place, 1);
        skid.book[FRONT] = 2;
        assert_eq!(skid.book[place], 2);
        match sound {
            true => skid.is_sound(),
            false => skid.is_damaged(),
        }
    }
}

/// "two bodies that overlap", by one byte or more; two that touch are sound. Of one slot, and of two.
#[test]
fn overlaps() {
    for first in FRONT..=FRONT + 15 {
        for second in FRONT..=FRONT + 15 {
            for lines in [[(0, 2), (0, 1)], [(0, 1), (1, 1)], [(2, 1), (1, 1)]] {
                let mut skid = Skid::new(20);
                skid.book[FRONT..].fill(2);
                let [(slot, version), (other, older)] = lines;
                skid.put(slot, 0, first, version);
                skid.put(other, usize::from(other == slot), second, older);
                match first.abs_diff(second) {
                    0..=4 => skid.is_damaged(),
                    _ => skid.is_sound(),
                }
            }
        }
    }
}

/// Three bodies of which the first and the last overlap, but no two that follow each other in the contents.
#[test]
fn an_overlap_across_slots() {
    let mut skid = Skid::new(30);
    skid.book[FRONT..].fill(2);
    skid.put(0, 0, 100, 1);
    skid.put(1, 0, 115, 1);
    skid.put(2, 0, 104, 1);
    skid.is_damaged();
    skid.put(2, 0, 105, 1);
    skid.is_sound();
}

/// "kept body that fits no rule": kind 1 with finite bits, 2 with anything, 3 with 0 or 1 in all four bytes.
#[test]
fn bodies() {
    for place in [96, 101, 106, 121] {
        let check = |kind, number, sound: bool| {
            let mut skid = sound_book();
            skid.put_body(place, kind, number);
            match sound {
                true => skid.is_sound(),
                false => skid.is_damaged(),
            }
        };
        for kind in 0..=255 {
            for number in [0, 1, 2, 256, 1 << 16, 1 << 24] {
                let valve = kind == 3 && number < 2;
                check(kind, number, [1, 2].contains(&kind) || valve);
            }
        }
        for bits in [0x7f80_0000, 0xff80_0000, 0x7f80_0001, 0x7fc0_0000, u32::MAX] {
            check(1, bits, false);
            check(2, bits, true);
            check(3, bits, false);
        }
        for bits in [0x7f7f_ffff, 0xff7f_ffff, 0x8000_0000, 0x0080_0000] {
            check(1, bits, true);
        }
    }
}

/// "Preparing the book writes all of it, so what is read never depends on older bytes": also behind the contents, and only
/// what is lent.
#[test]
fn preparing_writes_all() {
    bench(
        &[
            "book 290",
            "book_byte 0 5",
            "book_byte 255 5",
            "book_byte 256 5",
            "book_byte 288 5",
            "book_byte 289 5",
            "read_setpoint 2",
            "book 289",
            "prepare_book",
            "show_book",
            "book 290",
            "show_book",
        ],
        &[
            "refused DamagedBook",
            "done",
            "book 289",
            "book 290",
            "at 288 0 5",
        ],
    );
}

// ---- What the calls take

/// The reads and the preparing take the head and the book: a wrong table is nothing to them, and a wrong health to none.
#[test]
fn what_they_take() {
    for lend in ["lend 23 2", "lend 25 2", "lend 0 0", "lend 12600 70"] {
        bench(
            &[
                "write_setpoint 2 2 1 70 speed 4",
                lend,
                "read_setpoint 2",
                "read_version 2 1",
                "write_setpoint 2 2 1 70 speed 5",
                "prepare_book",
                "read_setpoint 2",
                "read_version 2 1",
            ],
            &[
                "done version 1 moved 0",
                "setpoint speed 4 version 1",
                "setpoint speed 4 version 1",
                "refused 1 BadShape 0",
                "done",
                "refused NeverWritten",
                "refused NeverWritten",
            ],
        );
    }
    for lend in ["lend 24 0", "lend 24 1", "lend 24 3"] {
        bench(
            &[lend, "write_setpoint 2 2 1 70 speed 4", "read_setpoint 2"],
            &["done version 1 moved 0", "setpoint speed 4 version 1"],
        );
    }
    // a head out of its ranges is 1 in all four, before a book too short
    for head in [
        "0 4 2",
        "65 1 2",
        "2 0 2",
        "1 1025 2",
        "64 65 2",
        "2 4 0",
        "4294967295 4294967295 2",
    ] {
        for book in ["book 276", "book 0"] {
            bench(
                &[
                    &format!("head {head} 70"),
                    book,
                    "prepare_book",
                    "read_setpoint 99",
                    "read_version 99 1",
                    "write_setpoint 99 2 1 70 speed 1",
                ],
                &["refused 1 BadShape 0"; 4],
            );
        }
    }
}

/// They leave head, table and place.
#[test]
fn they_leave_the_rest() {
    bench(
        &[
            "script 5 0 0",
            "place 1",
            "write_setpoint 2 2 1 70 speed 4",
            "read_setpoint 2",
            "read_version 2 1",
            "prepare_book",
            "show",
            "environment",
        ],
        &[
            "done version 1 moved 0",
            "setpoint speed 4 version 1",
            "setpoint speed 4 version 1",
            "done",
            "head 2 4 2 70",
            "cell 2 1 1 0",
            "done next 2 place 1 attempts 0 boundaries 1 yields 0 dropped 0",
        ],
    );
}

// ---- The console

#[test]
fn lines_that_are_not_understood() {
    for line in [
        "book",
        "book 33001",
        "book 1 1",
        "book_byte 33000 0",
        "book_byte 0 256",
        "book_byte 0",
        "book_byte 0 0 0",
        "prepare_book 1",
        "read_setpoint",
        "read_setpoint 0 0",
        "read_setpoint x",
        "read_version",
        "read_version 2",
        "read_version 2 1 1",
        "read_version 2 x",
        "read_version 2 01",
        "read_version 2 -1",
        "read_version 2 4294967296",
        "read_version 2 speed",
        "read_versions 2 1",
        "show_book 0",
        "write_setpoint",
        "write_setpoint 2 2 1 70 speed",
        "write_setpoint 2 2 1 70 4",
        "write_setpoint 2 2 1 70 2 4",
        "write_setpoint 2 2 1 70 0 speed 4",
        "write_setpoint 2 2 1 speed 4",
        "write_setpoint 2 2 1 70 speed 4 4",
        "write_setpoint 2 2 speed 4",
        "write_setpoint speed 2 2 1 70 4",
        "write_setpoint 2 2 1 70 Speed 4",
        "write_setpoint 2 2 1 70 speeds 4",
        "write_setpoint 2 2 1 70  4",
        "write_setpoint 2 2 1 70 speed 4294967296",
        "write_setpoint 2 2 1 70 speed 04",
        "write_setpoint 2 2 1 70 speed -4",
        "write_setpoint 2 2 1 70 pressure 1.5",
        "write_setpoint 2 2 1 70 pressure speed",
        "write_setpoint 2 2 1 70 valve 2",
        "write_setpoint 2 2 1 70 valve open",
        "write_setpoint 4294967296 2 1 70 valve 1",
        "prepare 2 4 1 speed",
        "held 2 2 1 speed",
    ] {
        bench(
            &[line, "show_book"],
            &["line 5: not understood", "book 276"],
        );
    }
    bench(
        &["book 33000", "book_byte 32999 255", "book 0", "show_book"],
        &["book 0"],
    );
}

/// "`ram SEED` goes on with the same x and fills it as it fills health": the first byte of the book is made of the x
/// behind 12,600 table words and 70 health bytes. At first no byte is lent.
#[test]
fn rubbish() {
    let byte = |seed: u64, index: usize| {
        let x = (0..=12_600 + 70 + index)
            .fold(seed, |x, _| (x * 1_664_525 + 1_013_904_223) % (1 << 32));
        x / 65_536 % 256
    };
    let row = |seed, at: usize, count: usize| {
        let bytes: Vec<String> = (at..at + count)
            .map(|i| byte(seed, i).to_string())
            .collect();
        format!("at {at} {}\n", bytes.join(" "))
    };
    assert_eq!(printed("show_book"), "book 0\n");
    let shown = printed("book 33000\nshow_book");
    assert!(shown.starts_with(&format!("book 33000\n{}{}", row(1, 0, 16), row(1, 16, 16))));
    // 33,000 is 2,062 x 16 + 8
    assert!(shown.ends_with(&row(1, 32_992, 8)));
    assert_eq!(
        printed("book 5\nram 77\nshow_book\nram 1\nshow_book"),
        format!("book 5\n{}book 5\n{}", row(77, 0, 5), row(1, 0, 5))
    );
}

/// A call of the book is a call: its trace says that no bit changed. `show_book` is none.
#[test]
fn trace() {
    bench(
        &[
            "trace 1",
            "prepare_book",
            "write_setpoint 2 2 1 70 speed 4",
            "read_setpoint 2",
            "read_setpoint 9",
            "read_version 2 1",
            "read_version 2 9",
            "show_book",
        ],
        &[
            "done",
            "step 0 0 0",
            "done version 1 moved 0",
            "step 0 0 0",
            "setpoint speed 4 version 1",
            "step 0 0 0",
            "refused BadSlot",
            "step 0 0 0",
            "setpoint speed 4 version 1",
            "step 0 0 0",
            "refused NeverWritten",
            "step 0 0 0",
            "book 276",
            "at 64 0 1 5 0 1 0 0 0 0 0 0 0 0 0 0 0",
            "at 256 2 4 0 0 0 0 0 0 0 0 0 0 0 0 0 0",
        ],
    );
}
