//! Bytes in the book that no call wrote: sound books as somebody else may hand them over, and damaged ones.

use super::book::{BODY, KEPT, LINE};
use super::Writer;
use crate::build::Build;

/// Newest versions of a slot in a book handed over. The highest byte of one of them is 2, as of the three before it: where
/// the contents end they may pass for a body.
const NEWEST: [u32; 9] = [0, 1, 2, 4, 9, 0x0200_0003, u32::MAX - 1, u32::MAX, u32::MAX];

/// A line in use: its slot, its age (0 is the newest), and the place of its body.
#[derive(Clone, Copy)]
struct Line {
    slot: u32,
    age: u32,
    place: u32,
}

impl Line {
    /// Where the line stands.
    fn at(self) -> u32 {
        line_at(self.slot, self.age)
    }

    /// The bytes that give it another place.
    fn with_place(self, place: u32) -> Vec<(u32, u8)> {
        let [low, high, ..] = place.to_le_bytes();
        vec![(self.at(), low), (self.at() + 1, high)]
    }

    /// The bytes that give it another version.
    fn with_version(self, version: u32) -> Vec<(u32, u8)> {
        (self.at() + 4..).zip(version.to_le_bytes()).collect()
    }

    /// The bytes that give it another body.
    fn with_body(self, kind: u8, number: u32) -> Vec<(u32, u8)> {
        let [a, b, c, d] = number.to_le_bytes();
        (self.place..).zip([kind, a, b, c, d]).collect()
    }
}

fn line_at(slot: u32, age: u32) -> u32 {
    LINE * (KEPT * slot + age)
}

impl<B: Build, J: Build + Clone, K: FnMut(&mut B, &[u8], &[u8]) -> bool> Writer<B, J, K> {
    /// Stores bytes; those that stand there already need no line. The bytes that bring back what stood there before.
    fn book_bytes(&mut self, bytes: &[(u32, u8)]) -> Vec<(u32, u8)> {
        let mut before = Vec::new();
        for &(at, byte) in bytes {
            let old = self.desk.book[at as usize];
            if old != byte {
                before.push((at, old));
                self.write("book_byte", &[at, byte.into()]);
            }
        }
        before.reverse();
        before
    }

    /// The lines in use of the first slots, whose places are in the lent book.
    fn lines_in_use(&self) -> Vec<Line> {
        let slots = 0..self.slots().min(12);
        let lines = slots.flat_map(|slot| {
            let used = self.newest(slot).min(KEPT);
            (0..used).map(move |age| {
                let at = line_at(slot, age) as usize;
                let place = [self.desk.book[at], self.desk.book[at + 1]];
                let place = u16::from_le_bytes(place).into();
                Line { slot, age, place }
            })
        });
        let end = self.desk.lent_book as u32;
        lines.filter(|line| line.place + BODY <= end).collect()
    }

    // ---- Damage

    /// A rule is broken, and calls meet it, of that slot and of others; then the bytes are mended, mostly.
    pub(super) fn damage_book(&mut self) {
        let slot = self.low_slot();
        if !self.book_fits() {
            return self.write_doubtfully(slot);
        }
        self.write_slot(slot);
        if self.newest(slot) == 0 && !self.is_damaged() {
            self.put_first(slot);
        }
        let (damaged, bytes) = self.broken();
        let before = self.book_bytes(&bytes);
        for _ in 0..self.dice.below(3) + 2 {
            let slot = match self.dice.once_in(2) {
                true => damaged,
                false => self.low_slot(),
            };
            match self.dice.below(3) {
                0 => self.write("read_setpoint", &[slot]),
                1 => self.read_version(slot),
                _ => self.write_doubtfully(slot),
            }
        }
        if self.is_damaged() && !self.dice.once_in(6) {
            self.book_bytes(&before);
        }
    }

    /// A slot, and bytes that break a rule of a line of it or of a body, most of the time.
    fn broken(&mut self) -> (u32, Vec<(u32, u8)>) {
        let lines = self.lines_in_use();
        if lines.is_empty() {
            return self.unused_line();
        }
        let line = self.dice.pick(&lines);
        let bytes = match self.dice.below(20) {
            0 => self.broken_length(line),
            1..=3 => self.broken_place(line),
            4..=5 => {
                let version = self.newest(line.slot).wrapping_sub(line.age);
                let other = self.dice.pick(&[1, u32::MAX, 2, 256, 1 << 24]);
                line.with_version(version.wrapping_add(other))
            }
            6 => line.with_version(0),
            // no line, though there was a setting
            7..=9 => (line.at()..line.at() + LINE).map(|at| (at, 0)).collect(),
            10 => return self.unused_line(),
            11..=14 => self.broken_body(line),
            _ => return self.overlapping(lines),
        };
        (line.slot, bytes)
    }

    /// A length other than 5.
    fn broken_length(&mut self, line: Line) -> Vec<(u32, u8)> {
        let any = self.dice.roll() as u8;
        let lengths = [(2, 0), (2, 4), (2, 6), (2, any), (3, 1), (3, any)];
        let (byte, value) = self.dice.pick(&lengths);
        vec![(line.at() + byte, value)]
    }

    /// A place before the contents' end, or so near the book's end that the body is past it.
    fn broken_place(&mut self, line: Line) -> Vec<(u32, u8)> {
        let (front, end) = (self.contents(), self.desk.lent_book as u32);
        // what stands there may pass for a body
        if (1..=3).contains(&self.desk.book[front as usize - 1]) {
            return line.with_place(front - 1);
        }
        let inside = self.dice.number(front);
        let places = [
            0,
            inside,
            front - 1,
            front - 1,
            end - 4,
            end - 1,
            end,
            65_535,
        ];
        line.with_place(self.dice.pick(&places))
    }

    /// A byte in a line that is not in use, if there is one.
    fn unused_line(&mut self) -> (u32, Vec<(u32, u8)>) {
        let slot = self.low_slot();
        let used = self.newest(slot).min(KEPT - 1);
        let age = used + self.dice.number(KEPT - used);
        let byte = self.dice.number(LINE);
        let value = self.dice.pick(&[1, 1, 5, 255]);
        (slot, vec![(line_at(slot, age) + byte, value)])
    }

    /// A body that means nothing, or something else.
    fn broken_body(&mut self, line: Line) -> Vec<(u32, u8)> {
        let any = self.dice.roll() as u8;
        match self.dice.below(7) {
            0 => line.with_body(0, 0),
            1..=2 => vec![(line.place, self.dice.pick(&[0, 4, 255, any]))],
            3..=4 => line.with_body(1, self.dice.pick(&[0x7f80_0000, 0xff80_0001])),
            5 => line.with_body(3, self.dice.pick(&[2, 256, u32::MAX])),
            _ => vec![(line.place + self.dice.number(BODY), any)],
        }
    }

    /// A body that is to begin where the one before it does, or one to five bytes behind: there stands what may be a
    /// speed. Five bytes behind it they touch.
    fn overlapping(&mut self, mut lines: Vec<Line>) -> (u32, Vec<(u32, u8)>) {
        if lines.len() < 2 {
            return self.unused_line();
        }
        lines.sort_unstable_by_key(|line| line.place);
        let at = self.dice.below(lines.len() - 1);
        let place = lines[at].place + self.dice.pick(&[0, 0, 1, 2, 3, 4, 4, 5]);
        let mut bytes = lines[at + 1].with_place(place);
        bytes.extend([(lines[at].place, 2), (place, 2)]);
        (lines[at].slot, bytes)
    }

    // ---- Books handed over

    /// A sound book as no call left it: bodies in any order with gaps between them, or the oldest last; versions up to the
    /// last, and free bytes that may be rubbish. Then calls that write and read it.
    pub(super) fn book_of_another(&mut self) {
        let mut lines = self.lines_of_another();
        let mut free = self.dice.pick(&[0, 1, 4, 5, 9, 12, 17]);
        let mut place = self.contents();
        self.write("book", &[place + BODY * lines.len() as u32 + free]);
        self.write("prepare_book", &[]);
        let in_order = self.dice.once_in(2);
        let mut last = 0;
        while !lines.is_empty() {
            let at = if in_order {
                0
            } else {
                self.dice.below(lines.len())
            };
            let (slot, age, version) = lines.remove(at);
            // all that is free, before the last body now and then
            let gap = match lines.is_empty() && self.dice.once_in(4) {
                true => free,
                false if in_order => 0,
                false => self.dice.pick(&[0, 0, 0, 1, 4, 5]).min(free),
            };
            place += gap;
            free -= gap;
            self.put(Line { slot, age, place }, version);
            place += BODY;
            last = slot;
        }
        if free > 0 && self.dice.once_in(2) {
            let at = place + self.dice.number(free);
            self.write("book_byte", &[at, 7]);
        }
        self.write_slot(last);
        for _ in 0..self.dice.below(3) + 1 {
            let slot = self.slot_in_use();
            self.write_doubtfully(slot);
            self.read_version(slot);
        }
    }

    /// Stores a line, and a speed as its body.
    fn put(&mut self, line: Line, version: u32) {
        let mut bytes = line.with_place(line.place);
        bytes.push((line.at() + 2, BODY as u8));
        bytes.extend(line.with_version(version));
        bytes.extend(line.with_body(2, self.dice.number(1000)));
        self.book_bytes(&bytes);
    }

    /// A first setting of a slot in a sound book, behind all others, if there is room.
    fn put_first(&mut self, slot: u32) {
        let ends = self
            .lines_in_use()
            .into_iter()
            .map(|line| line.place + BODY);
        let place = ends.max().unwrap_or(self.contents());
        if place + BODY <= self.desk.lent_book as u32 {
            self.put(
                Line {
                    slot,
                    age: 0,
                    place,
                },
                1,
            );
        }
    }

    /// Slot, age and version of the lines of a sound book.
    fn lines_of_another(&mut self) -> Vec<(u32, u32, u32)> {
        let mut lines = Vec::new();
        for slot in 0..self.slots().min(3) {
            let newest = self.dice.pick(&NEWEST);
            lines.extend((0..newest.min(KEPT)).map(|age| (slot, age, newest - age)));
        }
        lines
    }
}
