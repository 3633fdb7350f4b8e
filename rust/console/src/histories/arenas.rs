//! Arenas: prepared, damaged, mended, under other heads and lengths, and calls that meet several faults at once.

use super::{Writer, CALLS};
use crate::build::Build;
use crate::build::Head;
use crate::desk;

impl<B: Build, J: Build + Clone, K: FnMut(&mut B, &[u8], &[u8]) -> bool> Writer<B, J, K> {
    pub(super) fn arena(&mut self) {
        if self.dice.once_in(8) {
            let seed = self.dice.odd_number();
            self.write("ram", &[seed]);
            if self.dice.once_in(2) {
                self.rubbish();
            }
        }
        if self.desk.lent.is_some() {
            self.write("lend", &[]);
        }
        let [headers, buckets] = match self.dice.below(40) {
            0 => self
                .dice
                .pick(&[[64, 64], [4, 1024], [1, 1024], [63, 65], [64, 1], [16, 256]]),
            1..=4 => [self.dice.number(64) + 1, self.dice.number(20) + 1],
            _ => [self.dice.number(4) + 1, self.dice.number(6) + 1],
        };
        let first = match self.dice.below(24) {
            0 => u32::MAX,
            1..=3 => u32::MAX - self.dice.number(8),
            4..=5 => self.dice.number(1000) + 1,
            _ => 1,
        };
        if self.dice.once_in(6) {
            self.bad_prepare(headers, buckets, first);
        }
        self.prepare(headers, buckets, first);
        self.registry();
        if self.dice.once_in(3) {
            self.write("held", &[]);
        }
        self.script();
    }

    /// A head over rubbish, and a few cells in it made whole.
    pub(super) fn rubbish(&mut self) {
        let headers = self.dice.number(3) + 1;
        let buckets = self.dice.number(4) + 1;
        let (next, boot) = (self.dice.odd_number(), self.next_boot());
        self.write("head", &[headers, buckets, next, boot]);
        for _ in 0..self.dice.below(4) {
            self.damage();
        }
        for _ in 0..self.dice.below(4) {
            self.call();
        }
        self.show();
        self.map();
    }

    pub(super) fn bad_prepare(&mut self, headers: u32, buckets: u32, first: u32) {
        let odd = self.dice.odd_number();
        let numbers = match self.dice.below(8) {
            0 => [0, buckets, first],
            1 => [headers, 0, first],
            2 => [headers, buckets, 0],
            3 => [65, buckets, first],
            4 => [headers, 1025, first],
            5 => [64, 65, first],
            6 => [odd, odd, first],
            _ => [headers, buckets, first],
        };
        if numbers == [headers, buckets, first] || self.dice.once_in(3) {
            self.lend(numbers[0].min(64), numbers[1].min(1024));
        }
        let [headers, buckets, first] = numbers;
        let boot = self.next_boot();
        self.write("prepare", &[headers, buckets, first, boot]);
        if self.desk.lent.is_some() {
            self.write("lend", &[]);
        }
    }

    /// Another lending than these numbers ask for, or the same said out loud.
    pub(super) fn lend(&mut self, headers: u32, buckets: u32) {
        let words = (3 * headers * buckets).min(desk::TABLE as u32);
        let words = match self.dice.below(8) {
            0 => words.saturating_sub(1),
            1 => words + 1,
            2 => words + 3,
            3 => self.dice.number(desk::TABLE as u32 + 1),
            _ => words,
        };
        let bytes = match self.dice.below(5) {
            0 => headers.saturating_sub(1),
            1 => headers + 1,
            2 => self.dice.number(desk::HEALTH as u32 + 1),
            _ => headers,
        };
        let words = words.min(desk::TABLE as u32);
        self.write("lend", &[words, bytes.min(desk::HEALTH as u32)]);
    }

    pub(super) fn damage(&mut self) {
        let cell = self.cell().min(self.cells());
        let next = self.next();
        let [bit, owner, _] = self.words(cell);
        match self.dice.below(12) {
            // a whole cell again: free, or held
            0..=1 => {
                self.write("word", &[3 * cell, 0]);
                self.write("word", &[3 * cell + 1, 0]);
            }
            2 => {
                self.write("word", &[3 * cell, 1]);
                let serial = self.dice.number(next.saturating_sub(1)) + 1;
                self.write("word", &[3 * cell + 1, serial]);
            }
            // waiters
            3..=4 => {
                let waiters = self.dice.pick(&[0, 0, 1, u32::MAX]);
                self.write("word", &[3 * cell + 2, waiters]);
            }
            // damage, or what looks like it
            5 => self.write("word", &[3 * cell, bit ^ 1]),
            6 => {
                let bit = self.dice.pick(&[0, 1, 2, u32::MAX]);
                self.write("word", &[3 * cell, bit]);
            }
            7 => {
                let owner = self.dice.pick(&[
                    0,
                    1,
                    next,
                    next.wrapping_sub(1),
                    owner.wrapping_add(1),
                    u32::MAX,
                ]);
                self.write("word", &[3 * cell + 1, owner]);
            }
            8..=9 => {
                let headers = self.headers();
                let header = self.dice.number(headers);
                let byte = self.dice.pick(&[1, 2, 128, 255]);
                self.write("byte", &[header, byte]);
            }
            _ => {
                let header = self.dice.number(desk::HEALTH as u32);
                self.write("byte", &[header, 0]);
            }
        }
    }

    /// Cells that are no longer whole, waited for, or under a poisoned header are mended, so that calls go on
    /// meeting all kinds of cells.
    pub(super) fn mend(&mut self) {
        for header in 0..self.headers() {
            if self.desk.health[header as usize] != 0 && self.dice.once_in(2) {
                self.write("byte", &[header, 0]);
            }
        }
        for cell in 0..self.cells().min(12) {
            let [bit, owner, waiters] = self.words(cell);
            if waiters != 0 && self.dice.once_in(2) {
                self.write("word", &[3 * cell + 2, 0]);
            }
            let whole = [bit, owner] == [0, 0] || self.is_live(cell, owner);
            if !whole && self.dice.once_in(3) {
                self.write("word", &[3 * cell, 0]);
                self.write("word", &[3 * cell + 1, 0]);
            }
        }
    }

    /// A poisoned header is mended, most of the time.
    pub(super) fn heal(&mut self, header: u32) {
        if self.desk.health[header as usize] != 0 && !self.dice.once_in(6) {
            self.write("byte", &[header, 0]);
        }
    }

    /// Another head for some calls.
    pub(super) fn other_head(&mut self) {
        let Head {
            headers,
            buckets,
            next,
            boot,
        } = self.desk.head;
        let back = self.dice.number(4);
        let odd = self.dice.odd_number();
        let numbers = match self.dice.below(16) {
            0 => [0, buckets, next],
            1 => [65, buckets, next],
            2 => [headers, 0, next],
            3 => [headers, 1025, next],
            4 => [headers, buckets, 0],
            5 => [64, 65, next],
            6 => [odd, buckets, next],
            7 => [headers, odd, next],
            8 => [u32::MAX, u32::MAX, next],
            9 => [buckets, headers, next],
            // owners at or above next: damaged
            10 => [headers, buckets, next.saturating_sub(back)],
            11 => [headers, buckets, u32::MAX],
            12 => [headers, buckets, u32::MAX - 1 - back],
            _ => [headers, buckets, next],
        };
        // a head of another boot: the leases of this one are stale meanwhile
        let other = match self.dice.below(6) {
            0..=1 => self.next_boot(),
            _ => boot,
        };
        if other != boot {
            self.remember();
        }
        self.write("head", &[numbers[0], numbers[1], numbers[2], other]);
        for _ in 0..self.dice.below(3) + 1 {
            self.call();
        }
        if self.dice.once_in(3) {
            self.show();
        }
        if self.dice.once_in(3) {
            self.map();
        }
        // the serials spent meanwhile are spent, where the head was a good one
        let now = self.desk.head.next;
        let kept = numbers[..2] == [headers, buckets] && now != 0 && self.dice.once_in(2);
        let next = if kept { now } else { next };
        if other != boot {
            self.remember();
        }
        self.write("head", &[headers, buckets, next, boot]);
    }

    pub(super) fn other_lending(&mut self) {
        let (headers, buckets) = (self.headers(), self.buckets());
        self.lend(headers.min(64), buckets.min(1024));
        for _ in 0..self.dice.below(3) + 1 {
            self.call();
        }
        if self.dice.once_in(4) {
            self.show();
        }
        if self.dice.once_in(2) {
            self.map();
        }
        self.write("lend", &[]);
    }

    /// Several faults at once, for the order of the checks; then all is good again.
    pub(super) fn faults(&mut self) {
        let head = self.desk.head;
        if self.dice.once_in(6) {
            let (headers, buckets) = (self.headers(), self.buckets());
            self.lend(headers.min(64), buckets.min(1024));
        }
        if self.dice.once_in(8) {
            self.write("head", &[head.headers, head.buckets, 0, head.boot]);
        }
        if self.dice.once_in(8) {
            self.write("registry", &[0; 65]);
        }
        match self.dice.below(6) {
            0 => self.write("script", &[5, 0, 0, 5]),
            1 => self.place(),
            _ => {}
        }
        match self.dice.below(6) {
            0 => self.write("held", &[0]),
            1 => {
                let mut leases = [self.lease(), self.lease(), self.lease()].concat();
                // no whole leases, so their boot numbers do not matter
                leases.truncate(self.dice.pick(&[9, 9, 9, 8, 7]));
                self.write("held", &leases);
            }
            2 => {
                let leases = self.live_and_stale();
                self.write("held", &leases);
            }
            _ => {}
        }
        if self.dice.once_in(2) {
            let mut keys = [self.key(), self.key(), self.key()].concat();
            keys.truncate(self.dice.pick(&[2, 3, 4, 6]));
            self.write("keys", &keys);
            let words = self.dice.pick(&[2, 3, 4, 6, 6, 9]);
            self.write("grants", &[words]);
        }
        if self.dice.once_in(2) {
            self.leases();
        }
        if self.dice.once_in(3) {
            self.members();
            self.turns();
            self.counters();
        }
        if self.dice.once_in(2) {
            self.lend_book();
        }
        if self.dice.once_in(3) {
            self.rooms();
        }
        for _ in 0..self.dice.below(6) + 3 {
            let (cell, [binding, bucket]) = (self.cell(), self.key());
            if self.dice.once_in(12) {
                self.set();
                continue;
            }
            match self.dice.pick(&CALLS) {
                ("prepare", _) => {}
                ("acquire_index_bucket", _) => self.acquire(binding, bucket),
                ("transactional_try_lock_bucket", _) => {
                    self.write("transactional_try_lock_bucket", &[binding, bucket]);
                }
                (name @ ("acquire_index_locks" | "acquire_sorted_locks"), _) => {
                    self.write_retrying(name, &[]);
                }
                (name, 0) => self.write(name, &[]),
                (name, 1) => self.write(name, &[cell]),
                (name, _) => {
                    let lease = self.lease();
                    self.write(name, &lease);
                }
            }
        }
        if self.dice.once_in(3) {
            self.map();
        }
        if self.desk.lent.is_some() {
            self.write("lend", &[]);
        }
        if self.next() == 0 {
            self.write("head", &[head.headers, head.buckets, head.next, head.boot]);
        }
        if self.desk.registry.len() > 64 {
            self.registry();
        }
        self.script();
        self.held();
    }
}
