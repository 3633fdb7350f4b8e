//! The other lists: registry, held leases, leases to release, keys, members, counters, turns.

use super::{counting, insert, without_boots, Writer};
use crate::build::Build;
use crate::desk;
use std::cmp::Reverse;

impl<B: Build, J: Build + Clone, K: FnMut(&mut B, &[u8], &[u8]) -> bool> Writer<B, J, K> {
    pub(super) fn registry(&mut self) {
        let headers = self.headers();
        let length = match self.dice.below(60) {
            0 => self.dice.pick(&[64, 65, 80]),
            1 => 0,
            _ => self.dice.below(5) + 1,
        };
        let list: Vec<u32> = (0..length)
            .map(|_| match self.dice.below(14) {
                0 => headers,
                1 => self.dice.odd_number(),
                _ => self.dice.number(headers),
            })
            .collect();
        self.write("registry", &list);
    }

    pub(super) fn place(&mut self) {
        let steps = (self.desk.script.len() / 3) as u32;
        let place = match self.dice.below(6) {
            0 => steps + 1,
            1 => self.dice.odd_number(),
            2 => steps,
            _ => self.dice.number(steps + 1),
        };
        self.write("place", &[place]);
    }

    pub(super) fn held(&mut self) {
        let mut list = self.some_live(8);
        match self.dice.below(30) {
            0 => list.extend(&[0, 0][..self.dice.below(2) + 1]),
            1 => {
                let lease = self.lease();
                list.extend(lease);
                list.extend(self.some_live(2));
            }
            2 => {
                list.extend_from_within(..);
            }
            3 if self.dice.once_in(3) => list = self.many(&[64, 65, 66, 100]),
            4 => list = without_boots(&list),
            5..=7 => list = self.live_and_stale(),
            8..=15 => list.clear(),
            _ => {}
        }
        self.write("held", &list);
    }

    /// Live leases among which stale ones stand, and now and then one that is not live, before them or behind.
    pub(super) fn live_and_stale(&mut self) -> Vec<u32> {
        if self.live().len() < 2 {
            self.call_by_cell("try_acquire");
            self.call_by_cell("try_acquire");
        }
        let mut list = self.some_live(6);
        for _ in 0..self.dice.below(2) + 1 {
            let lease = match self.dice.below(3) {
                // a lease that is there already, or is live, but for its boot number
                0 if list.len() >= 3 => {
                    let again = 3 * self.dice.below(list.len() / 3);
                    self.of_another_boot([list[again], list[again + 1], list[again + 2]])
                }
                1 => self.old_lease(),
                _ => {
                    let lease = self.lease();
                    self.of_another_boot(lease)
                }
            };
            insert(&mut list, &mut self.dice, lease);
        }
        match self.dice.below(6) {
            // one that is not live
            0..=1 => {
                let lease = [self.cell(), self.dice.odd_number(), self.boot()];
                insert(&mut list, &mut self.dice, lease);
            }
            // one twice, so that release_all refuses it too
            2..=3 => {
                let again = 3 * self.dice.below(list.len() / 3);
                let lease = [list[again], list[again + 1], list[again + 2]];
                insert(&mut list, &mut self.dice, lease);
            }
            // no whole leases
            4 if self.dice.once_in(2) => list.extend(&[0, 0][..self.dice.below(2) + 1]),
            _ => {}
        }
        list
    }

    /// A long list that has one live lease again and again, sometimes with a word or two too few.
    pub(super) fn many(&mut self, lengths: &[usize]) -> Vec<u32> {
        let count = self.dice.pick(lengths);
        let lease = self.lease();
        let mut list = lease.repeat(count);
        if self.dice.once_in(4) {
            list.truncate(3 * count - 1 - self.dice.below(2));
        }
        list
    }

    pub(super) fn leases(&mut self) {
        let mut list = self.some_live(70);
        match self.dice.below(30) {
            0 => list.extend(&[1, 1][..self.dice.below(2) + 1]),
            1..=2 => {
                let lease = self.lease();
                insert(&mut list, &mut self.dice, lease);
            }
            3..=4 if list.len() >= 3 => {
                let at = 3 * self.dice.below(list.len() / 3);
                list.extend_from_within(at..at + 3);
                list.extend(self.some_live(3));
            }
            5 if self.dice.once_in(3) => list = self.many(&[64, 65, 66, 100]),
            6 => list.clear(),
            // repeats, leases that are not live and stale ones, in any order
            7..=10 if list.len() >= 3 => {
                for _ in 0..3 {
                    let again = 3 * self.dice.below(list.len() / 3);
                    let twice = [list[again], list[again + 1], list[again + 2]];
                    let lease = match self.dice.below(7) {
                        0..=2 => twice,
                        3..=4 => self.of_another_boot(twice),
                        _ => [self.cell(), self.dice.odd_number(), self.boot()],
                    };
                    insert(&mut list, &mut self.dice, lease);
                }
            }
            11..=14 => list = self.live_and_stale(),
            15 => list = without_boots(&list),
            _ => {}
        }
        self.write("leases", &list);
    }

    pub(super) fn key(&mut self) -> [u32; 2] {
        let bindings = self.desk.registry.len() as u32;
        let buckets = self.buckets();
        let binding = match self.dice.below(30) {
            0 => bindings,
            1 => self.dice.odd_number(),
            _ => self.dice.number(bindings),
        };
        let bucket = match self.dice.below(24) {
            0 => buckets,
            1 => self.dice.odd_number(),
            _ => self.dice.number(buckets.min(8)),
        };
        [binding, bucket]
    }

    /// The cell of a key whose binding, header and bucket are good.
    pub(super) fn cell_of(&self, [binding, bucket]: [u32; 2]) -> Option<u32> {
        let header = *self.desk.registry.get(binding as usize)?;
        let good = header < self.headers() && bucket < self.buckets();
        good.then(|| header * self.buckets() + bucket)
    }

    /// A key of a free cell, if one is found in a few throws.
    pub(super) fn free_key(&mut self) -> [u32; 2] {
        for _ in 0..6 {
            let key = self.key();
            let cell = self.cell_of(key);
            if cell.is_some_and(|cell| self.words(cell) == [0, 0, 0]) {
                return key;
            }
        }
        self.key()
    }

    pub(super) fn keys(&mut self) {
        let mut list = Vec::new();
        match self.dice.below(60) {
            0 => {
                // many keys, of as many cells as the arena has
                let count = self.dice.pick(&[63, 64, 65, 100]);
                let buckets = self.buckets();
                list.extend((0..count).flat_map(|key| [key / buckets, key % buckets]));
            }
            1 => {}
            _ => {
                for _ in 0..self.dice.below(4) + 1 {
                    let key = self.free_key();
                    let twice = list.chunks(2).any(|other| other == key);
                    if !twice || self.dice.once_in(8) {
                        list.extend(key);
                    }
                }
            }
        }
        if self.dice.once_in(30) {
            list.push(0);
        }
        self.write_keys(&list);
    }

    /// Keys in any order, many of them doubled, by the same binding or by another of the same header.
    pub(super) fn keys_in_any_order(&mut self) {
        let mut list: Vec<[u32; 2]> = Vec::new();
        // many keys of few cells
        let count = match self.dice.below(50) {
            0 => self.dice.pick(&[63, 64, 65, 100]),
            _ => self.dice.below(6) + 1,
        };
        for _ in 0..count {
            let key = match self.dice.below(16) {
                // any key, which may be bad
                0 => self.key(),
                1..=4 if !list.is_empty() => self.dice.pick(&list),
                5..=6 if !list.is_empty() => {
                    let [binding, bucket] = self.dice.pick(&list);
                    [self.other_binding(binding), bucket]
                }
                _ => self.free_key(),
            };
            list.push(key);
        }
        match self.dice.below(6) {
            0 => list.sort_by_key(|&key| self.cell_of(key)),
            1..=2 => list.sort_by_key(|&key| Reverse(self.cell_of(key))),
            _ => {}
        }
        if self.dice.once_in(2) {
            list.dedup_by_key(|&mut key| self.cell_of(key));
        }
        let mut words = list.concat();
        if self.dice.once_in(30) {
            words.push(0);
        }
        self.write_keys(&words);
    }

    /// Keys some of which are bad, by binding, by header or by bucket, in any order.
    pub(super) fn bad_keys(&mut self) {
        let (headers, buckets) = (self.headers(), self.buckets());
        let mut registry = self.desk.registry.clone();
        if !registry.iter().any(|&header| header >= headers) {
            registry.truncate(60);
            registry.push(headers);
            self.write("registry", &registry);
        }
        let bindings = registry.len() as u32;
        let unknown = registry.iter().position(|&header| header >= headers);
        let unknown = unknown.map_or(bindings, |binding| binding as u32);
        let mut list = Vec::new();
        for _ in 0..self.dice.below(4) + 2 {
            let [binding, bucket] = self.free_key();
            list.extend(match self.dice.below(12) {
                0 => [bindings, bucket],
                1..=2 => [unknown, bucket],
                3 => [unknown, buckets],
                4..=5 => [binding, buckets],
                _ => [binding, bucket],
            });
        }
        self.write_keys(&list);
    }

    /// A binding that names the same header, if there is another one.
    pub(super) fn other_binding(&mut self, binding: u32) -> u32 {
        let registry = &self.desk.registry;
        let header = registry.get(binding as usize);
        let same: Vec<u32> = (0..registry.len() as u32)
            .filter(|&other| other != binding && registry.get(other as usize) == header)
            .collect();
        match same.is_empty() {
            true => binding,
            false => self.dice.pick(&same),
        }
    }

    /// Keys, and mostly a grant buffer that fits them.
    pub(super) fn write_keys(&mut self, list: &[u32]) {
        self.write("keys", list);
        let words = 3 * (list.len() / 2) as u32;
        let words = match self.dice.below(30) {
            0 => words + 1,
            1 => words.saturating_sub(1),
            // two words a key
            2 => list.len() as u32,
            3 => self.dice.pick(&[0, 2, 3, 300, words + 3]),
            _ => words,
        };
        let words = words.min(desk::GRANTS as u32);
        if words as usize != self.desk.grants.len() || self.dice.once_in(3) {
            self.write("grants", &[words]);
        }
    }

    pub(super) fn members(&mut self) {
        self.write("crewless", &[]);
        // past the limits the first member's list is good, so that the limits are what is refused
        match self.dice.below(40) {
            0..=1 => return,
            2 => {
                let most = self.dice.pick(&[15, 16, 17, 20, 21]);
                for _ in 0..most {
                    self.member();
                }
                return;
            }
            3 => {
                let cells = self.dice.pick(&[64, 65, 65, 70, 71]);
                self.member();
                self.write("member", &counting(cells));
                return;
            }
            4 => {
                let cells = self.dice.number(3);
                self.write("member", &counting(cells));
                for _ in 0..4 {
                    self.write("member", &counting(64));
                }
                return;
            }
            _ => {}
        }
        for _ in 0..self.dice.below(4) + 1 {
            self.member();
        }
    }

    pub(super) fn member(&mut self) {
        let cells = self.cells();
        let mut list = counting(cells.min(8));
        list.retain(|_| self.dice.once_in(3));
        match self.dice.below(50) {
            0 => list.push(cells),
            1 => list.push(self.dice.odd_number()),
            2 => list.reverse(),
            3 => list.extend_from_within(..list.len().min(1)),
            4 => list = counting(cells.min(64)),
            _ => {}
        }
        self.write("member", &list);
    }

    /// One counter a cell, mostly: some of them wrap when they are added to.
    pub(super) fn counters(&mut self) {
        let cells = self.cells() as usize;
        let count = match self.dice.below(16) {
            0 => cells + 1,
            1 => cells - 1,
            2 => self.dice.pick(&[0, 1, 2 * cells, 3 * cells]),
            _ => cells,
        };
        let list: Vec<u32> = (0..count.min(desk::COUNTERS))
            .map(|_| match self.dice.below(8) {
                0 => 0,
                1 => self.dice.pick(&[1, 255, 256, 32_767, 32_768]),
                2 => 65_535 - self.dice.number(3),
                3..=4 => self.dice.number(65_536),
                _ => self.dice.number(10),
            })
            .collect();
        self.write("counters", &list);
    }

    pub(super) fn turns(&mut self) {
        let members = self.desk.members.len() as u32;
        let count = match self.dice.below(12) {
            _ if members == 0 && self.dice.once_in(2) => 0,
            0 => self.dice.below(3),
            1..=2 => 60 + self.dice.below(60),
            _ => 8 + self.dice.below(30),
        };
        let in_order = self.dice.once_in(2);
        let mut turns: Vec<u32> = (0..count as u32)
            .map(|turn| match in_order {
                true => turn % members.max(1),
                false => self.dice.number(members),
            })
            .collect();
        if self.dice.once_in(20) {
            let wrong = self.dice.pick(&[members, members + 1, u32::MAX]);
            let at = self.dice.below(turns.len() + 1);
            turns.insert(at, wrong);
        }
        self.write("turns", &turns);
    }
}
