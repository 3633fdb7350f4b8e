//! Numbers to name: cells, leases, boot numbers, steps.

use super::Writer;
use crate::build::Build;

impl<B: Build, J: Build + Clone, K: FnMut(&mut B, &[u8], &[u8]) -> bool> Writer<B, J, K> {
    /// A cell: mostly one of a few, so that calls meet.
    pub(super) fn cell(&mut self) -> u32 {
        let cells = self.cells();
        match self.dice.below(40) {
            0 => cells,
            1 => self.dice.odd_number(),
            2..=5 => self.dice.number(cells),
            6 => cells - 1,
            _ => self.dice.number(cells.min(12)),
        }
    }

    /// A lease: mostly one that is live, or would be but for its boot number.
    pub(super) fn lease(&mut self) -> [u32; 3] {
        let live = self.live();
        let (cell, boot) = (self.cell(), self.boot());
        let lease = match self.dice.below(18) {
            0 => [cell, self.dice.odd_number(), boot],
            1 => [cell, self.next().wrapping_add(self.dice.number(3)), boot],
            2 => [cell, self.words(cell)[1], boot],
            3 => [cell, 0, boot],
            4 if !live.is_empty() => {
                let [cell, serial, _] = self.dice.pick(&live);
                let serial = serial.wrapping_add(self.dice.pick(&[1, u32::MAX]));
                [cell, serial, boot]
            }
            5 if !live.is_empty() => {
                let [cell, serial, _] = self.dice.pick(&live);
                [self.cells() + cell, serial, boot]
            }
            6 => match self.desk.held.get(..3) {
                Some(held) => [held[0], held[1], held[2]],
                None => self.old_lease(),
            },
            7..=8 => self.old_lease(),
            _ if !live.is_empty() => self.dice.pick(&live),
            _ => [cell, self.next().wrapping_sub(1), boot],
        };
        match self.dice.once_in(9) {
            true => self.of_another_boot(lease),
            false => lease,
        }
    }

    /// A lease from before a preparation, if there is one.
    pub(super) fn old_lease(&mut self) -> [u32; 3] {
        match self.old.is_empty() {
            true => [self.cell(), 1, self.boot()],
            false => self.dice.pick(&self.old),
        }
    }

    /// The lease with a boot number that is mostly not the head's.
    pub(super) fn of_another_boot(&mut self, [cell, serial, boot]: [u32; 3]) -> [u32; 3] {
        let near = boot.wrapping_add(self.dice.pick(&[1, u32::MAX]));
        let any = self.dice.odd_number();
        let used = match self.boots.is_empty() {
            true => 0,
            false => self.dice.pick(&self.boots),
        };
        // the serial and the boot number taken for one another
        let boot = self.dice.pick(&[near, near, any, used, used, serial, 0]);
        [cell, serial, boot]
    }

    /// The boot number of a preparation: mostly a new one, the next or any; else 0, the greatest, one used before, or
    /// the one in force.
    pub(super) fn next_boot(&mut self) -> u32 {
        match self.dice.below(16) {
            0 => self.dice.pick(&[0, u32::MAX]),
            1 => self.dice.odd_number(),
            2 => self.dice.roll() as u32,
            3..=4 if !self.boots.is_empty() => self.dice.pick(&self.boots),
            5..=6 => self.boot(),
            _ => {
                self.new_boot += 1;
                self.new_boot
            }
        }
    }

    /// Some live leases, each at most once, word by word.
    pub(super) fn some_live(&mut self, most: usize) -> Vec<u32> {
        let mut live = self.live();
        let count = self.dice.below(live.len() + 1).min(most);
        let mut list = Vec::new();
        for _ in 0..count {
            let lease = live.swap_remove(self.dice.below(live.len()));
            list.extend(lease);
        }
        list
    }

    pub(super) fn step(&mut self) -> [u32; 3] {
        let next = self.next();
        match self.dice.below(20) {
            0..=5 => [5, 0, 0],
            6 => [5, self.dice.odd_number(), self.dice.odd_number()],
            7..=9 => [1, self.cell(), 0],
            10..=11 => {
                let [cell, serial, _] = self.lease();
                [2, cell, serial]
            }
            // a lease that will be live only when its turn comes
            12 => [2, self.cell(), next.wrapping_add(self.dice.number(4))],
            13..=14 => [3, self.cell(), 0],
            15 => [3, self.cell(), self.dice.pick(&[1, 2, u32::MAX])],
            16 => [4, self.dice.number(self.desk.head.headers), 0],
            17 => {
                let headers = self.headers();
                let header = self.dice.number(headers + 1);
                [4, header, self.dice.pick(&[0, 1, 1, 2, u32::MAX])]
            }
            18 => [0, self.dice.number(9), self.dice.number(9)],
            _ => {
                let kind = self.dice.pick(&[6, 7, 255, 256, u32::MAX]);
                [kind, self.cell(), self.dice.number(2)]
            }
        }
    }

    pub(super) fn steps(&mut self, count: usize) -> Vec<u32> {
        (0..count).flat_map(|_| self.step()).collect()
    }
}
