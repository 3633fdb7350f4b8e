//! Scripts: of all kinds of steps, and such as make a call meet one certain thing.

use super::{counting, Writer};

use crate::build::Build;

impl<B: Build, J: Build + Clone, K: FnMut(&mut B, &[u8], &[u8]) -> bool> Writer<B, J, K> {
    pub(super) fn script(&mut self) {
        let steps = match self.dice.below(40) {
            0 => 100 + self.dice.below(100),
            1..=3 => 20 + self.dice.below(20),
            4..=9 => 0,
            _ => self.dice.below(10),
        };
        let mut script = self.steps(steps);
        if self.dice.once_in(30) {
            script.push(5);
            if self.dice.once_in(2) {
                script.push(0);
            }
        }
        self.write("script", &script);
    }

    /// A script under which a cell that a foreign holder has is let go after some boundaries; now and then its header
    /// is poisoned soon after, while the cell is being taken or before.
    pub(super) fn patient_script(&mut self, lease: [u32; 3]) {
        let mut script = Vec::new();
        for _ in 0..self.dice.below(40) {
            script.extend([5, 0, 0]);
        }
        script.extend([2, lease[0], lease[1], 5, 0, 0]);
        if self.dice.once_in(3) {
            for _ in 0..self.dice.below(5) {
                script.extend([5, 0, 0]);
            }
            script.extend([4, lease[0] / self.buckets(), 1, 5, 0, 0]);
        }
        let steps = self.dice.below(6);
        script.extend(self.steps(steps));
        self.write("script", &script);
    }

    /// A script that reaches for the leases that multi-lock is going to take, and poisons headers or lets others
    /// wait meanwhile, so that leases are protected, given up late, and given back.
    pub(super) fn hostile_script(&mut self) {
        let mut script = Vec::new();
        for _ in 0..self.dice.below(6) + 2 {
            for _ in 0..self.dice.below(4) {
                script.extend([5, 0, 0]);
            }
            let keys = self.desk.keys.chunks_exact(2);
            let cells: Vec<u32> = keys
                .filter_map(|key| {
                    let header = self.desk.registry.get(key[0] as usize)?;
                    header.checked_mul(self.buckets())?.checked_add(key[1])
                })
                .collect();
            let cell = match cells.is_empty() {
                true => self.cell(),
                false => self.dice.pick(&cells),
            };
            let serial = self.next().wrapping_add(self.dice.number(4));
            script.extend(match self.dice.below(6) {
                0..=2 => [2, cell, serial],
                3 => [1, cell, 0],
                4 => [3, cell, self.dice.number(2)],
                _ => [4, cell / self.buckets(), 1],
            });
        }
        self.write("script", &script);
    }

    /// A script under which some of the live leases are let go in one boundary.
    pub(super) fn letting_go_script(&mut self) {
        let leases = self.some_live(4);
        let script: Vec<u32> = leases
            .chunks(3)
            .flat_map(|lease| [2, lease[0], lease[1]])
            .collect();
        self.write("script", &script);
    }

    /// A script under which some of the first cells are taken in one boundary, those that are free.
    pub(super) fn taking_script(&mut self) {
        let mut cells = counting(self.cells().min(12));
        cells.retain(|_| self.dice.once_in(2));
        let script: Vec<u32> = cells.iter().flat_map(|&cell| [1, cell, 0]).collect();
        self.write("script", &script);
    }

    /// A script that takes each cell as soon as `release_all` has given it up, and now and then another.
    pub(super) fn greedy_script(&mut self) {
        let leases = self.desk.leases.chunks_exact(3);
        let cells: Vec<u32> = leases.rev().map(|lease| lease[0]).collect();
        let mut script = Vec::new();
        for cell in cells {
            script.extend([1, cell, 0]);
            if self.dice.once_in(3) {
                script.extend([1, self.cell(), 0]);
            }
            script.extend([5, 0, 0]);
        }
        self.write("script", &script);
    }

    /// A script that sets the health of a cell's header behind so many boundaries, and a few more: mostly two, so that
    /// it is in the third boundary of a lock. With it others may wait, and a lease be reached for that is new then.
    pub(super) fn health_script(&mut self, cell: u32, boundaries: usize, health: u32) {
        let header = cell / self.buckets();
        let more = self.dice.pick(&[0, 1, 2, 2, 2, 2, 3]);
        let mut script = [5, 0, 0].repeat(boundaries + more);
        script.extend([4, header, health]);
        match self.dice.below(8) {
            0..=2 => script.extend([3, cell, 1]),
            3 => script.extend([4, header, 1 - health]),
            4 => script.extend([2, cell, self.next()]),
            5 => script.extend(self.step()),
            _ => {}
        }
        script.extend([5, 0, 0]);
        let steps = self.dice.below(4);
        script.extend(self.steps(steps));
        self.write("script", &script);
    }

    /// A script under which the first attempt at a free cell is Busy, since others wait until it is over, and the
    /// header is poisoned before the second attempt or in it.
    pub(super) fn second_attempt_script(&mut self, cell: u32) {
        let header = cell / self.buckets();
        // seen before the cell is taken, or after
        let boundaries = self.dice.pick(&[0, 2]);
        let mut script = [5, 0, 0].repeat(boundaries);
        script.extend([3, cell, 1, 5, 0, 0, 3, cell, 0]);
        script.extend([5, 0, 0].repeat(self.dice.below(4)));
        script.extend([4, header, 1]);
        self.write("script", &script);
    }

    /// A script under which others begin to wait for a cell behind some boundaries: mostly two, so that it is in the
    /// third boundary of a lock, and its serial is spent. With it the new lease may be reached for.
    pub(super) fn waiting_script(&mut self, cell: u32) {
        let boundaries = self.dice.pick(&[0, 1, 2, 2, 2, 2, 3]);
        let mut script = [5, 0, 0].repeat(boundaries);
        script.extend([3, cell, self.dice.pick(&[1, 1, 2, u32::MAX])]);
        if self.dice.once_in(3) {
            script.extend([2, cell, self.next()]);
        }
        script.extend([5, 0, 0]);
        let steps = self.dice.below(3);
        script.extend(self.steps(steps));
        self.write("script", &script);
    }

    /// A script under which a cell is taken, let go and waited for by turns, so that the attempts of one call are Busy
    /// for changing reasons; in the end it is held or waited for, and stays so.
    pub(super) fn restless_script(&mut self, cell: u32) {
        let mut script = Vec::new();
        // held by one in the first attempt, and by another from then on
        if self.dice.once_in(5) {
            script.extend([1, cell, 0]);
            script.extend([5, 0, 0].repeat(self.dice.below(3) + 2));
            script.extend([2, cell, self.next(), 1, cell, 0]);
            self.write("script", &script);
            return;
        }
        // others wait in the third boundary and no more in the fourth, or the fifth
        if self.dice.once_in(3) {
            script.extend([5, 0, 0, 5, 0, 0, 3, cell, 1, 5, 0, 0]);
            script.extend([5, 0, 0].repeat(self.dice.below(2)));
            script.extend([3, cell, 0]);
        }
        for _ in 0..self.dice.below(6) + 1 {
            let serial = self.next().wrapping_add(self.dice.number(3));
            script.extend(match self.dice.below(6) {
                0..=1 => [1, cell, 0],
                2..=3 => [2, cell, serial],
                4 => [3, cell, 1],
                _ => [3, cell, 0],
            });
            script.extend([5, 0, 0].repeat(self.dice.below(4)));
        }
        match self.dice.once_in(2) {
            true => script.extend([3, cell, 1]),
            false => script.extend([3, cell, 0, 1, cell, 0]),
        }
        self.write("script", &script);
    }
}
