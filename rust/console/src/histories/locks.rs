//! Locks that meet a header gone bad, or somebody who waits.

use super::Writer;
use crate::build::Build;

impl<B: Build, J: Build + Clone, K: FnMut(&mut B, &[u8], &[u8]) -> bool> Writer<B, J, K> {
    /// A lock of a free cell whose header is poisoned, before the call or in one of its boundaries.
    pub(super) fn lock_poisoned(&mut self) {
        let key = self.free_key();
        let Some(cell) = self.cell_of(key) else {
            return;
        };
        let header = cell / self.buckets();
        self.heal(header);
        let by_cell = self
            .dice
            .pick(&["try_lock", "other_mutex_preserves_leases"]);
        match self.dice.below(10) {
            // poisoned before, and mended in time, poisoned again, or left so
            0..=2 => {
                let byte = self.dice.pick(&[1, 2, 128, 255]);
                self.write("byte", &[header, byte]);
                match self.dice.below(3) {
                    0 => {}
                    health => self.health_script(cell, 0, health as u32 - 1),
                }
                self.write(by_cell, &[cell]);
            }
            3..=4 => {
                self.health_script(cell, 0, 1);
                self.write(by_cell, &[cell]);
            }
            5 => {
                self.health_script(cell, 0, 1);
                self.write("transactional_try_lock_bucket", &key);
            }
            6 => {
                self.health_script(cell, 0, 1);
                self.acquire(key[0], key[1]);
            }
            7 => {
                self.second_attempt_script(cell);
                self.acquire(key[0], key[1]);
            }
            _ => self.lock_poisoned_keys(),
        }
        if self.dice.once_in(2) {
            self.write("byte", &[header, 0]);
        }
    }

    /// Multi-lock under a script that poisons the header of one of its keys when that key's turn has come, if those
    /// before it were got at once.
    pub(super) fn lock_poisoned_keys(&mut self) {
        self.keys();
        let keys = self.desk.keys.chunks_exact(2);
        let cells: Vec<(usize, u32)> = keys
            .enumerate()
            .filter_map(|(position, key)| Some((position, self.cell_of([key[0], key[1]])?)))
            .collect();
        for &(_, cell) in &cells {
            self.heal(cell / self.buckets());
        }
        let later = &cells[cells.len().min(1)..];
        if !later.is_empty() && !self.dice.once_in(4) {
            let (position, cell) = self.dice.pick(later);
            self.health_script(cell, 3 * position, 1);
        } else if let Some(&(position, cell)) = cells.first() {
            self.health_script(cell, 3 * position, 1);
        }
        self.write_retrying("acquire_index_locks", &[]);
    }

    /// A lock of a free cell that others wait for or take meanwhile.
    pub(super) fn lock_waited_for(&mut self) {
        let key = self.free_key();
        let Some(cell) = self.cell_of(key) else {
            return;
        };
        self.heal(cell / self.buckets());
        let by_cell = self
            .dice
            .pick(&["try_lock", "other_mutex_preserves_leases"]);
        match self.dice.below(8) {
            0..=1 => {
                self.waiting_script(cell);
                self.write(by_cell, &[cell]);
            }
            2..=3 => {
                self.waiting_script(cell);
                self.write("transactional_try_lock_bucket", &key);
            }
            4 => {
                self.waiting_script(cell);
                self.write_restless("acquire_index_bucket", &key);
            }
            5..=6 => {
                self.restless_script(cell);
                self.write_restless("acquire_index_bucket", &key);
            }
            _ => {
                self.write("keys", &key);
                self.write("grants", &[3]);
                self.restless_script(cell);
                let call = self
                    .dice
                    .pick(&["acquire_index_locks", "acquire_sorted_locks"]);
                self.write_restless(call, &[]);
            }
        }
        if self.dice.once_in(2) {
            self.write("word", &[3 * cell + 2, 0]);
        }
    }
}
