//! Leases of another boot, and keys that are refused.

use super::{counting, insert, Writer};

use crate::build::Build;

impl<B: Build, J: Build + Clone, K: FnMut(&mut B, &[u8], &[u8]) -> bool> Writer<B, J, K> {
    /// The same arena prepared twice from the same first serial, and the same cells taken in both: the first leases are
    /// handed over under the second boot number, which is mostly another one.
    pub(super) fn same_day_again(&mut self) {
        let (headers, buckets) = (self.headers().min(4), self.buckets().min(6));
        let first = self.dice.pick(&[1, 1, 1, 7]);
        let mut cells = counting(headers * buckets);
        cells.retain(|_| self.dice.once_in(2));
        cells.truncate(4);
        let boots = [self.next_boot(), self.next_boot()];
        // now and then it is the same one, and the leases are good again
        let again = boots[usize::from(!self.dice.once_in(3))];
        for boot in [boots[0], again] {
            self.prepare_under(boot, headers, buckets, first);
            for &cell in &cells {
                self.write("try_acquire", &[cell]);
            }
        }
        let serials = cells.iter().zip(first..);
        let leases: Vec<[u32; 3]> = serials
            .map(|(&cell, serial)| [cell, serial, boots[0]])
            .collect();
        let mut list = self.some_live(4);
        match self.dice.below(6) {
            0..=1 => list.clear(),
            2 => insert(&mut list, &mut self.dice, [0, 0, again]),
            _ => {}
        }
        self.write("held", &list);
        self.hand_over(&leases);
    }

    /// Calls that are given one of these leases, alone, in a list or for the book.
    pub(super) fn hand_over(&mut self, leases: &[[u32; 3]]) {
        if leases.is_empty() {
            return;
        }
        for _ in 0..self.dice.below(4) + 2 {
            let lease = self.dice.pick(leases);
            match self.dice.below(13) {
                0 => self.write("drop_lease", &lease),
                1..=2 => self.write("read_permission", &lease),
                3 => self.write("competing_acquire_is_excluded", &lease),
                4 => self.write("release_then_handoff", &lease),
                5..=6 => self.write("drop_preserving_borrows", &lease),
                7 => self.write("foreign_release_between_attempts", &lease),
                8..=9 => self.write_setpoint(lease[0], lease, "speed", 1),
                10..=11 => {
                    let mut list = self.some_live(3);
                    insert(&mut list, &mut self.dice, lease);
                    self.write("leases", &list);
                    self.write("release_all", &[]);
                }
                _ => {
                    let mut list = self.some_live(3);
                    insert(&mut list, &mut self.dice, lease);
                    self.write("held", &list);
                    self.write("environment", &[]);
                    self.write_retrying("acquire_sorted_locks", &[]);
                }
            }
        }
    }

    /// Calls with a stale lease in their held list and something that is tested behind it: no such cell or binding,
    /// keys that are refused, a lease; or the held list has a word or two too many besides.
    pub(super) fn stale_beside(&mut self) {
        let mut held = self.live_and_stale();
        // a live one before all others, and then mostly a stale one
        let live = self.live();
        if !live.is_empty() && self.dice.once_in(2) {
            if !self.dice.once_in(3) {
                let [cell, serial, boot] = self.dice.pick(&live);
                let other = serial.wrapping_add(self.dice.number(2));
                held.splice(..0, self.of_another_boot([cell, other, boot]));
            }
            held.splice(..0, self.dice.pick(&live));
        }
        let beside = self.dice.below(6);
        if beside == 0 {
            held.extend(&[1, 1][..self.dice.below(2) + 1]);
        }
        self.write("held", &held);
        match beside {
            0..=1 => {
                let mut lease = self.lease();
                if !live.is_empty() && !self.dice.once_in(4) {
                    lease = self.dice.pick(&live);
                    if self.dice.once_in(4) {
                        lease = self.of_another_boot(lease);
                    }
                }
                self.write("foreign_release_between_attempts", &lease);
                self.write("drop_preserving_borrows", &lease);
            }
            2 => {
                let more = self.dice.pick(&[0, 0, 1, u32::MAX]);
                let cell = self.cells().saturating_add(more);
                self.write("acquire_preserving_borrows", &[cell]);
                self.write("try_lock", &[cell]);
                self.write("other_mutex_preserves_leases", &[cell]);
            }
            3 => {
                let bindings = self.desk.registry.len() as u32;
                let binding = bindings.saturating_add(self.dice.pick(&[0, 0, 1, u32::MAX]));
                let [_, bucket] = self.key();
                self.write("transactional_try_lock_bucket", &[binding, bucket]);
                self.acquire(binding, bucket);
            }
            _ => {
                self.refused_keys();
                self.write_retrying("acquire_index_locks", &[]);
                self.write_retrying("acquire_sorted_locks", &[]);
            }
        }
        self.write("environment_for_borrows", &[]);
        self.held();
    }

    /// Keys that are not whole, too many beside the held list, with a grant buffer of another length, or with a binding
    /// or a bucket that is none.
    pub(super) fn refused_keys(&mut self) {
        let (bindings, buckets) = (self.desk.registry.len() as u32, self.buckets());
        let mut keys = Vec::new();
        for _ in 0..self.dice.below(3) + 1 {
            keys.extend(self.free_key());
        }
        let mut grants = 3 * keys.len() as u32 / 2;
        let at = 2 * self.dice.below(keys.len() / 2);
        match self.dice.below(9) {
            0..=1 => keys.push(self.dice.number(2)),
            2..=3 => {
                let least = 65 - (self.desk.held.len() / 3).min(64);
                let key = self.free_key();
                keys = key.repeat(least + self.dice.below(2));
                grants = 3 * keys.len() as u32 / 2;
            }
            4..=5 => {
                grants = self
                    .dice
                    .pick(&[0, grants - 1, grants + 1, keys.len() as u32])
            }
            6..=7 => keys[at] = bindings + self.dice.number(2),
            _ => keys[at + 1] = buckets + self.dice.number(2),
        }
        self.write("keys", &keys);
        self.write("grants", &[grants]);
    }
}
