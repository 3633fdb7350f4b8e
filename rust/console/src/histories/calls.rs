//! Calls, and what surrounds them.

use super::Writer;
use crate::build::Build;
use std::collections::BTreeSet;

impl<B: Build, J: Build + Clone, K: FnMut(&mut B, &[u8], &[u8]) -> bool> Writer<B, J, K> {
    /// One call, with its lists and what surrounds it.
    pub(super) fn turn(&mut self) {
        match self.dice.below(60) {
            0..=2 => self.other_head(),
            3..=4 => self.other_lending(),
            5..=8 => self.damage(),
            9..=12 => self.mend(),
            13 => {
                self.place();
                self.call();
                self.call();
                if self.desk.place > self.desk.script.len() / 3 {
                    self.script();
                }
            }
            14 => self.registry(),
            15..=17 => self.bad_line(),
            18 => self.comment(),
            19..=20 => self.faults(),
            21 => self.echo(),
            22 => self.trace(),
            23 => self.same_day_again(),
            24 => self.stale_beside(),
            _ => {}
        }
        self.call();
        let small = self.cells() <= 30;
        if self.dice.once_in(if small { 4 } else { 60 }) {
            self.show();
        }
        if self.dice.once_in(if small { 6 } else { 60 }) {
            self.map();
        }
    }

    pub(super) fn call(&mut self) {
        let refused = self.desk.held.chunks(3).any(|lease| match *lease {
            [cell, serial, boot] => boot != self.boot() || !self.is_live(cell, serial),
            _ => true,
        });
        if self.dice.once_in(if refused { 2 } else { 12 }) {
            self.held();
        }
        let over = 3 * self.desk.place >= self.desk.script.len();
        let broken = self.desk.script.len() % 3 != 0;
        if self.dice.once_in(if broken {
            2
        } else if over {
            4
        } else {
            15
        }) {
            self.script();
        }
        let lease = self.lease();
        let [binding, bucket] = self.key();
        match self.dice.below(99) {
            0..=3 => self.call_by_cell("try_acquire"),
            4..=7 => self.write("drop_lease", &lease),
            8..=9 => self.write("read_permission", &lease),
            10..=11 => self.write("competing_acquire_is_excluded", &lease),
            12..=13 => self.write("release_then_handoff", &lease),
            14..=16 => self.write("foreign_release_between_attempts", &lease),
            17..=20 => self.call_by_cell("acquire_preserving_borrows"),
            21..=24 => self.write("drop_preserving_borrows", &lease),
            25..=28 => {
                match self.dice.below(15) {
                    0..=2 => self.letting_go_script(),
                    3 => self.taking_script(),
                    _ => {}
                }
                let call = self.dice.pick(&["environment", "environment_for_borrows"]);
                self.write(call, &[]);
            }
            29..=33 => self.call_by_cell("try_lock"),
            34..=37 => self.call_by_cell("other_mutex_preserves_leases"),
            38..=42 => self.write("transactional_try_lock_bucket", &[binding, bucket]),
            43..=45 => self.acquire(binding, bucket),
            46..=47 => {
                let [binding, bucket] = self.free_key();
                self.acquire(binding, bucket);
            }
            48 => self.acquire_patiently(),
            49..=53 => {
                self.leases();
                if self.dice.once_in(8) {
                    self.greedy_script();
                }
                self.write("release_all", &[]);
            }
            54..=60 => self.acquire_all(),
            61..=62 => self.crew(),
            63 => {
                self.members();
                self.crew();
            }
            64..=67 => self.lock_poisoned(),
            68..=70 => self.lock_waited_for(),
            71..=73 => self.crew_at_work(),
            74..=82 => self.acquire_sorted(),
            83..=88 => self.salvage(),
            _ => self.book(),
        }
    }

    pub(super) fn call_by_cell(&mut self, call: &str) {
        let cell = self.cell();
        self.write(call, &[cell]);
    }

    pub(super) fn acquire(&mut self, binding: u32, bucket: u32) {
        if !self.write_retrying("acquire_index_bucket", &[binding, bucket]) {
            self.write("transactional_try_lock_bucket", &[binding, bucket]);
        }
    }

    /// `acquire_index_bucket` of a held cell that is let go meanwhile.
    pub(super) fn acquire_patiently(&mut self) {
        let live = self.live();
        if live.is_empty() {
            return;
        }
        let lease = self.dice.pick(&live);
        let (header, bucket) = (lease[0] / self.buckets(), lease[0] % self.buckets());
        let Some(binding) = self.desk.registry.iter().position(|&one| one == header) else {
            return;
        };
        self.patient_script(lease);
        self.acquire(binding as u32, bucket);
    }

    pub(super) fn acquire_all(&mut self) {
        if !self.dice.once_in(6) {
            self.keys();
        }
        if self.dice.once_in(4) {
            self.hostile_script();
        }
        if !self.write_retrying("acquire_index_locks", &[]) {
            self.leases();
            self.write("release_all", &[]);
        }
    }

    /// Keys in any order, of free cells most of the time, one of which may meet what refuses it.
    pub(super) fn acquire_sorted(&mut self) {
        match self.dice.below(16) {
            0 => {}
            1..=3 => self.bad_keys(),
            _ => self.keys_in_any_order(),
        }
        let next = self.next();
        let cells: Vec<u32> = self.sorted_cells().into_iter().collect();
        for &cell in &cells {
            self.heal(cell / self.buckets());
        }
        if !cells.is_empty() {
            self.meet(&cells);
        }
        if !self.write_retrying("acquire_sorted_locks", &[]) {
            self.leases();
            self.write("release_all", &[]);
        } else if self.dice.once_in(4) {
            // as they were handed back: doubled keys share one lease. Nothing was, if the buffer is fresh
            let leases = self.desk.grants.clone();
            if leases.iter().any(|&word| word != 9) || self.dice.once_in(8) {
                self.write("leases", &leases);
                self.write("release_all", &[]);
            }
        }
        // nearly no serial was left for this call
        if next < u32::MAX - 64 && self.next() >= u32::MAX - 64 {
            self.write_next(next);
        }
    }

    /// The cells that the keys ask for, rising and each once; of bad keys none.
    pub(super) fn sorted_cells(&self) -> BTreeSet<u32> {
        let keys = self.desk.keys.chunks_exact(2);
        keys.filter_map(|key| self.cell_of([key[0], key[1]]))
            .collect()
    }

    /// Damage, poison, waiters, a holder, spent serials, a script: what one of these cells may meet in a sorted call.
    pub(super) fn meet(&mut self, cells: &[u32]) {
        let at = self.dice.below(cells.len());
        let cell = cells[at];
        let header = cell / self.buckets();
        match self.dice.below(36) {
            0..=1 => {
                let byte = self.dice.pick(&[1, 1, 2, 255]);
                self.write("byte", &[header, byte]);
            }
            2..=3 => {
                let bit = self.dice.pick(&[1, 2, u32::MAX]);
                self.write("word", &[3 * cell, bit]);
            }
            4 => self.write("word", &[3 * cell + 2, 1]),
            5 => self.write("try_acquire", &[cell]),
            6..=7 => {
                let serials = self.dice.number(4);
                self.write_next(u32::MAX - serials);
            }
            8..=11 => self.hostile_script(),
            12..=13 => {
                self.heal(header);
                self.health_script(cell, 3 * at, 1);
            }
            14 => self.restless_script(cell),
            _ => {}
        }
    }

    pub(super) fn crew(&mut self) {
        if self.desk.members.is_empty() || self.dice.once_in(3) {
            self.members();
        }
        if self.desk.members.is_empty() || self.dice.once_in(2) {
            self.turns();
        }
        self.write("crew", &[]);
    }

    /// A crew with counters, in an arena in which most of its cells can be taken.
    pub(super) fn crew_at_work(&mut self) {
        if self.desk.members.is_empty() || self.dice.once_in(2) {
            self.members();
            self.turns();
        }
        let wrong = self.desk.counters.len() != self.cells() as usize;
        if wrong && !self.dice.once_in(5) || self.dice.once_in(4) {
            self.counters();
        }
        if self.dice.once_in(3) {
            let (headers, buckets, first) = (self.headers(), self.buckets(), self.next().max(1));
            self.prepare(headers, buckets, first);
        }
        self.write("crew_at_work", &[]);
        if self.dice.once_in(3) {
            self.write("crew_at_work", &[]);
        }
    }
}
