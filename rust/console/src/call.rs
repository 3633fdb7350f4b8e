//! The calls: each is made by a build, over the console's RAM, and leaves head and place in force for the next.

use crate::answer::{Answer, Answered};
use crate::build::{BookReply, Build, Head, Key, Lease, Reply};
use crate::desk::Desk;

impl Desk {
    /// Makes a call. None: it is no call, and nothing has changed.
    pub(crate) fn call(
        &mut self,
        build: &mut impl Build,
        call: &[u8],
        numbers: &[u32],
    ) -> Option<Answered> {
        if !self.trace {
            let answer = self.answer(build, call, numbers)?;
            return Some(Answered {
                answer,
                trace: None,
            });
        }
        // the lent table is that of the call, for a preparation that of its own numbers
        let head = match (call, numbers) {
            (b"prepare", &[headers, buckets, next, boot]) => Head {
                headers,
                buckets,
                next,
                boot,
            },
            _ => self.head,
        };
        let (words, _) = self.lent(head);
        let before = self.table[..words].to_vec();
        let answer = self.answer(build, call, numbers)?;
        let trace = Some(bits_changed(&before, &self.table[..words]));
        Some(Answered { answer, trace })
    }

    fn answer(&mut self, build: &mut impl Build, call: &[u8], numbers: &[u32]) -> Option<Answer> {
        match (call, numbers) {
            (b"prepare", &[headers, buckets, next, boot]) => {
                return Some(self.prepare(
                    build,
                    Head {
                        headers,
                        buckets,
                        next,
                        boot,
                    },
                ));
            }
            (b"crew" | b"crew_at_work", &[]) => return Some(self.crew(build, call)),
            (b"salvage", &[]) => return Some(self.salvage(build)),
            _ => {}
        }
        if let Some(reply) = self.book_call(build, call, numbers) {
            return Some(Answer::Book(reply));
        }
        if let Some(reply) = self.call_without_script(build, call, numbers) {
            self.head = Head::of(&reply);
            return Some(Answer::Reply(reply));
        }
        let reply = self.call_with_script(build, call, numbers)?;
        self.head = Head::of(&reply);
        self.place = reply[4] as usize;
        Some(match call {
            b"acquire_index_locks" | b"acquire_sorted_locks" => Answer::Grants(reply),
            _ => Answer::Reply(reply),
        })
    }

    /// Prepares an arena of this head. After a refused preparation the head before it stays in force.
    fn prepare(&mut self, build: &mut impl Build, head: Head) -> Answer {
        let (words, bytes) = self.lent(head);
        let reply = build.prepare(head, &mut self.table[..words], &mut self.health[..bytes]);
        if reply[9] == 0 {
            self.head = Head::of(&reply);
        }
        Answer::Reply(reply)
    }

    fn call_without_script(
        &mut self,
        build: &mut impl Build,
        call: &[u8],
        numbers: &[u32],
    ) -> Option<Reply> {
        let head = self.head;
        let (words, _) = self.lent(head);
        let table = &mut self.table[..words];
        let held = &self.held;
        let lease = match (call, numbers) {
            (b"try_acquire", &[cell]) => return Some(build.try_acquire(head, table, cell)),
            (b"acquire_preserving_borrows", &[cell]) => {
                return Some(build.acquire_preserving_borrows(head, table, held, cell));
            }
            (_, &[cell, serial, boot]) => Lease { cell, serial, boot },
            _ => return None,
        };
        Some(match call {
            b"drop_lease" => build.drop_lease(head, table, lease),
            b"read_permission" => build.read_permission(head, table, lease),
            b"competing_acquire_is_excluded" => {
                build.competing_acquire_is_excluded(head, table, lease)
            }
            b"release_then_handoff" => build.release_then_handoff(head, table, lease),
            b"foreign_release_between_attempts" => {
                build.foreign_release_between_attempts(head, table, held, lease)
            }
            b"drop_preserving_borrows" => build.drop_preserving_borrows(head, table, held, lease),
            _ => return None,
        })
    }

    fn call_with_script(
        &mut self,
        build: &mut impl Build,
        call: &[u8],
        numbers: &[u32],
    ) -> Option<Reply> {
        let head = self.head;
        let (words, bytes) = self.lent(head);
        let table = &mut self.table[..words];
        let health = &mut self.health[..bytes];
        let (registry, script, place, held) =
            (&self.registry, &self.script, self.place, &self.held);
        let (keys, grants) = (&self.keys, &mut self.grants);
        Some(match (call, numbers) {
            (b"environment", &[]) => build.environment(head, table, health, script, place, held),
            (b"environment_for_borrows", &[]) => {
                build.environment_for_borrows(head, table, health, script, place, held)
            }
            (b"try_lock", &[cell]) => {
                build.try_lock(head, table, health, script, place, held, cell)
            }
            (b"other_mutex_preserves_leases", &[cell]) => {
                build.other_mutex_preserves_leases(head, table, health, script, place, held, cell)
            }
            (b"transactional_try_lock_bucket", &[binding, bucket]) => {
                let key = Key { binding, bucket };
                build.transactional_try_lock_bucket(
                    head, table, health, registry, script, place, held, key,
                )
            }
            (b"acquire_index_bucket", &[binding, bucket]) => {
                let key = Key { binding, bucket };
                build.acquire_index_bucket(head, table, health, registry, script, place, held, key)
            }
            (b"release_all", &[]) => {
                build.release_all(head, table, health, script, place, &self.leases)
            }
            (b"acquire_index_locks", &[]) => build.acquire_index_locks(
                head, table, health, registry, script, place, held, keys, grants,
            ),
            (b"acquire_sorted_locks", &[]) => build.acquire_sorted_locks(
                head, table, health, registry, script, place, held, keys, grants,
            ),
            _ => return None,
        })
    }

    /// The calls of the book, which leave head and place. None is given health, and only the write the table.
    fn book_call(
        &mut self,
        build: &mut impl Build,
        call: &[u8],
        numbers: &[u32],
    ) -> Option<BookReply> {
        let head = self.head;
        let (words, _) = self.lent(head);
        let table = &self.table[..words];
        let book = &mut self.book[..self.lent_book];
        let (slot, lease, kind, value) = match (call, numbers) {
            (b"prepare_book", &[]) => return Some(build.prepare_book(head, book)),
            (b"read_setpoint", &[slot]) => return Some(build.read_setpoint(head, book, slot)),
            (b"read_version", &[slot, version]) => {
                return Some(build.read_version(head, book, slot, version));
            }
            (b"write_setpoint", &[slot, cell, serial, boot, kind, value]) => {
                (slot, Lease { cell, serial, boot }, kind, value)
            }
            _ => return None,
        };
        Some(match (kind, value) {
            (1, bits) => build.write_pressure(head, table, book, slot, lease, bits),
            (2, speed) => build.write_speed(head, table, book, slot, lease, speed),
            (3, 0 | 1) => build.write_valve(head, table, book, slot, lease, value == 1),
            // a valve other than 0 and 1 is not understood
            _ => return None,
        })
    }

    fn crew(&mut self, build: &mut impl Build, call: &[u8]) -> Answer {
        let (words, bytes) = self.lent(self.head);
        let (head, table, health) = (self.head, &mut self.table[..words], &self.health[..bytes]);
        let (counts, cells, turns) = (&self.members, &self.cells, &self.turns);
        let answer = if call == b"crew" {
            Answer::Crew(build.crew(head, table, health, counts, cells, turns))
        } else {
            let counters = &mut self.counters;
            Answer::Work(build.crew_at_work(head, table, health, counts, cells, turns, counters))
        };
        if let Answer::Crew(reply) | Answer::Work(reply) = &answer {
            self.head = Head::of(reply);
        }
        answer
    }

    /// The place stays.
    fn salvage(&mut self, build: &mut impl Build) -> Answer {
        let (words, bytes) = self.lent(self.head);
        let reply = build.salvage(
            self.head,
            &mut self.table[..words],
            &mut self.health[..bytes],
            &mut self.report,
            &mut self.unconfirmed,
        );
        self.head = Head::of(&reply);
        Answer::Salvage(reply)
    }
}

/// Each cell whose bit word is another than before, in rising order, and whether it is now 1. Whole cells only.
fn bits_changed(before: &[u32], after: &[u32]) -> Vec<(usize, bool)> {
    let cells = before
        .chunks_exact(3)
        .zip(after.chunks_exact(3))
        .enumerate();
    cells
        .filter(|(_, (old, new))| old[0] != new[0])
        .map(|(cell, (_, new))| (cell, new[0] == 1))
        .collect()
}
