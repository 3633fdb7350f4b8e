//! The plain build: these rules behind the console's trait, their replies told in the words of include/skid.h.

use crate::book::{self, BookRefusal, Kept, Setpoint, Written};
use crate::rules::{self, Answer, Counts, Reason, Refusal};
use crate::salvage::{self, SalvageRefusal, Salvaged};
use crate::wave;
use console::build::{
    BookReply, Build, CrewReply, Head, Key, Lease, Reply, SalvageReply, WaveReply,
};

/// Plain Rust, written from the documents alone.
#[derive(Clone, Copy, Debug, Default)]
pub struct Plain;

// ---- Replies as words

fn reason_words(reason: Option<Reason>) -> [u64; 2] {
    match reason {
        None => [0, 0],
        Some(Reason::Held(serial)) => [1, serial.into()],
        Some(Reason::Before) => [2, 0],
        Some(Reason::After(serial)) => [3, serial.into()],
    }
}

fn refusal_words(kind: u64, refusal: Refusal, position: u64) -> [u64; 6] {
    let [reason, serial] = reason_words(refusal.reason());
    let (number, carried) = (refusal.number().into(), refusal.carries().into());
    [kind, number, carried, position, reason, serial]
}

fn answer_words(answer: Answer) -> [u64; 6] {
    match answer {
        Answer::Done => [0; 6],
        Answer::Cell(cell) => [1, cell.into(), 0, 0, 0, 0],
        Answer::Granted(Lease { cell, serial, boot }) => {
            [2, cell.into(), serial.into(), boot.into(), 0, 0]
        }
        Answer::AllGranted => [3, 0, 0, 0, 0, 0],
        Answer::Busy(reason) => {
            let [reason, serial] = reason_words(Some(reason));
            [4, 0, 0, 0, reason, serial]
        }
        Answer::Refused(refusal) => refusal_words(5, refusal, 0),
        Answer::RefusedAt(refusal, position) => refusal_words(6, refusal, position.into()),
    }
}

fn head_words(head: Head) -> [u64; 4] {
    [head.headers, head.buckets, head.next, head.boot].map(u64::from)
}

fn words(head: Head, place: usize, counts: Counts, answer: Answer) -> Reply {
    let mut words = [0; 15];
    words[..4].copy_from_slice(&head_words(head));
    words[4] = place as u64;
    let Counts {
        attempts,
        boundaries,
        yields,
        dropped,
    } = counts;
    words[5..9].copy_from_slice(&[attempts, boundaries, yields, dropped].map(u64::from));
    words[9..].copy_from_slice(&answer_words(answer));
    words
}

fn replied(reply: rules::Reply) -> Reply {
    words(reply.head, 0, reply.counts, reply.answer)
}

fn played(reply: rules::ScriptReply) -> Reply {
    words(reply.head, reply.place, reply.counts, reply.answer)
}

fn crew_words(reply: rules::CrewReply) -> CrewReply {
    let mut all = [0; 49];
    let answer = match reply.answer {
        Ok(run) => {
            all[15] = run.moving.into();
            all[16] = run.idle.into();
            all[17..33].copy_from_slice(&run.taken.map(u64::from));
            all[33..].copy_from_slice(&run.released.map(u64::from));
            Answer::Done
        }
        Err(refusal) => Answer::Refused(refusal),
    };
    all[..15].copy_from_slice(&words(reply.head, 0, Counts::default(), answer));
    all
}

fn book_refusal(refusal: BookRefusal) -> BookReply {
    let number = match refusal {
        BookRefusal::Numbered(refusal) => refusal.number().into(),
        BookRefusal::BadSlot => 101,
        BookRefusal::NotFinite => 102,
        BookRefusal::DamagedBook => 103,
        BookRefusal::VersionsSpent => 104,
        BookRefusal::NeverWritten => 105,
        BookRefusal::BookFull => 107,
    };
    [3, number, 0, 0]
}

fn write_setpoint(
    head: Head,
    table: &[u32],
    book: &mut [u8],
    slot: u32,
    lease: Lease,
    setpoint: Setpoint,
) -> BookReply {
    match book::write_setpoint(head, table, book, slot, lease, setpoint) {
        Ok(Written { version, moved }) => [1, version.into(), moved.into(), 0],
        Err(refusal) => book_refusal(refusal),
    }
}

fn read_words(read: Result<Kept, BookRefusal>) -> BookReply {
    match read {
        Ok(Kept { setpoint, version }) => {
            let (kind, number) = (setpoint.kind().into(), setpoint.number().into());
            [2, version.into(), kind, number]
        }
        Err(refusal) => book_refusal(refusal),
    }
}

// ---- The calls

impl Build for Plain {
    fn prepare(&mut self, head: Head, table: &mut [u32], health: &mut [u8]) -> Reply {
        let Head {
            headers,
            buckets,
            next,
            boot,
        } = head;
        replied(rules::prepare(headers, buckets, next, boot, table, health))
    }

    fn try_acquire(&mut self, head: Head, table: &mut [u32], cell: u32) -> Reply {
        replied(rules::try_acquire(head, table, cell))
    }

    fn drop_lease(&mut self, head: Head, table: &mut [u32], lease: Lease) -> Reply {
        replied(rules::drop_lease(head, table, lease))
    }

    fn read_permission(&mut self, head: Head, table: &[u32], lease: Lease) -> Reply {
        replied(rules::read_permission(head, table, lease))
    }

    fn competing_acquire_is_excluded(
        &mut self,
        head: Head,
        table: &mut [u32],
        lease: Lease,
    ) -> Reply {
        replied(rules::competing_acquire_is_excluded(head, table, lease))
    }

    fn release_then_handoff(&mut self, head: Head, table: &mut [u32], lease: Lease) -> Reply {
        replied(rules::release_then_handoff(head, table, lease))
    }

    fn foreign_release_between_attempts(
        &mut self,
        head: Head,
        table: &mut [u32],
        held: &[u32],
        lease: Lease,
    ) -> Reply {
        replied(rules::foreign_release_between_attempts(
            head, table, held, lease,
        ))
    }

    fn acquire_preserving_borrows(
        &mut self,
        head: Head,
        table: &mut [u32],
        held: &[u32],
        cell: u32,
    ) -> Reply {
        replied(rules::acquire_preserving_borrows(head, table, held, cell))
    }

    fn drop_preserving_borrows(
        &mut self,
        head: Head,
        table: &mut [u32],
        held: &[u32],
        lease: Lease,
    ) -> Reply {
        replied(rules::drop_preserving_borrows(head, table, held, lease))
    }

    fn environment(
        &mut self,
        head: Head,
        table: &mut [u32],
        health: &mut [u8],
        script: &[u32],
        place: usize,
        held: &[u32],
    ) -> Reply {
        played(rules::environment(head, table, health, script, place, held))
    }

    fn environment_for_borrows(
        &mut self,
        head: Head,
        table: &mut [u32],
        health: &mut [u8],
        script: &[u32],
        place: usize,
        held: &[u32],
    ) -> Reply {
        played(rules::environment_for_borrows(
            head, table, health, script, place, held,
        ))
    }

    fn try_lock(
        &mut self,
        head: Head,
        table: &mut [u32],
        health: &mut [u8],
        script: &[u32],
        place: usize,
        held: &[u32],
        cell: u32,
    ) -> Reply {
        played(rules::try_lock(
            head, table, health, script, place, held, cell,
        ))
    }

    fn other_mutex_preserves_leases(
        &mut self,
        head: Head,
        table: &mut [u32],
        health: &mut [u8],
        script: &[u32],
        place: usize,
        held: &[u32],
        cell: u32,
    ) -> Reply {
        played(rules::other_mutex_preserves_leases(
            head, table, health, script, place, held, cell,
        ))
    }

    fn transactional_try_lock_bucket(
        &mut self,
        head: Head,
        table: &mut [u32],
        health: &mut [u8],
        registry: &[u32],
        script: &[u32],
        place: usize,
        held: &[u32],
        key: Key,
    ) -> Reply {
        let Key { binding, bucket } = key;
        played(rules::transactional_try_lock_bucket(
            head, table, health, registry, script, place, held, binding, bucket,
        ))
    }

    fn acquire_index_bucket(
        &mut self,
        head: Head,
        table: &mut [u32],
        health: &mut [u8],
        registry: &[u32],
        script: &[u32],
        place: usize,
        held: &[u32],
        key: Key,
    ) -> Reply {
        let Key { binding, bucket } = key;
        played(rules::acquire_index_bucket(
            head, table, health, registry, script, place, held, binding, bucket,
        ))
    }

    fn release_all(
        &mut self,
        head: Head,
        table: &mut [u32],
        health: &mut [u8],
        script: &[u32],
        place: usize,
        leases: &[u32],
    ) -> Reply {
        played(rules::release_all(
            head, table, health, script, place, leases,
        ))
    }

    fn acquire_index_locks(
        &mut self,
        head: Head,
        table: &mut [u32],
        health: &mut [u8],
        registry: &[u32],
        script: &[u32],
        place: usize,
        held: &[u32],
        keys: &[u32],
        grants: &mut [u32],
    ) -> Reply {
        played(rules::acquire_index_locks(
            head, table, health, registry, script, place, held, keys, grants,
        ))
    }

    fn acquire_sorted_locks(
        &mut self,
        head: Head,
        table: &mut [u32],
        health: &mut [u8],
        registry: &[u32],
        script: &[u32],
        place: usize,
        held: &[u32],
        keys: &[u32],
        grants: &mut [u32],
    ) -> Reply {
        played(rules::acquire_sorted_locks(
            head, table, health, registry, script, place, held, keys, grants,
        ))
    }

    fn crew(
        &mut self,
        head: Head,
        table: &mut [u32],
        health: &[u8],
        counts: &[u32],
        cells: &[u32],
        turns: &[u32],
    ) -> CrewReply {
        crew_words(rules::crew(head, table, health, counts, cells, turns))
    }

    fn crew_at_work(
        &mut self,
        head: Head,
        table: &mut [u32],
        health: &[u8],
        counts: &[u32],
        cells: &[u32],
        turns: &[u32],
        counters: &mut [u16],
    ) -> CrewReply {
        crew_words(rules::crew_at_work(
            head, table, health, counts, cells, turns, counters,
        ))
    }

    fn salvage(
        &mut self,
        head: Head,
        table: &mut [u32],
        health: &mut [u8],
        report: &mut [u32],
        unconfirmed: &mut [u32],
    ) -> SalvageReply {
        let reply = salvage::salvage(head, table, health, report, unconfirmed);
        let answer = match reply.answer {
            Ok(Salvaged { changed, held }) => [0, changed as u64, held as u64],
            Err(SalvageRefusal::BadShape) => [5, 1, 0],
            Err(SalvageRefusal::ReportFull) => [5, 106, 0],
        };
        let mut words = [0; 7];
        words[..4].copy_from_slice(&head_words(reply.head));
        words[4..].copy_from_slice(&answer);
        words
    }

    fn prepare_book(&mut self, head: Head, book: &mut [u8]) -> BookReply {
        match book::prepare_book(head, book) {
            Ok(()) => [0; 4],
            Err(refusal) => book_refusal(refusal),
        }
    }

    fn write_pressure(
        &mut self,
        head: Head,
        table: &[u32],
        book: &mut [u8],
        slot: u32,
        lease: Lease,
        bits: u32,
    ) -> BookReply {
        let bar = f32::from_bits(bits);
        write_setpoint(head, table, book, slot, lease, Setpoint::Pressure(bar))
    }

    fn write_speed(
        &mut self,
        head: Head,
        table: &[u32],
        book: &mut [u8],
        slot: u32,
        lease: Lease,
        speed: u32,
    ) -> BookReply {
        write_setpoint(head, table, book, slot, lease, Setpoint::Speed(speed))
    }

    fn write_valve(
        &mut self,
        head: Head,
        table: &[u32],
        book: &mut [u8],
        slot: u32,
        lease: Lease,
        open: bool,
    ) -> BookReply {
        write_setpoint(head, table, book, slot, lease, Setpoint::Valve(open))
    }

    fn read_setpoint(&mut self, head: Head, book: &[u8], slot: u32) -> BookReply {
        read_words(book::read_setpoint(head, book, slot))
    }

    fn read_version(&mut self, head: Head, book: &[u8], slot: u32, version: u32) -> BookReply {
        read_words(book::read_version(head, book, slot, version))
    }

    fn write_dump(&mut self, cells: u32, script: &[u32], text: &mut [u8]) -> WaveReply {
        match wave::write_into(cells, script, text) {
            Ok(length) => [0, length as u64, 0],
            Err(wave::Refusal::BadScript) => [1, 2, 0],
            Err(wave::Refusal::TooWide) => [2, 0, 0],
            Err(wave::Refusal::NoRoom) => [3, 0, 0],
        }
    }

    fn read_dump(&mut self, text: &[u8], script: &mut [u32]) -> WaveReply {
        match wave::read_into(text, script) {
            Ok(wave::Read { cells, steps }) => [0, cells as u64, steps as u64],
            Err(wave::NotRead::NoRoom) => [3, 0, 0],
            Err(wave::NotRead::BadLine(line)) => [4, line as u64, 0],
        }
    }
}
