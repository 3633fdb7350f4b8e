//! The plain side: the functions of rust/plain. Its replies are told in the library's words, so that the two can be
//! compared.

use crate::desk::{Desk, BOOT};
use crate::side::{self, Side, Told, Watch};
use plain::book::{self, BookRefusal, Kept, Setpoint, Written};
use plain::rules::{
    self, Answer, Counts, CrewReply, Head, Lease, Reason, Refusal, Reply, ScriptReply,
};
use plain::salvage::{self, SalvageRefusal, SalvageReply, Salvaged};
use plain::wave;

pub struct Plain;

#[inline(always)]
fn head_of(desk: &Desk) -> Head {
    Head {
        headers: desk.head.headers,
        buckets: desk.head.buckets,
        next: desk.head.next,
        boot: desk.head.boot,
    }
}

#[inline(always)]
fn lease_of(desk: &Desk) -> Lease {
    Lease {
        cell: desk.cell,
        serial: desk.serial,
        boot: BOOT,
    }
}

fn reason_words(reason: Option<Reason>) -> [u64; 2] {
    match reason {
        None => [0, 0],
        Some(Reason::Held(serial)) => [1, serial.into()],
        Some(Reason::Before) => [2, 0],
        Some(Reason::After(serial)) => [3, serial.into()],
    }
}

fn refusal_words(kind: u64, refusal: Refusal, position: u64) -> [u64; 6] {
    let [reason, serial] = reason_words(refusal.reason());
    [
        kind,
        refusal.number().into(),
        refusal.carries().into(),
        position,
        reason,
        serial,
    ]
}

fn busy_words(reason: Reason) -> [u64; 6] {
    let [reason, serial] = reason_words(Some(reason));
    [4, 0, 0, 0, reason, serial]
}

fn answer_words(answer: Answer) -> [u64; 6] {
    match answer {
        Answer::Done => [0, 0, 0, 0, 0, 0],
        Answer::Cell(cell) => [1, cell.into(), 0, 0, 0, 0],
        Answer::Granted(lease) => [
            2,
            lease.cell.into(),
            lease.serial.into(),
            lease.boot.into(),
            0,
            0,
        ],
        Answer::AllGranted => [3, 0, 0, 0, 0, 0],
        Answer::Busy(reason) => busy_words(reason),
        Answer::Refused(refusal) => refusal_words(5, refusal, 0),
        Answer::RefusedAt(refusal, position) => refusal_words(6, refusal, position.into()),
    }
}

fn words(head: Head, place: usize, counts: Counts, answer: Answer) -> Vec<u64> {
    let mut words = vec![
        head.headers.into(),
        head.buckets.into(),
        head.next.into(),
        head.boot.into(),
        place as u64,
        counts.attempts.into(),
        counts.boundaries.into(),
        counts.yields.into(),
        counts.dropped.into(),
    ];
    words.extend(answer_words(answer));
    words
}

fn reply_told(reply: &Reply) -> Told {
    side::told_reply(&words(reply.head, 0, reply.counts, reply.answer))
}

fn played_told(played: &ScriptReply) -> Told {
    side::told_reply(&words(
        played.head,
        played.place,
        played.counts,
        played.answer,
    ))
}

fn crew_told(crew: &CrewReply) -> Told {
    let answer = match crew.answer {
        Ok(_) => Answer::Done,
        Err(refusal) => Answer::Refused(refusal),
    };
    let run = crew.answer.unwrap_or_default();
    let mut words = words(crew.head, 0, Counts::default(), answer);
    words.extend([run.moving, run.idle].map(u64::from));
    words.extend(run.taken.map(u64::from));
    words.extend(run.released.map(u64::from));
    side::told_crew(&words)
}

fn salvage_told(salvage: &SalvageReply) -> Told {
    let SalvageReply { head, answer } = salvage;
    let [kind, one, two] = match *answer {
        Ok(Salvaged { changed, held }) => [0, changed as u64, held as u64],
        Err(SalvageRefusal::BadShape) => [5, 1, 0],
        Err(SalvageRefusal::ReportFull) => [5, 106, 0],
    };
    let mut words = [head.headers, head.buckets, head.next, head.boot]
        .map(u64::from)
        .to_vec();
    words.extend([kind, one, two]);
    side::told_salvage(&words)
}

// A refused call of the book is no case: its number is left out, and so differs from the library's.
fn written_told(written: &Result<Written, BookRefusal>) -> Told {
    side::told_written(&match *written {
        Ok(Written { version, moved }) => [1, version.into(), moved.into(), 0],
        Err(_) => [3, 0, 0, 0],
    })
}

fn read_told(read: &Result<Kept, BookRefusal>) -> Told {
    side::told_read(&match *read {
        Ok(Kept { setpoint, version }) => {
            let (kind, number) = (setpoint.kind().into(), setpoint.number().into());
            [2, version.into(), kind, number]
        }
        Err(_) => [3, 0, 0, 0],
    })
}

fn dump_told(written: &Result<usize, wave::Refusal>) -> Told {
    side::told_dump(&match *written {
        Ok(bytes) => [0, bytes as u64, 0],
        Err(wave::Refusal::BadScript) => [1, 2, 0],
        Err(wave::Refusal::TooWide) => [2, 0, 0],
        Err(wave::Refusal::NoRoom) => [3, 0, 0],
    })
}

fn history_told(read: &Result<wave::Read, wave::NotRead>) -> Told {
    side::told_history(&match *read {
        Ok(wave::Read { cells, steps }) => [0, cells as u64, steps as u64],
        Err(wave::NotRead::NoRoom) => [3, 0, 0],
        Err(wave::NotRead::BadLine(line)) => [4, line as u64, 0],
    })
}

impl Side for Plain {
    #[inline(always)]
    fn prepare(desk: &mut Desk, watch: &mut impl Watch) {
        let reply = rules::prepare(
            desk.head.headers,
            desk.head.buckets,
            desk.head.next,
            desk.head.boot,
            &mut desk.table,
            &mut desk.health,
        );
        watch.see(&reply, reply_told);
    }

    #[inline(always)]
    fn drop_lease(desk: &mut Desk, watch: &mut impl Watch) {
        let lease = lease_of(desk);
        let reply = rules::drop_lease(head_of(desk), &mut desk.table, lease);
        watch.see(&reply, reply_told);
    }

    #[inline(always)]
    fn drop_preserving_borrows(desk: &mut Desk, watch: &mut impl Watch) {
        let lease = lease_of(desk);
        let reply =
            rules::drop_preserving_borrows(head_of(desk), &mut desk.table, &desk.held, lease);
        watch.see(&reply, reply_told);
    }

    #[inline(always)]
    fn environment(desk: &mut Desk, watch: &mut impl Watch) {
        let reply = rules::environment(
            head_of(desk),
            &mut desk.table,
            &mut desk.health,
            &desk.script,
            0,
            &desk.held,
        );
        watch.see(&reply, played_told);
    }

    #[inline(always)]
    fn try_lock(desk: &mut Desk, watch: &mut impl Watch) {
        let reply = rules::try_lock(
            head_of(desk),
            &mut desk.table,
            &mut desk.health,
            &desk.script,
            0,
            &desk.held,
            desk.cell,
        );
        watch.see(&reply, played_told);
    }

    #[inline(always)]
    fn transactional_try_lock_bucket(desk: &mut Desk, watch: &mut impl Watch) {
        let reply = rules::transactional_try_lock_bucket(
            head_of(desk),
            &mut desk.table,
            &mut desk.health,
            &desk.registry,
            &desk.script,
            0,
            &desk.held,
            desk.binding,
            desk.bucket,
        );
        watch.see(&reply, played_told);
    }

    #[inline(always)]
    fn acquire_index_bucket(desk: &mut Desk, watch: &mut impl Watch) {
        let reply = rules::acquire_index_bucket(
            head_of(desk),
            &mut desk.table,
            &mut desk.health,
            &desk.registry,
            &desk.script,
            0,
            &desk.held,
            desk.binding,
            desk.bucket,
        );
        watch.see(&reply, played_told);
    }

    #[inline(always)]
    fn acquire_index_locks(desk: &mut Desk, watch: &mut impl Watch) {
        let reply = rules::acquire_index_locks(
            head_of(desk),
            &mut desk.table,
            &mut desk.health,
            &desk.registry,
            &desk.script,
            0,
            &desk.held,
            &desk.keys,
            &mut desk.grants,
        );
        watch.see(&reply, played_told);
    }

    #[inline(always)]
    fn acquire_sorted_locks(desk: &mut Desk, watch: &mut impl Watch) {
        let reply = rules::acquire_sorted_locks(
            head_of(desk),
            &mut desk.table,
            &mut desk.health,
            &desk.registry,
            &desk.script,
            0,
            &desk.held,
            &desk.keys,
            &mut desk.grants,
        );
        watch.see(&reply, played_told);
    }

    #[inline(always)]
    fn release_all(desk: &mut Desk, watch: &mut impl Watch) {
        let reply = rules::release_all(
            head_of(desk),
            &mut desk.table,
            &mut desk.health,
            &desk.script,
            0,
            &desk.grants,
        );
        watch.see(&reply, played_told);
    }

    #[inline(always)]
    fn crew(desk: &mut Desk, watch: &mut impl Watch) {
        let reply = rules::crew(
            head_of(desk),
            &mut desk.table,
            &desk.health,
            &desk.counts,
            &desk.cells,
            &desk.turns,
        );
        watch.see(&reply, crew_told);
    }

    #[inline(always)]
    fn crew_at_work(desk: &mut Desk, watch: &mut impl Watch) {
        let reply = rules::crew_at_work(
            head_of(desk),
            &mut desk.table,
            &desk.health,
            &desk.counts,
            &desk.cells,
            &desk.turns,
            &mut desk.counters,
        );
        watch.see(&reply, crew_told);
    }

    #[inline(always)]
    fn salvage(desk: &mut Desk, watch: &mut impl Watch) {
        let reply = salvage::salvage(
            head_of(desk),
            &mut desk.table,
            &mut desk.health,
            &mut desk.report,
            &mut desk.unconfirmed,
        );
        watch.see(&reply, salvage_told);
    }

    #[inline(always)]
    fn write_speed(desk: &mut Desk, watch: &mut impl Watch) {
        let lease = lease_of(desk);
        let reply = book::write_setpoint(
            head_of(desk),
            &desk.table,
            &mut desk.book,
            desk.slot,
            lease,
            Setpoint::Speed(desk.speed),
        );
        watch.see(&reply, written_told);
    }

    #[inline(always)]
    fn read_version(desk: &mut Desk, watch: &mut impl Watch) {
        let reply = book::read_version(head_of(desk), &desk.book, desk.slot, desk.version);
        watch.see(&reply, read_told);
    }

    #[inline(always)]
    fn write_dump(desk: &mut Desk, watch: &mut impl Watch) {
        let reply = wave::write_into(desk.cell, &desk.script, &mut desk.text);
        watch.see(&reply, dump_told);
    }

    #[inline(always)]
    fn read_dump(desk: &mut Desk, watch: &mut impl Watch) {
        let reply = wave::read_into(&desk.text, &mut desk.history);
        watch.see(&reply, history_told);
    }
}
