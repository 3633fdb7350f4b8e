//! The proved side: the functions of libskid.a through `skid::raw`, with the reply lent from the desk like all else. So
//! nothing is filled or copied that C would not.

use crate::desk::{Desk, BOOT};
use crate::side::{self, Side, Watch};
use skid::raw::lent;
use skid::{Head, Key, Lease};

pub struct Proved;

#[inline(always)]
fn head_of(desk: &Desk) -> Head {
    Head {
        headers: desk.head.headers,
        buckets: desk.head.buckets,
        next: desk.head.next,
        boot: desk.head.boot,
    }
}

#[inline(always)]
fn lease_of(desk: &Desk) -> Lease {
    Lease {
        cell: desk.cell,
        serial: desk.serial,
        boot: BOOT,
    }
}

#[inline(always)]
fn key_of(desk: &Desk) -> Key {
    Key {
        binding: desk.binding,
        bucket: desk.bucket,
    }
}

impl Side for Proved {
    #[inline(always)]
    fn prepare(desk: &mut Desk, watch: &mut impl Watch) {
        lent::prepare(
            head_of(desk),
            &mut desk.table,
            &mut desk.health,
            &mut desk.replies.reply,
        );
        watch.see(&desk.replies.reply, |words| side::told_reply(words));
    }

    #[inline(always)]
    fn drop_lease(desk: &mut Desk, watch: &mut impl Watch) {
        let lease = lease_of(desk);
        lent::drop_lease(
            head_of(desk),
            &mut desk.table,
            lease,
            &mut desk.replies.reply,
        );
        watch.see(&desk.replies.reply, |words| side::told_reply(words));
    }

    #[inline(always)]
    fn drop_preserving_borrows(desk: &mut Desk, watch: &mut impl Watch) {
        let lease = lease_of(desk);
        lent::drop_preserving_borrows(
            head_of(desk),
            &mut desk.table,
            &desk.held,
            lease,
            &mut desk.replies.reply,
        );
        watch.see(&desk.replies.reply, |words| side::told_reply(words));
    }

    #[inline(always)]
    fn environment(desk: &mut Desk, watch: &mut impl Watch) {
        lent::environment(
            head_of(desk),
            &mut desk.table,
            &mut desk.health,
            &desk.script,
            0,
            &desk.held,
            &mut desk.replies.reply,
        );
        watch.see(&desk.replies.reply, |words| side::told_reply(words));
    }

    #[inline(always)]
    fn try_lock(desk: &mut Desk, watch: &mut impl Watch) {
        lent::try_lock(
            head_of(desk),
            &mut desk.table,
            &mut desk.health,
            &desk.script,
            0,
            &desk.held,
            desk.cell,
            &mut desk.replies.reply,
        );
        watch.see(&desk.replies.reply, |words| side::told_reply(words));
    }

    #[inline(always)]
    fn transactional_try_lock_bucket(desk: &mut Desk, watch: &mut impl Watch) {
        let key = key_of(desk);
        lent::transactional_try_lock_bucket(
            head_of(desk),
            &mut desk.table,
            &mut desk.health,
            &desk.registry,
            &desk.script,
            0,
            &desk.held,
            key,
            &mut desk.replies.reply,
        );
        watch.see(&desk.replies.reply, |words| side::told_reply(words));
    }

    #[inline(always)]
    fn acquire_index_bucket(desk: &mut Desk, watch: &mut impl Watch) {
        let key = key_of(desk);
        lent::acquire_index_bucket(
            head_of(desk),
            &mut desk.table,
            &mut desk.health,
            &desk.registry,
            &desk.script,
            0,
            &desk.held,
            key,
            &mut desk.replies.reply,
        );
        watch.see(&desk.replies.reply, |words| side::told_reply(words));
    }

    #[inline(always)]
    fn acquire_index_locks(desk: &mut Desk, watch: &mut impl Watch) {
        lent::acquire_index_locks(
            head_of(desk),
            &mut desk.table,
            &mut desk.health,
            &desk.registry,
            &desk.script,
            0,
            &desk.held,
            &desk.keys,
            &mut desk.grants,
            &mut desk.replies.reply,
        );
        watch.see(&desk.replies.reply, |words| side::told_reply(words));
    }

    #[inline(always)]
    fn acquire_sorted_locks(desk: &mut Desk, watch: &mut impl Watch) {
        lent::acquire_sorted_locks(
            head_of(desk),
            &mut desk.table,
            &mut desk.health,
            &desk.registry,
            &desk.script,
            0,
            &desk.held,
            &desk.keys,
            &mut desk.grants,
            &mut desk.replies.reply,
        );
        watch.see(&desk.replies.reply, |words| side::told_reply(words));
    }

    #[inline(always)]
    fn release_all(desk: &mut Desk, watch: &mut impl Watch) {
        lent::release_all(
            head_of(desk),
            &mut desk.table,
            &mut desk.health,
            &desk.script,
            0,
            &desk.grants,
            &mut desk.replies.reply,
        );
        watch.see(&desk.replies.reply, |words| side::told_reply(words));
    }

    #[inline(always)]
    fn crew(desk: &mut Desk, watch: &mut impl Watch) {
        lent::crew(
            head_of(desk),
            &mut desk.table,
            &desk.health,
            &desk.counts,
            &desk.cells,
            &desk.turns,
            &mut desk.replies.crew,
        );
        watch.see(&desk.replies.crew, |words| side::told_crew(words));
    }

    #[inline(always)]
    fn crew_at_work(desk: &mut Desk, watch: &mut impl Watch) {
        lent::crew_at_work(
            head_of(desk),
            &mut desk.table,
            &desk.health,
            &desk.counts,
            &desk.cells,
            &desk.turns,
            &mut desk.counters,
            &mut desk.replies.crew,
        );
        watch.see(&desk.replies.crew, |words| side::told_crew(words));
    }

    #[inline(always)]
    fn salvage(desk: &mut Desk, watch: &mut impl Watch) {
        lent::salvage(
            head_of(desk),
            &mut desk.table,
            &mut desk.health,
            &mut desk.report,
            &mut desk.unconfirmed,
            &mut desk.replies.salvage,
        );
        watch.see(&desk.replies.salvage, |words| side::told_salvage(words));
    }

    #[inline(always)]
    fn write_speed(desk: &mut Desk, watch: &mut impl Watch) {
        let lease = lease_of(desk);
        lent::write_speed(
            head_of(desk),
            &desk.table,
            &mut desk.book,
            desk.slot,
            lease,
            desk.speed,
            &mut desk.replies.book,
        );
        watch.see(&desk.replies.book, |words| side::told_written(words));
    }

    #[inline(always)]
    fn read_version(desk: &mut Desk, watch: &mut impl Watch) {
        lent::read_version(
            head_of(desk),
            &desk.book,
            desk.slot,
            desk.version,
            &mut desk.replies.book,
        );
        watch.see(&desk.replies.book, |words| side::told_read(words));
    }

    #[inline(always)]
    fn write_dump(desk: &mut Desk, watch: &mut impl Watch) {
        let cells = desk.cell;
        lent::write_dump(cells, &desk.script, &mut desk.text, &mut desk.replies.wave);
        watch.see(&desk.replies.wave, |words| side::told_dump(words));
    }

    #[inline(always)]
    fn read_dump(desk: &mut Desk, watch: &mut impl Watch) {
        lent::read_dump(&desk.text, &mut desk.history, &mut desk.replies.wave);
        watch.see(&desk.replies.wave, |words| side::told_history(words));
    }
}
