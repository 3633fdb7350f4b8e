//! The cases: what lies on the desk before a call, by the size of the case.

use crate::desk::{leases, Desk};
use crate::plainly::Plain;
use crate::side::{Blind, Side};

/// The most steps of a script.
const STEPS: usize = 32_768;

/// The arena of document 01's bench cases. The lease to drop is that of cell 2.
fn bench_arena() -> Desk {
    let mut desk = Desk::new(2, 4);
    desk.registry = vec![0, 1, 1];
    desk.cell = 2;
    desk.bucket = 2;
    desk.serial = 3;
    desk
}

/// A free cell, by cell and by key.
pub fn free(_size: usize) -> Desk {
    let mut desk = bench_arena();
    desk.keep();
    desk
}

/// A held cell, and a script of so many steps: set the waiters of another cell, set them again, end of boundary.
pub fn refusal(steps: usize) -> Desk {
    let mut desk = bench_arena();
    desk.hold(3);
    desk.held = leases(3).split_off(6);
    desk.script = [3, 5, 9, 3, 6, 1, 5, 0, 0].repeat(steps / 3 + 1);
    desk.script.truncate(3 * steps);
    desk.keep();
    desk
}

/// A live lease, and beside it so many that are in the held list.
pub fn lease(held: usize) -> Desk {
    let held = held as u32;
    let mut desk = Desk::new(16, 8);
    desk.hold(held + 1);
    desk.held = leases(held);
    desk.cell = held;
    desk.serial = held + 1;
    desk.keep();
    desk
}

/// The same lease, released by one step of a script.
pub fn release(held: usize) -> Desk {
    let mut desk = lease(held);
    desk.script = vec![2, desk.cell, desk.serial];
    desk
}

/// One step that sets the waiters of a cell.
pub fn waiters(_size: usize) -> Desk {
    let mut desk = bench_arena();
    desk.script = vec![3, 2, 1];
    desk
}

/// A script of so many steps, in 1,024 cells, cells 0 to 63 held and so many of them protected. Every second step
/// releases the first, the middle or the last of the 64 in turn, by its lease where it is protected, and else by a serial
/// that is not its own: it is dropped. Between them a cell of the 960 others is taken, and then released.
fn steps_and_held(steps: usize, held: usize) -> Desk {
    let mut desk = Desk::new(16, 64);
    desk.hold(64);
    desk.held = leases(held as u32);
    let next = desk.head.next;
    let dropped = |release: usize| {
        let cell = match held {
            0 | 1 => 0,
            _ => [0, held / 2, held - 1][release % 3],
        } as u32;
        [2, cell, if held == 0 { 2 } else { cell + 1 }]
    };
    desk.script = (0..steps.div_ceil(4))
        .flat_map(|take| {
            let cell = 64 + (take % 960) as u32;
            let taken = [1, cell, 0];
            let released = [2, cell, next + take as u32];
            [dropped(2 * take), taken, dropped(2 * take + 1), released]
        })
        .flatten()
        .collect();
    desk.script.truncate(3 * steps);
    desk
}

pub fn steps(steps: usize) -> Desk {
    steps_and_held(steps, 0)
}

pub fn releases(held: usize) -> Desk {
    steps_and_held(STEPS, held)
}

/// So many free keys, in the order of their cells.
pub fn keys(keys: usize) -> Desk {
    let mut desk = Desk::new(16, 16);
    desk.registry = (0..16).collect();
    desk.keys = (0..keys as u32)
        .flat_map(|key| [key / 4, 4 * (key % 4)])
        .collect();
    desk.grants = vec![0; 3 * keys];
    desk.keep();
    desk
}

/// The same keys in falling order.
pub fn falling(keys: usize) -> Desk {
    let mut desk = self::keys(keys);
    desk.keys = desk.keys.rchunks_exact(2).flatten().copied().collect();
    desk
}

/// So many leases to be released.
pub fn given(leases: usize) -> Desk {
    let mut desk = Desk::new(16, 16);
    desk.hold(leases as u32);
    desk.grants = self::leases(leases as u32);
    desk.keep();
    desk
}

/// 16 members, in turn, each with the same 16 cells of 256; a counter for each cell. Nothing is held after it.
pub fn crew(turns: usize) -> Desk {
    let mut desk = Desk::new(16, 16);
    desk.counts = vec![16; 16];
    desk.cells = (0..16).flat_map(|_| 0..16).map(|k| 17 * k).collect();
    desk.turns = (0..turns as u32).map(|turn| turn % 16).collect();
    desk.counters = (1..=256).collect();
    desk
}

/// An arena of so many cells, which is a square number, that nobody has prepared.
pub fn cold(cells: usize) -> Desk {
    let side = (cells as f64).sqrt() as u32;
    let mut desk = Desk::new(side, side);
    desk.table.fill(7);
    desk.health.fill(7);
    desk
}

/// Room for as many entries.
fn room(desk: &mut Desk, entries: usize, held: usize) {
    desk.report = vec![0; 3 * entries];
    desk.unconfirmed = vec![0; held];
    desk.keep();
}

/// Of every four cells one is held; nothing is to be mended.
pub fn sound(cells: usize) -> Desk {
    let mut desk = cold(cells);
    desk.head.next = cells as u32 + 1;
    desk.health.fill(0);
    for (cell, words) in (1..).zip(desk.table.chunks_exact_mut(3)) {
        words.copy_from_slice(&if cell % 4 == 0 { [1, cell, 0] } else { [0; 3] });
    }
    room(&mut desk, 0, cells / 4);
    desk
}

/// Every word and byte is to be mended.
pub fn broken(cells: usize) -> Desk {
    let mut desk = cold(cells);
    let entries = desk.table.len() + desk.health.len();
    room(&mut desk, entries, 0);
    desk
}

/// Of every 16 cells one is damaged, in bit and owner; of every 8 one is waited for; of every 4 one is held; of every 8
/// health bytes one is neither 0 nor 1. Report and list are exactly long enough.
pub fn dipped(cells: usize) -> Desk {
    let mut desk = cold(cells);
    desk.head.next = cells as u32 + 1;
    for (cell, words) in (0..).zip(desk.table.chunks_exact_mut(3)) {
        let waiters = u32::from(cell % 8 == 3);
        words.copy_from_slice(&match (cell % 16, cell % 4) {
            (5, _) => [2, 7, waiters],
            (_, 2) => [1, cell + 1, waiters],
            _ => [0, 0, waiters],
        });
    }
    for (header, byte) in desk.health.iter_mut().enumerate() {
        *byte = [0, 7][usize::from(header % 8 == 3)];
    }
    let headers = desk.health.len();
    room(&mut desk, cells / 4 + headers / 8, cells / 4);
    desk
}

/// A held cell for each slot, and their book, four versions in each slot, with room for so many bodies more. The slots
/// were written in turn, so the oldest body of slot 0 stands first. The call is on slot 0, or reads the last.
fn full_book(slots: usize, bodies: usize) -> Desk {
    let mut desk = Desk::new(1, slots as u32);
    desk.hold(slots as u32);
    desk.book = vec![0; 52 * slots + 5 * bodies];
    for write in 0..4 * slots as u32 {
        write_to(&mut desk, write % slots as u32);
        Plain::write_speed(&mut desk, &mut Blind);
    }
    write_to(&mut desk, 0);
    desk.version = 1;
    desk.keep();
    desk
}

fn write_to(desk: &mut Desk, slot: u32) {
    desk.slot = slot;
    desk.cell = slot;
    desk.serial = slot + 1;
    desk.speed += 1;
}

/// Room for one body more: nothing slides.
pub fn book(slots: usize) -> Desk {
    full_book(slots, 1)
}

/// No room: the dropped body stood first, and all others slide.
pub fn crammed(slots: usize) -> Desk {
    full_book(slots, 0)
}

pub fn last_slot(slots: usize) -> Desk {
    let mut desk = full_book(slots, 0);
    desk.slot = slots as u32 - 1;
    desk
}

/// 94 cells and so many steps, each of which changes a bit; room for the whole dump and no more.
pub fn history(steps: usize) -> Desk {
    let mut desk = Desk::new(1, 1);
    desk.cell = 94;
    desk.script = (0..steps as u32)
        .flat_map(|step| [1 + step / 94 % 2, step % 94, 0])
        .collect();
    desk.text = vec![0; 1 << 20];
    let bytes = plain::wave::write_into(94, &desk.script, &mut desk.text).expect("there is room");
    desk.text.truncate(bytes);
    desk
}

/// The dump of such a history, and room for it.
pub fn dump(steps: usize) -> Desk {
    let mut desk = history(steps);
    desk.history = vec![7; 3 * steps];
    desk
}
