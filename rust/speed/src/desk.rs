//! What the calls are lent. Both sides get the same desk, and read their arguments from it.

use skid::raw::{BOOK, CREW, REPLY, SALVAGE, WAVE};
use std::hint::black_box;

/// The head's four numbers.
#[derive(Clone, Copy, Default)]
pub struct Head {
    pub headers: u32,
    pub buckets: u32,
    pub next: u32,
    pub boot: u32,
}

/// The boot number of every arena here.
pub const BOOT: u32 = 5;

/// An arena and the arguments of one call on it.
#[derive(Default)]
pub struct Desk {
    pub head: Head,
    pub table: Vec<u32>,
    pub health: Vec<u8>,
    pub registry: Vec<u32>,
    pub script: Vec<u32>,
    pub held: Vec<u32>,
    /// The cell of a call by cell, the key of a call by key, the lease to drop.
    pub cell: u32,
    pub binding: u32,
    pub bucket: u32,
    pub serial: u32,
    /// Multi-lock's keys, and its leases.
    pub keys: Vec<u32>,
    pub grants: Vec<u32>,
    /// The crew's.
    pub counts: Vec<u32>,
    pub cells: Vec<u32>,
    pub turns: Vec<u32>,
    pub counters: Vec<u16>,
    /// A salvage's report, and its list of cells left held.
    pub report: Vec<u32>,
    pub unconfirmed: Vec<u32>,
    /// The setpoint book; the slot, its version and the speed of a call on it.
    pub book: Vec<u8>,
    pub slot: u32,
    pub version: u32,
    pub speed: u32,
    /// The waveform's text, and what is read from it.
    pub text: Vec<u8>,
    pub history: Vec<u32>,
    /// What table, health and book hold before each call; empty where no call changes them.
    pub earlier_table: Vec<u32>,
    pub earlier_health: Vec<u8>,
    pub earlier_book: Vec<u8>,
    pub replies: Replies,
}

/// What the proved side is lent for its replies.
pub struct Replies {
    pub reply: [u64; REPLY],
    pub crew: [u64; CREW],
    pub salvage: [u64; SALVAGE],
    pub book: [u64; BOOK],
    pub wave: [u64; WAVE],
}

impl Default for Replies {
    fn default() -> Replies {
        Replies {
            reply: [0; REPLY],
            crew: [0; CREW],
            salvage: [0; SALVAGE],
            book: [0; BOOK],
            wave: [0; WAVE],
        }
    }
}

impl Desk {
    /// A prepared arena.
    pub fn new(headers: u32, buckets: u32) -> Desk {
        let head = Head {
            headers,
            buckets,
            next: 1,
            boot: BOOT,
        };
        Desk {
            head,
            table: vec![0; (3 * headers * buckets) as usize],
            health: vec![0; headers as usize],
            ..Desk::default()
        }
    }

    /// The first cells are held, cell C by serial C + 1.
    pub fn hold(&mut self, cells: u32) {
        for cell in 0..cells {
            self.table[3 * cell as usize..][..2].copy_from_slice(&[1, cell + 1]);
        }
        self.head.next = cells + 1;
    }

    /// What table, health and book hold now they hold before each call.
    pub fn keep(&mut self) {
        self.earlier_table.clone_from(&self.table);
        self.earlier_health.clone_from(&self.health);
        self.earlier_book.clone_from(&self.book);
    }

    /// Puts back what the call before has changed. This is counted and timed apart, and subtracted.
    #[inline(always)]
    pub fn restore(&mut self) {
        fn copy<T: Copy>(to: &mut [T], from: &[T]) {
            if !from.is_empty() {
                to.copy_from_slice(from);
            }
        }
        copy(&mut self.table, &self.earlier_table);
        copy(&mut self.health, &self.earlier_health);
        copy(&mut self.book, &self.earlier_book);
    }

    /// The desk again, with nothing known about it: a call cannot be shortened by what the compiler sees here.
    #[inline(always)]
    pub fn hidden(&mut self) -> &mut Desk {
        black_box(self)
    }
}

/// The leases on the first cells that `hold` made.
pub fn leases(cells: u32) -> Vec<u32> {
    (0..cells).flat_map(|cell| [cell, cell + 1, BOOT]).collect()
}
