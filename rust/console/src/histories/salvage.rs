//! Salvage after a dip.

use super::Writer;
use crate::answer::{Answer, Answered};
use crate::build::Build;
use crate::build::Head;
use crate::desk;
use crate::line::Line;

/// How many words and bytes a salvage would change, and how many cells it would leave held.
#[derive(Default)]
pub(super) struct Found {
    pub(super) changed: usize,
    pub(super) held: usize,
}

impl<B: Build, J: Build + Clone, K: FnMut(&mut B, &[u8], &[u8]) -> bool> Writer<B, J, K> {
    /// A power dip or none, a salvage, and most of the time a second one; where the first was refused with room enough.
    /// Then leases from before may be handed over, as they were and with the boot number on the paper: always where it
    /// is another one.
    pub(super) fn salvage(&mut self) {
        let (next, boot) = (self.next(), self.boot());
        let mut leases = self.live();
        if !self.dice.once_in(6) {
            self.dip();
        }
        self.rooms();
        self.write("salvage", &[]);
        match self.dice.below(4) {
            0 => {}
            1 => self.write("salvage", &[]),
            _ => {
                self.room_enough();
                self.write("salvage", &[]);
            }
        }
        let same = self.boot() == boot;
        if !same || self.dice.once_in(8) {
            // mostly of cells that were left held
            leases.retain(|lease| self.is_live(lease[0], lease[1]) || self.dice.once_in(4));
            for lease in &mut leases {
                if same && self.dice.once_in(2) {
                    *lease = self.of_another_boot(*lease);
                }
            }
            leases.extend(self.live());
            self.hand_over(&leases);
            if !same {
                self.hand_over(&leases);
            }
        }
        // a head without serials is kept for a few calls at most
        if self.next() >= u32::MAX - 64 && next < u32::MAX - 64 && !self.dice.once_in(10) {
            self.write_next(next);
        }
    }

    /// Words and bytes of the arena are no longer what they were, and the head is the one on paper.
    pub(super) fn dip(&mut self) {
        if self.cells() <= 12 && self.dice.once_in(8) {
            let seed = self.dice.odd_number();
            self.write("ram", &[seed]);
        }
        for _ in 0..self.dice.below(7) {
            self.spoil();
        }
        let Head {
            headers,
            buckets,
            next,
            boot,
        } = self.desk.head;
        let back = self.dice.number(4);
        let (next, paper) = match self.dice.below(20) {
            0 => (next.saturating_sub(back).max(1), boot),
            1 => (next.saturating_add(back), boot),
            2 => (1, boot),
            3 => (u32::MAX, boot),
            // the paper has the boot number of another day
            4..=6 => (next, self.next_boot()),
            _ => return,
        };
        if paper != boot {
            self.remember();
        }
        self.write("head", &[headers, buckets, next, paper]);
    }

    /// One word, byte or cell as bad RAM leaves it.
    pub(super) fn spoil(&mut self) {
        let (cells, headers, next) = (self.cells(), self.headers(), self.next());
        let cell = self.dice.number(cells.min(12));
        let any = self.dice.odd_number();
        match self.dice.below(12) {
            0..=1 => {
                let bit = self.dice.pick(&[0, 1, 2, any]);
                self.write("word", &[3 * cell, bit]);
            }
            2..=3 => {
                let owner = self.dice.pick(&[0, 1, next, next.saturating_add(1), any]);
                self.write("word", &[3 * cell + 1, owner]);
            }
            // held, by an owner of now or of later
            4..=5 => {
                let owner = self.dice.pick(&[1, next.saturating_sub(1), next, any]);
                self.write("word", &[3 * cell, 1]);
                self.write("word", &[3 * cell + 1, owner]);
            }
            // one owner of two cells
            6 => {
                if let Some(&[_, serial, _]) = self.live().first() {
                    self.write("word", &[3 * cell, 1]);
                    self.write("word", &[3 * cell + 1, serial]);
                }
            }
            7..=9 => {
                let waiters = self.dice.pick(&[1, 1, any]);
                self.write("word", &[3 * cell + 2, waiters]);
            }
            _ => {
                let header = self.dice.number(headers);
                let byte = self.dice.pick(&[0, 1, 2, 128, 255]);
                self.write("byte", &[header, byte]);
            }
        }
    }

    /// What a salvage would find now; nothing where it would be refused by 1.
    pub(super) fn found(&self) -> Found {
        let mut desk = self.desk.clone();
        desk.report = vec![0; desk::REPORT];
        desk.unconfirmed = vec![0; desk::UNCONFIRMED];
        match desk.play(&mut self.judge.clone(), b"salvage") {
            Line::Call(Answered {
                answer: Answer::Salvage([_, _, _, _, 0, changed, held]),
                ..
            }) => Found {
                changed: changed as usize,
                held: held as usize,
            },
            _ => Found::default(),
        }
    }

    /// Report and list exactly long enough, one short, empty, or longer. Where much is to be reported they are seldom
    /// long enough: they are printed word by word.
    pub(super) fn rooms(&mut self) {
        let Found { changed, held } = self.found();
        let (words, cells) = ((3 * changed) as u32, held as u32);
        let much = changed + held > 200 && !self.dice.once_in(12);
        let words = match self.dice.below(16) {
            0..=1 => words.saturating_sub(1),
            2 => words.saturating_sub(self.dice.pick(&[2, 3, 6])),
            3 => 0,
            4..=5 => words + self.dice.number(8),
            6 => 3 * self.dice.number(6),
            _ => words,
        };
        let cells = match self.dice.below(16) {
            0..=1 => cells.saturating_sub(1),
            2 => 0,
            3..=4 => cells + self.dice.number(4),
            5 => self.dice.number(6),
            _ => cells,
        };
        let (words, cells) = match much {
            true => (words.min(30), cells.min(30)),
            false => (words, cells),
        };
        self.write("report", &[words]);
        self.write("unconfirmed", &[cells]);
    }

    /// Report and list with room for all.
    pub(super) fn room_enough(&mut self) {
        let Found { changed, held } = self.found();
        if changed + held <= 200 {
            self.write("report", &[(3 * changed) as u32]);
            self.write("unconfirmed", &[held as u32]);
        }
    }
}
