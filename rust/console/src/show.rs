//! The commands that show the console's RAM and change nothing.

use crate::build::Head;
use crate::desk::Desk;
use crate::help::help;
use std::io::{self, Write};

/// A command that shows something.
#[derive(Clone, Copy, Debug, PartialEq, Eq)]
pub enum Look {
    Show,
    Map,
    ShowBook,
    Help,
}

impl Look {
    /// The look that a line asks for.
    pub(crate) fn of(word: &[u8], numbers: &[u32]) -> Option<Look> {
        match (word, numbers) {
            (b"show", &[]) => Some(Look::Show),
            (b"map", &[]) => Some(Look::Map),
            (b"show_book", &[]) => Some(Look::ShowBook),
            (b"help", &[]) => Some(Look::Help),
            _ => None,
        }
    }
}

impl Desk {
    /// Prints what a look shows.
    pub fn show(&self, look: Look, out: &mut impl Write) -> io::Result<()> {
        match look {
            Look::Show => self.show_arena(out),
            Look::Map => self.map(out),
            Look::ShowBook => self.show_book(out),
            Look::Help => out.write_all(help().as_bytes()),
        }
    }

    /// The head, the cells that are not all 0, the health that is not 0.
    fn show_arena(&self, out: &mut impl Write) -> io::Result<()> {
        let Head {
            headers,
            buckets,
            next,
            boot,
        } = self.head;
        let (words, bytes) = self.lent(self.head);
        writeln!(out, "head {headers} {buckets} {next} {boot}")?;
        for (cell, three) in self.table[..words].chunks_exact(3).enumerate() {
            if three != [0, 0, 0] {
                writeln!(out, "cell {cell} {} {} {}", three[0], three[1], three[2])?;
            }
        }
        for (index, byte) in self.health[..bytes].iter().enumerate() {
            if *byte != 0 {
                writeln!(out, "health {index} {byte}")?;
            }
        }
        Ok(())
    }

    /// `no arena` if the head in force breaks the arena's rules or the lent table or health has another length
    /// than it asks for; else a line for each header, with a character for each of its cells.
    fn map(&self, out: &mut impl Write) -> io::Result<()> {
        let head = self.head;
        let (words, bytes) = self.lent(head);
        if !is_arena(head, words, bytes) {
            return writeln!(out, "no arena");
        }
        let rows = self.table[..words].chunks_exact(3 * head.buckets as usize);
        for (header, (row, &byte)) in rows.zip(&self.health[..bytes]).enumerate() {
            let state = if byte == 0 { "healthy" } else { "poisoned" };
            let cells: String = row
                .chunks_exact(3)
                .map(|cell| cell_character(cell, head.next))
                .collect();
            writeln!(out, "header {header} {state} {cells}")?;
        }
        Ok(())
    }

    /// `book N`, and then for each stretch of 16 bytes of the lent book (the last may be shorter) that is not all 0 a
    /// line with the number of its first byte and its bytes.
    fn show_book(&self, out: &mut impl Write) -> io::Result<()> {
        writeln!(out, "book {}", self.lent_book)?;
        for (stretch, bytes) in self.book[..self.lent_book].chunks(16).enumerate() {
            if bytes.iter().any(|&byte| byte != 0) {
                write!(out, "at {}", 16 * stretch)?;
                for byte in bytes {
                    write!(out, " {byte}")?;
                }
                writeln!(out)?;
            }
        }
        Ok(())
    }
}

/// The head keeps the arena's rules, and it asks for so many table words and health bytes.
pub fn is_arena(head: Head, words: usize, bytes: usize) -> bool {
    (1..=64).contains(&head.headers)
        && (1..=1024).contains(&head.buckets)
        && head.headers * head.buckets <= 4096
        && head.next != 0
        && words == 3 * (head.headers * head.buckets) as usize
        && bytes == head.headers as usize
}

/// `.` free, `#` held, `!` damaged; a free cell with waiters is `w`, a held one with waiters `W`, a damaged one
/// stays `!`. A cell is free: bit 0, owner 0. Held: bit 1, owner from 1 to next - 1. Else it is damaged.
fn cell_character(cell: &[u32], next: u32) -> char {
    let (bit, owner, waiters) = (cell[0], cell[1], cell[2]);
    let free = bit == 0 && owner == 0;
    let held = bit == 1 && owner >= 1 && owner < next;
    match (free, held, waiters != 0) {
        (true, _, false) => '.',
        (true, _, true) => 'w',
        (_, true, false) => '#',
        (_, true, true) => 'W',
        (false, false, _) => '!',
    }
}
