//! The waveform of the cells (document 02, L11): their bits over a history as a value change dump (IEEE 1364), for a
//! viewer, and back.
//!
//! ```
//! use skid::{wave, Step};
//!
//! let mut text = [0u8; 136];
//! let size = wave::write(2, &[Step::take(0)], &mut text).unwrap();
//! let mut history = [Step::OBSERVE; 1];
//! let read = wave::read(&text[..size], &mut history).unwrap();
//! assert_eq!((read.cells, &history[..read.steps]), (2, &[Step::take(0)][..]));
//! ```
use crate::{raw, Step};

/// The most cells of a waveform.
pub const CELLS: u32 = 94;
/// No dump has more bytes.
pub const LONGEST: usize = 319_088;

/// Why nothing was written.
#[derive(Clone, Copy, Debug, PartialEq, Eq, Hash)]
#[non_exhaustive]
pub enum NotWritten {
    /// Refusal 2: more than 32,768 steps.
    BadScript,
    /// No cells, or more than [`CELLS`].
    TooWide,
    /// The buffer is too short for the whole dump.
    NoRoom,
}

/// Why nothing was read.
#[derive(Clone, Copy, Debug, PartialEq, Eq, Hash)]
#[non_exhaustive]
pub enum NotRead {
    /// No dump begins with this line, from 1, and those before it.
    BadLine(usize),
    /// The buffer is too short for the whole history.
    NoRoom,
}

/// What was read.
#[derive(Clone, Copy, Debug, PartialEq, Eq)]
pub struct Read {
    /// How many cells the waveform has.
    pub cells: usize,
    /// How many steps stand at the front of the buffer: up to the last change.
    pub steps: usize,
}

/// Writes the bits of the first cells over a history, from all bits 0: a take sets its cell's bit, a release clears it,
/// any other step only counts. Gives the bytes written; those behind them are left alone, and a refusal changes none.
pub fn write(cells: u32, history: &[Step], text: &mut [u8]) -> Result<usize, NotWritten> {
    let words = raw::write_dump(cells, raw::words(history), text);
    match words[0] {
        0 => Ok(words[1] as usize),
        1 => Err(NotWritten::BadScript),
        2 => Err(NotWritten::TooWide),
        _ => Err(NotWritten::NoRoom),
    }
}

/// Reads back what [`write()`] can have written, and nothing else: a history with the same bits at the same steps, other
/// words 0. Steps behind it are left alone, and a refusal changes none.
pub fn read(text: &[u8], history: &mut [Step]) -> Result<Read, NotRead> {
    let words = raw::read_dump(text, raw::words_mut(history));
    match words[0] {
        0 => Ok(Read {
            cells: words[1] as usize,
            steps: words[2] as usize,
        }),
        4 => Err(NotRead::BadLine(words[1] as usize)),
        _ => Err(NotRead::NoRoom),
    }
}
