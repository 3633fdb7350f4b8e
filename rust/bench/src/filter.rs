//! A program that reads all its input, and then prints.

use crate::{say, LOST};
use console::waveform::INPUT;
use std::io::{self, Read, Write};

/// Reads standard input, at most one byte more than the longest, and prints what `answer` gives for it.
pub fn run(answer: impl FnOnce(&[u8]) -> Vec<u8>) -> u8 {
    let mut input = Vec::new();
    let mut lent = io::stdin().lock().take(INPUT as u64 + 1);
    if lent.read_to_end(&mut input).is_err() {
        say("input lost");
        return LOST;
    }
    let text = answer(&input);
    let mut out = io::stdout().lock();
    if out.write_all(&text).and_then(|()| out.flush()).is_err() {
        say("output lost");
        return LOST;
    }
    0
}
