//! A line of the console's language: its words and numbers, and what it is.

use crate::answer::{kind_of, Answered};
use crate::build::Build;
use crate::desk::Desk;
use crate::show::Look;
use std::io::{self, Write};

/// The longest line that can be understood, in bytes, without its line feed.
pub const LINE: usize = 1_310_720;

/// An empty line, or one that begins with `#`, is skipped.
pub fn is_skipped(line: &[u8]) -> bool {
    line.is_empty() || line[0] == b'#'
}

/// What a line was, once it has been played. It is looked at and not kept, so that its size is nothing.
#[allow(clippy::large_enum_variant)]
#[derive(Clone, Debug, PartialEq, Eq)]
pub enum Line {
    /// Empty, or a remark.
    Skipped,
    /// A command that prints nothing.
    Command,
    /// A command that shows something and changes nothing.
    Look(Look),
    /// A call, and what it answered.
    Call(Answered),
    /// It changed nothing.
    NotUnderstood,
}

impl Desk {
    /// Plays one line, given without its line feed, and prints nothing.
    pub fn play(&mut self, build: &mut impl Build, line: &[u8]) -> Line {
        // whatever it holds, a remark too
        if line.len() > LINE {
            return Line::NotUnderstood;
        }
        if is_skipped(line) {
            return Line::Skipped;
        }
        let Some((word, numbers)) = words(line) else {
            return Line::NotUnderstood;
        };
        if self.command(word, &numbers) {
            Line::Command
        } else if let Some(look) = Look::of(word, &numbers) {
            Line::Look(look)
        } else if let Some(answered) = self.call(build, word, &numbers) {
            Line::Call(answered)
        } else {
            Line::NotUnderstood
        }
    }

    /// Plays one line and prints what the language says; of a line that is not understood nothing.
    pub fn line(
        &mut self,
        build: &mut impl Build,
        line: &[u8],
        out: &mut impl Write,
    ) -> io::Result<Line> {
        let played = self.play(build, line);
        match &played {
            Line::Look(look) => self.show(*look, out)?,
            Line::Call(answered) => self.print(answered, out)?,
            Line::Skipped | Line::Command | Line::NotUnderstood => {}
        }
        Ok(played)
    }
}

/// The first word of a line, and the numbers behind it; a kind of setpoint is given as its number. Words are separated
/// by single spaces, with none before or after.
pub(crate) fn words(line: &[u8]) -> Option<(&[u8], Vec<u32>)> {
    let mut words = line.split(|&byte| byte == b' ');
    let first = words.next().unwrap_or_default();
    let value = |(at, word)| match (first, at) {
        (b"write_setpoint", 4) => kind_of(word),
        _ => number(word),
    };
    let numbers = words.enumerate().map(value).collect::<Option<Vec<u32>>>()?;
    Some((first, numbers))
}

/// Decimal, from 0 to 4,294,967,295, without sign or leading zeros.
pub fn number(word: &[u8]) -> Option<u32> {
    if word.is_empty() || (word[0] == b'0' && word.len() > 1) {
        return None;
    }
    word.iter().try_fold(0u32, |value, &byte| {
        if !byte.is_ascii_digit() {
            return None;
        }
        value.checked_mul(10)?.checked_add(u32::from(byte - b'0'))
    })
}
