//! What a person at a terminal has besides: words to leave by, help for a word, a hint for a line that is not
//! understood. All of it is said on standard error; in a file or a pipe there is none of it.

use crate::say;
use console::build::Build;
use console::desk::Desk;
use console::help::{help_of, OF_THE_TERMINAL};
use console::hint::{fault, note, readable};
use console::play::{answer, Heard};
use std::io::{self, Write};

/// What a person is greeted with.
pub const GREETING: &str =
    "Type a line and press Enter. \"help\" lists the commands and calls, Ctrl-D leaves.";

/// Does what a word of the terminal alone says; none if the line is of the language, or of neither.
pub fn word(line: &[u8]) -> Option<Heard> {
    if OF_THE_TERMINAL.iter().any(|word| word.as_bytes() == line) {
        return Some(Heard::Leave);
    }
    let word = line.strip_prefix(b"help ")?;
    let told = help_of(word).unwrap_or_else(|| format!("there is no word {}", readable(word)));
    let _ = writeln!(io::stderr(), "{told}");
    Some(Heard::Understood)
}

/// Plays a line in the language, and says a hint behind it.
pub fn played(
    desk: &mut Desk,
    build: &mut impl Build,
    number: u64,
    line: &[u8],
    out: &mut impl Write,
) -> io::Result<Heard> {
    if let Some(heard) = word(line) {
        return Ok(heard);
    }
    let why = fault(desk, line);
    let played = answer(desk, build, number, line, out)?;
    // the answer stands before what is said about it
    out.flush()?;
    if let Some(hint) = why.or_else(|| note(desk, line, &played)) {
        say(&hint);
    }
    Ok(Heard::of(&played))
}

#[cfg(test)]
mod tests {
    use super::{word, Heard};

    #[test]
    fn words_of_the_terminal() {
        for (line, heard) in [
            ("quit", Some(Heard::Leave)),
            ("exit", Some(Heard::Leave)),
            ("help show", Some(Heard::Understood)),
            ("help fog", Some(Heard::Understood)),
            ("help", None),
            ("quit now", None),
            ("show", None),
        ] {
            assert_eq!(word(line.as_bytes()), heard, "{line}");
        }
    }
}
