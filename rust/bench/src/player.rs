//! Plays a file, a pipe, or what a person types, in the language or told in sentences.

use crate::{say, terminal, LOST, NOT_UNDERSTOOD};
use console::build::Build;
use console::desk::Desk;
use console::explain::Teller;
use console::play::{self, each_line, End, Heard, Lost};
use std::io::{self, BufRead, BufWriter};

/// How lines are answered.
#[derive(Clone, Copy, Debug, PartialEq, Eq)]
pub enum Manner {
    /// In the language.
    Played,
    /// In sentences.
    Told,
}

/// Plays to the end of the input, and says on standard error what was lost or not understood.
pub fn run(
    build: &mut impl Build,
    manner: Manner,
    at_terminal: bool,
    input: &mut impl BufRead,
) -> u8 {
    let mut out = BufWriter::with_capacity(1 << 16, io::stdout().lock());
    let end = match (manner, at_terminal) {
        (Manner::Played, false) => play::play(build, input, &mut out),
        (Manner::Played, true) => {
            let mut desk = Desk::new();
            each_line(input, &mut out, |number, line, out| {
                terminal::played(&mut desk, build, number, line, out)
            })
        }
        (Manner::Told, _) => {
            let mut teller = Teller::new();
            each_line(input, &mut out, |number, line, out| {
                if let Some(heard) = terminal::word(line).filter(|_| at_terminal) {
                    return Ok(heard);
                }
                let played = teller.line(build, number, line, out)?;
                Ok(Heard::of(&played))
            })
        }
    };
    // what was not written shall not be tried again
    let _ = out.into_parts();
    status(end)
}

fn status(end: End) -> u8 {
    let End {
        lost,
        not_understood,
    } = end;
    match lost {
        Some(Lost::Output) => {
            say("output lost");
            return LOST;
        }
        Some(Lost::Input) => say("input lost"),
        None => {}
    }
    if not_understood > 0 {
        say(&format!("{not_understood} lines not understood"));
    }
    match (lost, not_understood) {
        (Some(_), _) => LOST,
        (None, 0) => 0,
        _ => NOT_UNDERSTOOD,
    }
}
