//! A play told to people: the remarks as the story, each line as it was typed, and a sentence for each answer.

mod answers;
mod books;
mod commands;
mod counts;
mod crews;
mod lists;
mod refusals;
mod salvages;
mod steps;
pub mod text;

use crate::build::{Build, Head};
use crate::desk::Desk;
use crate::help::{entry_of, Entry, Given};
use crate::hint::{fault, without_controls};
use crate::line::{words, Line};
use crate::show::Look;
use std::io::{self, Write};

/// The longest line that is shown whole.
const SHOWN: usize = 240;

/// What was printed last.
#[derive(Clone, Copy, PartialEq, Eq)]
enum Last {
    Nothing,
    Story,
    Line,
}

/// Tells what is played.
pub struct Teller {
    desk: Desk,
    last: Last,
}

/// A call that was made: its word and numbers, the RAM as it left it, and the place before it.
pub struct Made<'a> {
    pub entry: &'static Entry,
    pub numbers: &'a [u32],
    pub desk: &'a Desk,
    pub place: usize,
}

impl Made<'_> {
    pub fn is_given(&self, what: Given) -> bool {
        self.entry.given.contains(&what)
    }

    /// The head that the call was given; a refused preparation leaves another in force.
    pub fn head(&self) -> Head {
        match (self.entry.word, self.numbers) {
            ("prepare", &[headers, buckets, next, boot]) => Head {
                headers,
                buckets,
                next,
                boot,
            },
            _ => self.desk.head,
        }
    }

    /// The cell of a key, if the registry leads to a header and the bucket is one of its.
    pub fn cell_of(&self, binding: u32, bucket: u32) -> Option<u32> {
        let header = *self.desk.registry.get(binding as usize)?;
        let head = self.head();
        let is_there = header < head.headers && bucket < head.buckets;
        is_there.then(|| header * head.buckets + bucket)
    }

    /// The lease that was typed: cell, serial, boot number.
    pub fn lease(&self) -> &[u32] {
        match self.numbers {
            [_, lease @ .., _, _] if self.entry.word == "write_setpoint" => lease,
            numbers => numbers,
        }
    }
}

impl Default for Teller {
    fn default() -> Self {
        Teller::new()
    }
}

impl Teller {
    pub fn new() -> Self {
        Teller {
            desk: Desk::new(),
            last: Last::Nothing,
        }
    }

    /// Plays the line of this number, and tells it.
    pub fn line(
        &mut self,
        build: &mut impl Build,
        number: u64,
        line: &[u8],
        out: &mut impl Write,
    ) -> io::Result<Line> {
        let why = fault(&self.desk, line);
        let place = self.desk.place;
        let played = self.desk.play(build, line);
        match &played {
            Line::Skipped => self.story(line, out)?,
            // lines are shown here in any case
            Line::Command if line.starts_with(b"echo ") => {}
            _ => {
                self.part(Last::Line, out)?;
                writeln!(out, "  > {}", shown(line))?;
                self.answer(number, line, &played, place, why, out)?;
            }
        }
        Ok(played)
    }

    /// A remark is the story; an empty line stays one.
    fn story(&mut self, line: &[u8], out: &mut impl Write) -> io::Result<()> {
        let Some(text) = line.strip_prefix(b"#") else {
            return self.part(Last::Nothing, out);
        };
        self.part(Last::Story, out)?;
        let text = String::from_utf8_lossy(text.strip_prefix(b" ").unwrap_or(text));
        let readable: String = text.chars().flat_map(without_controls).collect();
        writeln!(out, "{readable}")
    }

    /// An empty line between the story and what is typed.
    fn part(&mut self, next: Last, out: &mut impl Write) -> io::Result<()> {
        if self.last != Last::Nothing && self.last != next {
            writeln!(out)?;
        }
        self.last = next;
        Ok(())
    }

    fn answer(
        &self,
        number: u64,
        line: &[u8],
        played: &Line,
        place: usize,
        why: Option<String>,
        out: &mut impl Write,
    ) -> io::Result<()> {
        let (word, numbers) = words(line).unwrap_or_default();
        let sentences = match (played, entry_of(word)) {
            (Line::Look(look), _) => return self.look(*look, out),
            (Line::Command, Some(entry)) => commands::sentence(entry, &numbers, &self.desk)
                .into_iter()
                .collect(),
            (Line::Call(answered), Some(entry)) => {
                let made = Made {
                    entry,
                    numbers: &numbers,
                    desk: &self.desk,
                    place,
                };
                answers::sentences(&made, answered)
            }
            _ => vec![format!(
                "Line {number} is not understood: {}.",
                why.unwrap_or_default()
            )],
        };
        for line in sentences.iter().flat_map(|told| text::wrapped(told)) {
            writeln!(out, "    {line}")?;
        }
        Ok(())
    }

    /// What a look prints, indented.
    fn look(&self, look: Look, out: &mut impl Write) -> io::Result<()> {
        let mut text = Vec::new();
        self.desk.show(look, &mut text)?;
        for line in text.split_inclusive(|&byte| byte == b'\n') {
            out.write_all(b"    ")?;
            out.write_all(line)?;
        }
        Ok(())
    }
}

/// A line as it was typed; a long one is cut behind a word, and its words are counted.
fn shown(line: &[u8]) -> String {
    let mut cut = &line[..line.len().min(SHOWN)];
    if cut.len() < line.len() {
        let space = cut.iter().rposition(|&byte| byte == b' ');
        cut = &cut[..space.unwrap_or(cut.len())];
    }
    let text = String::from_utf8_lossy(cut);
    let mut shown: String = text.chars().flat_map(without_controls).collect();
    if cut.len() < line.len() {
        let words = line.split(|&byte| byte == b' ').count();
        shown.push_str(&format!(" .. ({})", text::counted(words, "word")));
    }
    shown
}
