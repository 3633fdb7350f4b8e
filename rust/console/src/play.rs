//! Playing lines: each is answered as soon as its line feed has come, and what is played is written before more input
//! is waited for.

use crate::build::Build;
use crate::desk::Desk;
use crate::line::{is_skipped, Line, LINE};
use std::io::{self, BufRead, ErrorKind, Write};

/// How a play ended.
#[derive(Clone, Copy, Debug, PartialEq, Eq)]
pub struct End {
    pub lost: Option<Lost>,
    /// How many lines were not understood.
    pub not_understood: u64,
}

/// What a play could not go on without.
#[derive(Clone, Copy, Debug, PartialEq, Eq)]
pub enum Lost {
    /// A read failed.
    Input,
    /// A write failed.
    Output,
}

/// What became of a line.
#[derive(Clone, Copy, Debug, PartialEq, Eq)]
pub enum Heard {
    Understood,
    NotUnderstood,
    /// It asks to leave.
    Leave,
}

impl Heard {
    pub fn of(line: &Line) -> Heard {
        match line {
            Line::NotUnderstood => Heard::NotUnderstood,
            _ => Heard::Understood,
        }
    }
}

/// Plays to the end of the input, in the language.
pub fn play(build: &mut impl Build, input: &mut impl BufRead, out: &mut impl Write) -> End {
    let mut desk = Desk::new();
    each_line(input, out, |number, line, out| {
        let played = answer(&mut desk, build, number, line, out)?;
        Ok(Heard::of(&played))
    })
}

/// Plays the line of this number and prints what the language says.
pub fn answer(
    desk: &mut Desk,
    build: &mut impl Build,
    number: u64,
    line: &[u8],
    out: &mut impl Write,
) -> io::Result<Line> {
    // what counts is the echo before the line; a line over the limit is not echoed
    if desk.echo && line.len() <= LINE && !is_skipped(line) {
        out.write_all(b"> ")?;
        out.write_all(line)?;
        out.write_all(b"\n")?;
    }
    let played = desk.line(build, line, out)?;
    if played == Line::NotUnderstood {
        writeln!(out, "line {number}: not understood")?;
    }
    Ok(played)
}

/// Hands over each line with its number, from 1, up to the end of the input or the wish to leave. The last line may
/// lack its line feed, unless the input was lost: then the unfinished line is not handed over.
pub fn each_line<W: Write>(
    input: &mut impl BufRead,
    out: &mut W,
    each: impl FnMut(u64, &[u8], &mut W) -> io::Result<Heard>,
) -> End {
    let mut reader = Reader {
        each,
        line: Vec::new(),
        number: 0,
        not_understood: 0,
        left: false,
    };
    End {
        lost: reader.lines(input, out).err(),
        not_understood: reader.not_understood,
    }
}

struct Reader<F> {
    each: F,
    /// What there is of the line that has not ended. Of a line over the limit the first bytes only, one more than the
    /// limit.
    line: Vec<u8>,
    /// How many lines have been handed over.
    number: u64,
    not_understood: u64,
    /// A line asked to leave.
    left: bool,
}

impl<F> Reader<F> {
    /// Reads and hands over to the end of the input.
    fn lines<W: Write>(&mut self, input: &mut impl BufRead, out: &mut W) -> Result<(), Lost>
    where
        F: FnMut(u64, &[u8], &mut W) -> io::Result<Heard>,
    {
        while !self.left {
            // everything played is written before more input is waited for
            out.flush().map_err(|_| Lost::Output)?;
            let bytes = match input.fill_buf() {
                Ok(bytes) => bytes,
                Err(error) if error.kind() == ErrorKind::Interrupted => continue,
                Err(_) => return Err(Lost::Input),
            };
            if bytes.is_empty() {
                break;
            }
            let length = bytes.len();
            self.pieces(bytes, out).map_err(|_| Lost::Output)?;
            input.consume(length);
        }
        if !self.line.is_empty() && !self.left {
            self.end_of_line(out).map_err(|_| Lost::Output)?;
        }
        out.flush().map_err(|_| Lost::Output)
    }

    /// Keeps what has come, and hands over every line that ends in it.
    fn pieces<W: Write>(&mut self, bytes: &[u8], out: &mut W) -> io::Result<()>
    where
        F: FnMut(u64, &[u8], &mut W) -> io::Result<Heard>,
    {
        for piece in bytes.split_inclusive(|&byte| byte == b'\n') {
            match piece.strip_suffix(b"\n") {
                Some(rest) => {
                    self.keep(rest);
                    self.end_of_line(out)?;
                }
                None => self.keep(piece),
            }
            if self.left {
                break;
            }
        }
        Ok(())
    }

    /// More of the line.
    fn keep(&mut self, bytes: &[u8]) {
        let room = LINE + 1 - self.line.len();
        self.line.extend_from_slice(&bytes[..bytes.len().min(room)]);
    }

    /// Hands over the line that has come to its end.
    fn end_of_line<W: Write>(&mut self, out: &mut W) -> io::Result<()>
    where
        F: FnMut(u64, &[u8], &mut W) -> io::Result<Heard>,
    {
        self.number += 1;
        match (self.each)(self.number, &self.line, out)? {
            Heard::Understood => {}
            Heard::NotUnderstood => self.not_understood += 1,
            Heard::Leave => self.left = true,
        }
        // the room is kept for the next line
        self.line.clear();
        Ok(())
    }
}
