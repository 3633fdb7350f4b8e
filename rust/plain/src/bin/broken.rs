//! `broken PROGRAM WORDS..` runs a program whose standard input gives the bytes of this one's, and then fails.
//!
//! A pipe whose writer dies is at its end, which is no failure. A socket whose other side closes with something unread
//! fails behind the last byte.

use std::io::{self, Read, Write};
use std::os::fd::OwnedFd;
use std::os::unix::net::UnixStream;
use std::process::{Command, ExitCode, Stdio};

/// What a socket takes without a reader on every system.
const MOST: usize = 65_536;

fn main() -> io::Result<ExitCode> {
    let words: Vec<_> = std::env::args_os().skip(1).collect();
    let Some((program, words)) = words.split_first() else {
        eprintln!("usage: broken PROGRAM WORDS..");
        return Ok(ExitCode::from(2));
    };
    let mut input = Vec::new();
    io::stdin().lock().read_to_end(&mut input)?;
    assert!(input.len() <= MOST, "at most {MOST} bytes");
    let ended = Command::new(program)
        .args(words)
        .stdin(breaking(&input)?)
        .status()?;
    Ok(ExitCode::from(ended.code().map_or(1, |code| code as u8)))
}

/// A standard input with these bytes, and no end behind them.
fn breaking(input: &[u8]) -> io::Result<Stdio> {
    let (mut near, mut far) = UnixStream::pair()?;
    near.write_all(b"unread")?;
    far.write_all(input)?;
    drop(far);
    Ok(Stdio::from(OwnedFd::from(near)))
}
