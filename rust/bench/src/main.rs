//! The bench console on the shipped library. docs/CONSOLE.md has the language.

#[cfg(any(feature = "proved", test))]
mod compare;
mod filter;
mod player;
#[cfg(feature = "proved")]
mod proved;
mod terminal;

#[cfg(feature = "proved")]
use console::both::{Both, Stand};
use console::build::Build;
use console::{help, histories, line, waveform};
use plain::Plain;
use player::Manner;
use std::ffi::{OsStr, OsString};
use std::fs::File;
use std::io::{self, BufReader, BufWriter, IsTerminal, Write};
use std::process::ExitCode;

const USAGE: &str = "\
usage: bench [--plain | --both [--fenced]] [--explain] [FILE]
       bench compare [--calls N] [--seed S] [--fenced]
       bench histories SEED CALLS
       bench [--plain | --both] dump [N [ROOM]] | undump
       bench words

Plays the lines of FILE, or what you type, and prints what they answer; `help` lists the commands and calls, and the end
of input (Ctrl-D) leaves. With --explain it tells the remarks of FILE as a story, and each answer in a sentence. The
calls are those of the proved library; with --plain those of the plain build, with --both of both, which must agree.
--fenced: every run that is lent to the library ends, and begins, at a page that nobody may touch.
`compare` plays random histories through both. `histories` prints one. `dump` writes a history as a waveform, of N cells
if N is given and else of as many as its first line says; `undump` reads one back. `skid_words` prints the words of the
language, one a line.

status: 0 all is well; 1 some lines were not understood; 2 something was lost or is missing; 3 the two builds differ
";

/// What went wrong, as an exit status.
const NOT_UNDERSTOOD: u8 = 1;
#[cfg(feature = "proved")]
const DIFFERENT: u8 = 3;
const LOST: u8 = 2;

/// Which build makes the calls.
#[derive(Clone, Copy, Debug, PartialEq, Eq)]
enum Made {
    ByLibrary,
    Plainly,
    ByBoth,
    ByBothFenced,
}

fn main() -> ExitCode {
    let words: Vec<OsString> = std::env::args_os().skip(1).collect();
    let (mut made, mut manner, mut rest) = (Made::ByLibrary, Manner::Played, words.as_slice());
    while let [first, more @ ..] = rest {
        match first.to_str() {
            Some("--plain") => made = Made::Plainly,
            Some("--both") => made = Made::ByBoth,
            Some("--fenced") if made == Made::ByBoth => made = Made::ByBothFenced,
            Some("--explain") => manner = Manner::Told,
            _ => break,
        }
        rest = more;
    }
    let status = match made {
        Made::ByLibrary => with_library(rest, manner),
        Made::Plainly => run(rest, manner, made, &mut Plain),
        Made::ByBoth | Made::ByBothFenced => with_both(rest, manner, made),
    };
    ExitCode::from(status)
}

#[cfg(feature = "proved")]
fn with_library(words: &[OsString], manner: Manner) -> u8 {
    run(words, manner, Made::ByLibrary, &mut proved::Proved)
}

#[cfg(feature = "proved")]
fn with_both(words: &[OsString], manner: Manner, made: Made) -> u8 {
    if made == Made::ByBothFenced {
        run_both(words, manner, made, compare::fenced())
    } else {
        run_both(words, manner, made, Both::new(Plain, proved::Proved))
    }
}

#[cfg(feature = "proved")]
fn run_both<B: Build, S: Stand>(
    words: &[OsString],
    manner: Manner,
    made: Made,
    mut both: Both<Plain, B, S>,
) -> u8 {
    let status = run(words, manner, made, &mut both);
    match both.difference {
        Some(what) => {
            say(&format!("DIFFERENT: {what}"));
            status.max(DIFFERENT)
        }
        None => status,
    }
}

#[cfg(not(feature = "proved"))]
fn with_library(words: &[OsString], manner: Manner) -> u8 {
    match words.first().and_then(|word| word.to_str()) {
        Some("histories" | "words" | "-h" | "--help") => {
            run(words, manner, Made::Plainly, &mut Plain)
        }
        _ => misused("this program was built without the library and takes --plain alone"),
    }
}

#[cfg(not(feature = "proved"))]
fn with_both(words: &[OsString], manner: Manner, _: Made) -> u8 {
    with_library(words, manner)
}

fn run(words: &[OsString], manner: Manner, made: Made, build: &mut impl Build) -> u8 {
    let texts: Vec<&str> = words.iter().map(|w| w.to_str().unwrap_or("")).collect();
    match *texts.as_slice() {
        ["-h" | "--help"] => print(USAGE),
        ["words"] => print(&help::words()),
        #[cfg(feature = "proved")]
        ["compare", ref rest @ ..] => compare::run(rest),
        #[cfg(not(feature = "proved"))]
        ["compare", ..] => misused("this program was built without the library"),
        ["histories", seed, calls] => match (seed.parse(), calls.parse()) {
            (Ok(seed), Ok(calls)) => print_history(seed, calls),
            _ => misused("a seed and a number of calls"),
        },
        ["dump", ref first @ ..] => dump(build, first),
        ["undump"] => filter::run(|input| waveform::undump(build, input)),
        [option] if option.len() > 1 && option.starts_with('-') => {
            misused(&format!("there is no option {option}"))
        }
        [] | [_] => play(words.first(), manner, made, build),
        _ => misused("one file at most"),
    }
}

/// `dump [N [ROOM]]`.
fn dump(build: &mut impl Build, first: &[&str]) -> u8 {
    let is_number = |word: &&str| line::number(word.as_bytes()).is_some();
    if first.len() > 2 || !first.iter().all(is_number) {
        return misused("dump takes a number of cells, and a room");
    }
    let first = (!first.is_empty()).then(|| first.join(" "));
    filter::run(|input| waveform::dump(build, first.as_deref(), input))
}

/// Plays a file, or standard input.
fn play(file: Option<&OsString>, manner: Manner, made: Made, build: &mut impl Build) -> u8 {
    let input = match file.map(|name| opened(name)).transpose() {
        Ok(input) => input,
        Err(why) => {
            say(&why);
            return LOST;
        }
    };
    if made == Made::Plainly {
        say("this is the plain build, the unproved twin of the library");
    }
    if let Some(file) = input {
        let mut input = BufReader::with_capacity(1 << 16, file);
        return player::run(build, manner, false, &mut input);
    }
    let at_terminal = io::stdin().is_terminal();
    if at_terminal {
        let _ = writeln!(io::stderr(), "{}", terminal::GREETING);
    }
    player::run(build, manner, at_terminal, &mut io::stdin().lock())
}

/// A file to play, or why there is none.
fn opened(name: &OsStr) -> Result<File, String> {
    let said = |why: &dyn std::fmt::Display| format!("{}: {why}", name.to_string_lossy());
    let file = File::open(name).map_err(|error| said(&error))?;
    match file.metadata() {
        Ok(about) if about.is_dir() => Err(said(&"it is a directory")),
        _ => Ok(file),
    }
}

fn misused(what: &str) -> u8 {
    say(&format!("{what}; --help says how to use it"));
    LOST
}

/// Prints a text.
fn print(text: &str) -> u8 {
    let mut out = io::stdout().lock();
    match out.write_all(text.as_bytes()).and_then(|()| out.flush()) {
        Ok(()) => 0,
        Err(_) => {
            say("output lost");
            LOST
        }
    }
}

/// `histories SEED CALLS`: a history as text.
fn print_history(seed: u64, calls: usize) -> u8 {
    let mut out = BufWriter::new(io::stdout().lock());
    match histories::write(seed, calls, Plain, &mut out) {
        Ok(()) => 0,
        Err(_) => {
            let _ = out.into_parts();
            say("output lost");
            LOST
        }
    }
}

/// A message on standard error. If that is lost too, nobody is left to tell.
fn say(message: &str) {
    let _ = writeln!(io::stderr(), "bench: {message}");
}
