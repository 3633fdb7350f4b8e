//! Random histories through both builds, in one process; every word of the reply and of every lent run is compared after
//! each call. The first history that shows a difference is printed, cut to the shortest that still does.
#![deny(unsafe_code)]

mod apart;
mod fence;
#[cfg(feature = "proved")]
mod library;
mod player;
mod shorten;
#[cfg(test)]
mod tests;

use console::both::Stand;
use console::build::Build;
use console::histories::Writer;
use console::Both;
use plain::Plain;
use player::{Found, Played, Player};
use shorten::shorten;
use std::io::{self, Write};
use std::time::Instant;

/// Calls of one history; then comes the next seed.
const EACH: usize = 10_000;

/// What `compare` is asked for.
#[derive(Clone, Copy, Debug, PartialEq, Eq)]
pub struct Asked {
    pub calls: usize,
    pub seed: u64,
    pub fenced: bool,
}

impl Asked {
    /// `[--calls N] [--seed S] [--fenced]`, in any order.
    pub fn of(words: &[&str]) -> Option<Asked> {
        let mut asked = Asked {
            calls: 100_000,
            seed: 20_261_115,
            fenced: false,
        };
        let mut words = words.iter();
        while let Some(&word) = words.next() {
            match word {
                "--calls" => asked.calls = words.next()?.parse().ok()?,
                "--seed" => asked.seed = words.next()?.parse().ok()?,
                "--fenced" => asked.fenced = true,
                _ => return None,
            }
        }
        Some(asked)
    }
}

/// The plain build and the library, every run that is lent to the library at fences, and its reply too.
#[cfg(feature = "proved")]
pub fn fenced() -> Both<Plain, library::Library, fence::Fences> {
    Both::on(fence::Fences::default(), Plain, library::Library::default())
}

/// `compare`, of the plain build and the library.
#[cfg(feature = "proved")]
pub fn run(words: &[&str]) -> u8 {
    use crate::proved::Proved;
    let Some(asked) = Asked::of(words) else {
        return crate::misused("compare takes --calls N, --seed S and --fenced");
    };
    let out = &mut io::stdout().lock();
    let different = if asked.fenced {
        compare(asked, fenced, out)
    } else {
        compare(asked, || Both::new(Plain, Proved), out)
    };
    match different {
        Ok(false) => 0,
        Ok(true) => crate::DIFFERENT,
        Err(error) => {
            crate::say(&format!("compare: {error}"));
            crate::LOST
        }
    }
}

/// Plays as many histories as were asked for, and prints what came of it. True: the builds differ.
fn compare<B: Build, S: Stand>(
    asked: Asked,
    both: impl Fn() -> Both<Plain, B, S>,
    out: &mut impl Write,
) -> io::Result<bool> {
    let began = Instant::now();
    let player = Player::new(both)?;
    let mut all = Played { calls: 0, lines: 0 };
    let mut seed = asked.seed;
    while all.calls < asked.calls {
        let calls = EACH.min(asked.calls - all.calls);
        let played = match player.random(seed, calls)? {
            Ok(played) => played,
            Err(found) => {
                let fenced = asked.fenced;
                let asked = Asked {
                    calls,
                    seed,
                    fenced,
                };
                print_found(asked, &found, &player, out)?;
                return Ok(true);
            }
        };
        all.calls += played.calls;
        all.lines += played.lines;
        seed = seed.wrapping_add(1);
    }
    let Played { calls, lines } = all;
    let seconds = began.elapsed().as_secs_f64();
    let rate = calls as f64 / seconds;
    writeln!(
        out,
        "compare: {calls} calls, {lines} lines, equal; {seconds:.1} s, {rate:.0} calls a second"
    )?;
    out.flush()?;
    Ok(false)
}

/// Cuts the history that shows a difference, and prints it as a file that can be played. What was asked for is this one
/// history.
fn print_found<B: Build, S: Stand>(
    asked: Asked,
    found: &Found,
    player: &Player<impl Fn() -> Both<Plain, B, S>>,
    out: &mut impl Write,
) -> io::Result<()> {
    let Asked {
        calls,
        seed,
        fenced,
    } = asked;
    let fenced = if fenced { " --fenced" } else { "" };
    let (number, what) = (found.line + 1, &found.what);
    writeln!(
        out,
        "# bench compare --calls {calls} --seed {seed}{fenced}: DIFFERENT in line {number}, {what}"
    )?;
    // whatever comes now, seed and line are out
    out.flush()?;
    let cut = cut(&lines_of(seed, calls, found.line), found, player);
    let all: Vec<&[u8]> = cut.iter().map(Vec::as_slice).collect();
    match player.lines(&all)? {
        Some(Found { what, .. }) => writeln!(out, "# cut to the shortest that differs: {what}")?,
        None => writeln!(out, "# it does not differ when it is played again")?,
    }
    for line in all {
        out.write_all(line)?;
        out.write_all(b"\n")?;
    }
    out.flush()
}

/// The lines of a random history, as the plain build alone plays it: up to this one, and it.
fn lines_of(seed: u64, calls: usize, last: usize) -> Vec<Vec<u8>> {
    let mut lines = Vec::new();
    let keep = |_: &mut Plain, line: &[u8], _: &[u8]| {
        lines.push(line.to_vec());
        lines.len() <= last
    };
    Writer::new(seed, Plain, Plain, keep).history(calls);
    lines
}

/// The shortest history that was found in which a line with the same first word shows a difference, or a crash if it was
/// one. It ends with that line.
fn cut<B: Build, S: Stand>(
    lines: &[Vec<u8>],
    found: &Found,
    player: &Player<impl Fn() -> Both<Plain, B, S>>,
) -> Vec<Vec<u8>> {
    let call = lines.last().map(|line| word(line));
    shorten(lines, |lines| {
        let again = player.lines(lines).ok()??;
        let same = again.crashed == found.crashed && Some(word(lines[again.line])) == call;
        same.then_some(again.line + 1)
    })
}

/// The first word of a line.
fn word(line: &[u8]) -> &[u8] {
    line.split(|&byte| byte == b' ').next().unwrap_or_default()
}
