//! Playing histories in child processes, so that a crash is told of like a difference.

use super::apart::apart;
use super::fence::shared_number;
use console::both::Stand;
use console::build::Build;
use console::desk::Desk;
use console::histories::Writer;
use console::Both;
use plain::Plain;
use std::io;
use std::sync::atomic::{AtomicUsize, Ordering::Relaxed};

/// A difference, or a crash.
#[derive(Debug)]
pub struct Found {
    /// The lines before the one that shows it.
    pub line: usize,
    pub what: String,
    /// Whether the process ended by it.
    pub crashed: bool,
}

/// How much was played.
pub struct Played {
    pub calls: usize,
    pub lines: usize,
}

/// Plays histories through the two builds that `both` makes.
pub struct Player<F> {
    both: F,
    /// The lines that the child has played without a difference. The child counts, and what it counted stays.
    at: &'static AtomicUsize,
}

impl<B: Build, S: Stand, F: Fn() -> Both<Plain, B, S>> Player<F> {
    pub fn new(both: F) -> io::Result<Self> {
        let at = shared_number()?;
        Ok(Player { both, at })
    }

    /// Plays a random history.
    pub fn random(&self, seed: u64, calls: usize) -> io::Result<Result<Played, Found>> {
        self.in_child(|| {
            let mut difference = None;
            let mut writer = Writer::new(
                seed,
                (self.both)(),
                Plain,
                |both: &mut Both<_, _, _>, _: &[u8], _: &[u8]| {
                    difference = both.difference.take();
                    self.at
                        .fetch_add(usize::from(difference.is_none()), Relaxed);
                    difference.is_none()
                },
            );
            writer.history(calls);
            let calls = writer.calls;
            drop(writer);
            difference.map_or(Ok(calls), Err)
        })
    }

    /// Plays these lines.
    pub fn lines(&self, lines: &[&[u8]]) -> io::Result<Option<Found>> {
        let played = self.in_child(|| {
            let (mut desk, mut both) = (Desk::new(), (self.both)());
            for line in lines {
                desk.play(&mut both, line);
                if let Some(what) = both.difference.take() {
                    return Err(what);
                }
                self.at.fetch_add(1, Relaxed);
            }
            Ok(0)
        })?;
        Ok(played.err())
    }

    /// A task in a child, which counts lines and gives its calls or a difference.
    fn in_child(
        &self,
        task: impl FnOnce() -> Result<usize, String>,
    ) -> io::Result<Result<Played, Found>> {
        self.at.store(0, Relaxed);
        let said = apart(|| match task() {
            Ok(calls) => calls.to_string(),
            Err(what) => format!("different {what}"),
        })?;
        let line = self.at.load(Relaxed);
        let (what, crashed) = match said {
            Err(status) => (format!("the process ended, {status}"), true),
            Ok(said) => match said.strip_prefix("different ") {
                Some(what) => (what.to_string(), false),
                None => {
                    let calls = said.parse().map_err(io::Error::other)?;
                    return Ok(Ok(Played { calls, lines: line }));
                }
            },
        };
        Ok(Err(Found {
            line,
            what,
            crashed,
        }))
    }
}
