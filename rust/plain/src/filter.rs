//! A program that reads all its input, and then prints.

use std::io::{self, Read, Write};
use std::process::ExitCode;

/// The exit status where input or output was lost.
const LOST: u8 = 2;

/// Reads standard input, at most one byte more than `longest`, and prints what `answer` gives for it. Input or output
/// that is lost is said on standard error; of lost input nothing is printed.
pub fn run(name: &str, longest: usize, answer: fn(&[u8]) -> String) -> ExitCode {
    let mut input = Vec::new();
    let mut lent = io::stdin().lock().take(longest as u64 + 1);
    if lent.read_to_end(&mut input).is_err() {
        return lost(name, "input");
    }
    let text = answer(&input);
    let mut out = io::stdout().lock();
    let written = out.write_all(text.as_bytes()).and_then(|()| out.flush());
    if written.is_err() {
        return lost(name, "output");
    }
    ExitCode::SUCCESS
}

/// If standard error is lost too, nobody is left to tell.
fn lost(name: &str, what: &str) -> ExitCode {
    let _ = writeln!(io::stderr(), "{name}: {what} lost");
    ExitCode::from(LOST)
}
