//! Document 02, L12: reads acquisition trials from standard input and prints the acceptance report.

use plain::{filter, report};
use std::process::ExitCode;

fn main() -> ExitCode {
    filter::run("report", report::LONGEST, report::report)
}
