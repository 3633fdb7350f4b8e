//! The program from its input to its output: what it prints, what it says on standard error, how it ends. The plain build
//! stands for all, since the program around it is the same; tests/bench.sh and tests/talk.sh have the proved one.

use std::fs::File;
use std::io::{BufRead, BufReader, Read, Write};
use std::process::{Child, Command, Output, Stdio};

const THIS_FILE: &str = concat!(env!("CARGO_MANIFEST_DIR"), "/tests/talk.rs");

/// The program with these words behind `--plain`.
fn start(words: &[&str], input: Stdio, output: Stdio) -> Child {
    Command::new(env!("CARGO_BIN_EXE_bench"))
        .arg("--plain")
        .args(words)
        .stdin(input)
        .stdout(output)
        .stderr(Stdio::piped())
        .spawn()
        .expect("bench runs")
}

/// What it printed, what it said and how it ended.
fn ended(child: Child) -> (String, String, i32) {
    let output = child.wait_with_output().expect("bench ends");
    let Output {
        status,
        stdout,
        stderr,
    } = output;
    (
        String::from_utf8_lossy(&stdout).into_owned(),
        said(&stderr),
        status.code().expect("no signal"),
    )
}

/// Standard error, without the line that tells which build it is.
fn said(errors: &[u8]) -> String {
    let text = String::from_utf8_lossy(errors);
    text.lines()
        .filter(|line| !line.contains("plain build"))
        .map(|line| format!("{line}\n"))
        .collect()
}

/// The program fed with this text.
fn fed(words: &[&str], input: &str) -> (String, String, i32) {
    let mut child = start(words, Stdio::piped(), Stdio::piped());
    let mut pipe = child.stdin.take().expect("a pipe");
    // with a file by name it reads nothing of this, and may have ended before it comes
    if let Err(error) = pipe.write_all(input.as_bytes()) {
        assert_eq!(error.kind(), std::io::ErrorKind::BrokenPipe);
    }
    drop(pipe);
    ended(child)
}

fn wanted(printed: &str, said: &str, status: i32) -> (String, String, i32) {
    (printed.to_string(), said.to_string(), status)
}

#[test]
fn a_talk() {
    let mut child = start(&[], Stdio::piped(), Stdio::piped());
    let mut input = child.stdin.take().expect("a pipe");
    let mut output = BufReader::new(child.stdout.take().expect("a pipe"));
    for (line, answer) in [
        ("map\n", "no arena\n"),
        ("foo\n", "line 2: not understood\n"),
        ("show\n", "head 0 0 0 0\n"),
        ("bar\n", "line 4: not understood\n"),
    ] {
        input.write_all(line.as_bytes()).expect("it listens");
        let mut said = String::new();
        output.read_line(&mut said).expect("it answers");
        assert_eq!(said, answer);
    }
    drop(input);
    let (_, errors, status) = ended(child);
    assert_eq!(
        (errors.as_str(), status),
        ("bench: 2 lines not understood\n", 1)
    );
}

#[test]
fn the_status() {
    assert_eq!(fed(&[], ""), wanted("", "", 0));
    assert_eq!(fed(&[], "show\n"), wanted("head 0 0 0 0\n", "", 0));
    let not_understood = "line 1: not understood\nno arena\n";
    let count = "bench: 1 lines not understood\n";
    assert_eq!(fed(&[], "shw\nmap"), wanted(not_understood, count, 1));
}

#[test]
fn a_file_by_name() {
    let (printed, errors, status) = fed(&[THIS_FILE], "show\n");
    // each line of it that is not empty, and nothing of the input
    let file = std::fs::read_to_string(THIS_FILE).expect("this file");
    let played = file
        .lines()
        .filter(|line| !line.is_empty() && !line.starts_with('#'))
        .count();
    assert_eq!(printed.lines().count(), played);
    assert_eq!(printed.lines().next(), Some("line 1: not understood"));
    assert_eq!(errors, format!("bench: {played} lines not understood\n"));
    assert_eq!(status, 1);
}

#[test]
fn no_such_file() {
    for name in ["no/such/file", env!("CARGO_MANIFEST_DIR")] {
        let (printed, errors, status) = fed(&[name], "");
        assert_eq!((printed.as_str(), status), ("", 2), "{name}");
        assert!(errors.starts_with("bench: "), "{errors}");
    }
}

#[test]
fn words_that_are_none() {
    for words in [
        &["--nothing"][..],
        &["histories", "x", "1"],
        &["dump", "x"],
        &["one", "two"],
    ] {
        let (printed, errors, status) = ended(start(words, Stdio::null(), Stdio::piped()));
        assert_eq!((printed.as_str(), status), ("", 2), "{words:?}");
        assert!(errors.starts_with("bench: "), "{errors}");
    }
}

#[test]
fn a_directory_as_input() {
    let directory = File::open(env!("CARGO_MANIFEST_DIR")).expect("a directory");
    let lost = wanted("", "bench: input lost\n", 2);
    assert_eq!(ended(start(&[], directory.into(), Stdio::piped())), lost);
}

#[test]
fn a_full_disk() {
    let full = || File::options().write(true).open("/dev/full");
    let lost = wanted("", "bench: output lost\n", 2);
    for words in [&[][..], &[THIS_FILE], &["histories", "1", "10"], &["dump"]] {
        let source = File::open(THIS_FILE).expect("this file");
        let output = full().expect("a full disk");
        let child = start(words, source.into(), output.into());
        assert_eq!(ended(child), lost, "{words:?}");
    }
}

/// It stops when nobody reads any more, however much input there is.
#[test]
fn a_pipe_that_nobody_reads() {
    let mut child = start(&[], Stdio::piped(), Stdio::piped());
    let mut input = child.stdin.take().expect("a pipe");
    let mut output = child.stdout.take().expect("a pipe");
    input.write_all(b"show\n").expect("it listens");
    output.read_exact(&mut [0; 4]).expect("it answers");
    drop(output);
    while input.write_all(b"show\n").is_ok() {}
    let (_, errors, status) = ended(child);
    assert_eq!((errors.as_str(), status), ("bench: output lost\n", 2));
}

#[test]
fn histories_by_seed() {
    let history = |seed| {
        ended(start(
            &["histories", seed, "200"],
            Stdio::null(),
            Stdio::piped(),
        ))
    };
    let (first, errors, status) = history("5");
    assert_eq!((errors.as_str(), status), ("", 0));
    assert_eq!(history("5").0, first);
    assert_ne!(history("6").0, first);
    // it can be played: most of its lines are understood
    let (_, errors, _) = fed(&[], &first);
    let not_understood = errors
        .strip_prefix("bench: ")
        .and_then(|rest| rest.split(' ').next()?.parse().ok())
        .unwrap_or(0);
    assert!(10 * not_understood < first.lines().count(), "{errors}");
}
