//! The program `report`, from its input to its output.

use std::fs::File;
use std::io::Write;
use std::os::fd::OwnedFd;
use std::os::unix::net::UnixStream;
use std::process::{Child, Command, Stdio};

/// What the program printed, what it said on standard error, and its exit status.
type Ended = (String, String, Option<i32>);

fn start_to(input: Stdio, output: Stdio) -> Child {
    Command::new(env!("CARGO_BIN_EXE_report"))
        .stdin(input)
        .stdout(output)
        .stderr(Stdio::piped())
        .spawn()
        .expect("report runs")
}

fn start(input: Stdio) -> Child {
    start_to(input, Stdio::piped())
}

fn ended(child: Child) -> Ended {
    let output = child.wait_with_output().expect("report ends");
    (
        String::from_utf8_lossy(&output.stdout).into_owned(),
        String::from_utf8_lossy(&output.stderr).into_owned(),
        output.status.code(),
    )
}

fn lost(what: &str) -> Ended {
    (String::new(), format!("report: {what} lost\n"), Some(2))
}

fn printed(input: &[u8]) -> String {
    let mut child = start(Stdio::piped());
    let mut pipe = child.stdin.take().expect("a pipe");
    // of a long input it may leave the rest unread
    let _ = pipe.write_all(input);
    drop(pipe);
    let (output, errors, status) = ended(child);
    assert_eq!((errors.as_str(), status), ("", Some(0)));
    output
}

#[test]
fn document_02_s_examples() {
    let one = "trials 1\ngrants 1\nattempts 1 of 1 trials\ngreatest 1\n";
    assert_eq!(printed(b"1 0\n"), one);
    let none = "trials 0\ngrants 0\nattempts 0 of 0 trials\ngreatest 0\n";
    assert_eq!(printed(b""), none);
    assert_eq!(printed(b"1 0\n1 00\n"), "bad line 2\n");
}

#[test]
fn no_longest_input() {
    assert_eq!(printed(&b"1 0\n".repeat(1_000_000)), "bad line 1001\n");
    assert_eq!(printed(&vec![b'1'; 4_000_000]), "bad line 1\n");
    let endless = File::open("/dev/zero").expect("endless input");
    let child = start(endless.into());
    assert_eq!(
        ended(child),
        ("bad line 1\n".to_string(), String::new(), Some(0))
    );
}

#[test]
fn a_directory_as_input() {
    let directory = File::open(env!("CARGO_MANIFEST_DIR")).expect("a directory");
    assert_eq!(ended(start(directory.into())), lost("input"));
}

/// A program on an input that gives these bytes and then fails.
fn on_broken(program: &str, input: &[u8]) -> Ended {
    let mut child = Command::new(env!("CARGO_BIN_EXE_broken"))
        .arg(program)
        .stdin(Stdio::piped())
        .stdout(Stdio::piped())
        .stderr(Stdio::piped())
        .spawn()
        .expect("broken runs");
    let mut pipe = child.stdin.take().expect("a pipe");
    pipe.write_all(input).expect("all is read");
    drop(pipe);
    ended(child)
}

#[test]
fn input_that_breaks_in_the_middle() {
    for input in ["", "1 0\n", "1 0\n5 0\n4096 1", "x\n"] {
        assert_eq!(
            on_broken(env!("CARGO_BIN_EXE_report"), input.as_bytes()),
            lost("input"),
            "{input:?}"
        );
        // all of the bytes come, and behind them a failure
        let (given, _, status) = on_broken("cat", input.as_bytes());
        assert_eq!((given.as_str(), status), (input, Some(1)));
    }
}

#[test]
fn a_full_device_as_output() {
    let full = File::options().write(true).open("/dev/full");
    let child = start_to(Stdio::null(), full.expect("a full device").into());
    assert_eq!(ended(child), lost("output"));
}

#[test]
fn an_output_that_nobody_reads() {
    let (near, far) = UnixStream::pair().expect("a pair");
    drop(far);
    let child = start_to(Stdio::null(), OwnedFd::from(near).into());
    assert_eq!(ended(child), lost("output"));
}
