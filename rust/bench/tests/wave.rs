//! `dump` and `undump`, from their input to their output, on the plain build; tests/wave.sh has both.

use std::fs::File;
use std::io::Write;
use std::process::{Child, Command, Stdio};

const DUMP: &[&str] = &["--plain", "dump"];
const UNDUMP: &[&str] = &["--plain", "undump"];

fn start(words: &[&str], input: Stdio) -> Child {
    Command::new(env!("CARGO_BIN_EXE_bench"))
        .args(words)
        .stdin(input)
        .stdout(Stdio::piped())
        .stderr(Stdio::piped())
        .spawn()
        .expect("bench runs")
}

/// What it printed, what it said and how it ended.
fn ended(child: Child) -> (String, String, i32) {
    let output = child.wait_with_output().expect("bench ends");
    (
        String::from_utf8_lossy(&output.stdout).into_owned(),
        String::from_utf8_lossy(&output.stderr).into_owned(),
        output.status.code().expect("no signal"),
    )
}

fn printed(words: &[&str], input: &str) -> String {
    let mut child = start(words, Stdio::piped());
    let mut pipe = child.stdin.take().expect("a pipe");
    // it prints when it has read all, or more than it ever asks for
    let _ = pipe.write_all(input.as_bytes());
    drop(pipe);
    let (output, errors, status) = ended(child);
    assert_eq!((errors.as_str(), status), ("", 0));
    output
}

#[test]
fn document_02_s_example() {
    let dump = "$timescale 1 ns $end
$scope module t $end
$var wire 1 ! c0 $end
$var wire 1 \" c1 $end
$upscope $end
$enddefinitions $end
#0
0!
0\"
#1
1!
";
    assert_eq!(printed(DUMP, "2\n1 0 0\n"), dump);
    assert_eq!(printed(&["--plain", "dump", "2"], "1 0 0\n"), dump);
    assert_eq!(printed(UNDUMP, dump), "2\n1 0 0\n");
    assert_eq!(printed(DUMP, ""), "line 1: not understood\n");
    assert_eq!(printed(UNDUMP, ""), "refused BadLine 1\n");
}

#[test]
fn the_longest_input() {
    let long = "x".repeat(2 * 1024 * 1024);
    assert_eq!(printed(DUMP, &long), "line 1: not understood\n");
    assert_eq!(printed(UNDUMP, &long), "refused BadLine 1\n");
    for words in [DUMP, UNDUMP] {
        assert_eq!(printed(words, &(long.clone() + "\n")), "input too long\n");
        let endless = File::open("/dev/zero").expect("endless input");
        let (output, _, status) = ended(start(words, endless.into()));
        assert_eq!((output.as_str(), status), ("input too long\n", 0));
    }
}

#[test]
fn lost_input() {
    for words in [DUMP, UNDUMP] {
        let directory = File::open(env!("CARGO_MANIFEST_DIR")).expect("a directory");
        let lost = (String::new(), "bench: input lost\n".to_string(), 2);
        assert_eq!(ended(start(words, directory.into())), lost);
    }
}
