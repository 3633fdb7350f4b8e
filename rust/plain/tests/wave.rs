//! A waveform at its greatest size, and the writer of waveforms and histories for the tests.

use console::waveform;
use plain::Plain;
use std::process::Command;

/// What the writer prints.
fn waves(mode: &str, seed: &str) -> Vec<u8> {
    let output = Command::new(env!("CARGO_BIN_EXE_waves"))
        .args([mode, seed])
        .output()
        .expect("the program runs");
    assert!(output.status.success());
    output.stdout
}

/// 94 cells and 32,768 steps, each a change: the history itself is what is read back.
#[test]
fn a_round_trip_at_size() {
    let history = waves("largest", "3");
    let lines = |text: &[u8]| text.iter().filter(|&&byte| byte == b'\n').count();
    assert_eq!(lines(&history), 32_769);
    let dump = waveform::dump(&mut Plain, None, &history);
    assert_eq!(lines(&dump), 2 * 94 + 5 + 2 * 32_768);
    assert!(dump.windows(8).any(|part| part == b"\n#32768\n"));
    assert!(waveform::undump(&mut Plain, &dump) == history);
}

#[test]
fn the_seed_decides() {
    for mode in ["history", "dump", "largest"] {
        assert!(waves(mode, "5") == waves(mode, "5"), "{mode}");
        assert!(waves(mode, "5") != waves(mode, "6"), "{mode}");
    }
}
