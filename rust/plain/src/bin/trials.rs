//! Input for `report`.
//!
//! `trials random SEED` prints a random input, good or bad. The same seed gives the same input.
//!
//! `trials played` reads what a player printed while its echo was on, and prints a trial for each call of
//! `acquire_index_bucket`: its attempts, and its refusal or 0.

use console::dice::Dice;
use plain::report::{MOST_ATTEMPTS, MOST_REFUSAL, MOST_TRIALS};
use std::io::{self, Read, Write};

fn main() -> io::Result<()> {
    let words: Vec<String> = std::env::args().skip(1).collect();
    let words: Vec<&str> = words.iter().map(String::as_str).collect();
    let text = match *words.as_slice() {
        ["random", seed] => seed.parse().ok().map(random),
        ["played"] => {
            let mut input = Vec::new();
            io::stdin().lock().read_to_end(&mut input)?;
            Some(played(&input).into_bytes())
        }
        _ => None,
    };
    let Some(text) = text else {
        eprintln!("usage: trials random SEED | trials played");
        std::process::exit(2);
    };
    io::stdout().lock().write_all(&text)
}

// ---- What a player printed

/// The call whose results are trials. `transactional_try_lock_bucket` is a call by key too, but one attempt is no
/// acquisition: it may be Busy, which is no refusal.
const ACQUISITION: &[u8] = b"> acquire_index_bucket ";

/// The trials of the calls that were echoed. A call that was not echoed cannot be told from others.
fn played(printed: &[u8]) -> String {
    let mut trials = String::new();
    let mut asked = false;
    for line in printed.split(|&byte| byte == b'\n') {
        if asked {
            if let Some((attempts, refusal)) = answer(&String::from_utf8_lossy(line)) {
                trials.push_str(&format!("{attempts} {refusal}\n"));
            }
        }
        asked = line.starts_with(ACQUISITION);
    }
    trials
}

/// Attempts and refusal of a call's line; none if it is another line, as behind a call that was not understood.
fn answer(line: &str) -> Option<(u32, u32)> {
    let words: Vec<&str> = line.split(' ').collect();
    let refusal = match words.as_slice() {
        ["granted", ..] => 0,
        ["refused", number, ..] => number.parse().ok()?,
        _ => return None,
    };
    let at = words.iter().position(|&word| word == "attempts")?;
    let attempts = words.get(at + 1)?.parse().ok()?;
    Some((attempts, refusal))
}

// ---- Random input

/// Lines that are bad wherever they stand.
const BAD_LINES: [&str; 40] = [
    "",
    " ",
    "1",
    "1 ",
    " 0",
    " 1 0",
    "1 0 ",
    "1  0",
    "1 0 0",
    "1\t0",
    "1 0\r",
    "\r",
    "x",
    "a 0",
    "1 a",
    "1a 0",
    "1 0a",
    "00 0",
    "01 0",
    "0262144 0",
    "1 00",
    "1 01",
    "1 016",
    "262145 0",
    "262150 0",
    "262244 11",
    "999999 0",
    "1000000 0",
    "4294967296 0",
    "4294967297 0",
    "18446744073709551617 1",
    "1 17",
    "1 26",
    "1 116",
    "1 4294967296",
    "1 4294967297",
    "-1 0",
    "+1 0",
    "1 -0",
    "# a remark",
];

/// Good lines, and then no fault, one, or two.
fn random(seed: u64) -> Vec<u8> {
    let mut dice = Dice(seed);
    let mut lines = good_lines(&mut dice);
    let faults = dice.pick(&[0, 0, 1, 1, 1, 2]);
    for _ in 0..faults {
        fault(&mut dice, &mut lines);
    }
    let mut text = lines.concat();
    match dice.below(12) {
        // the last line without its line feed, if there is one
        0 => {
            text.pop();
        }
        1 if faults > 0 => change_a_byte(&mut dice, &mut text),
        _ => {}
    }
    text
}

fn good_lines(dice: &mut Dice) -> Vec<Vec<u8>> {
    let count = match dice.below(12) {
        0 => 0,
        1 => 1,
        2 => MOST_TRIALS - 1,
        3..=4 => MOST_TRIALS,
        5 => dice.below(MOST_TRIALS),
        _ => dice.below(20) + 1,
    };
    // of some inputs all trials are granted, of some all are refused, and of some the attempts are few
    let (grants, most) = (dice.below(4), dice.pick(&[3, 4097, MOST_ATTEMPTS + 1]));
    (0..count)
        .map(|_| {
            let attempts = match dice.below(40) {
                0 => MOST_ATTEMPTS - dice.number(2),
                1 => dice.pick(&[0, 1, 9, 10, 99, 100, 4095, 4096, 99_999, 100_000]),
                _ => dice.number(most),
            };
            let refusal = match dice.below(4) < grants {
                true => 0,
                false => dice.number(MOST_REFUSAL) + 1,
            };
            format!("{attempts} {refusal}\n").into_bytes()
        })
        .collect()
}

/// One fault, or what looks like one.
fn fault(dice: &mut Dice, lines: &mut Vec<Vec<u8>>) {
    let at = dice.below(lines.len() + 1);
    match dice.below(8) {
        // a bad line more, or in place of a good one
        0..=3 => {
            let bad = format!("{}\n", dice.pick(&BAD_LINES)).into_bytes();
            if at < lines.len() && dice.once_in(2) {
                lines[at] = bad;
            } else {
                lines.insert(at, bad);
            }
        }
        // more than a thousand lines; what stands in line 1,001 does not matter
        4 => {
            let most = MOST_TRIALS + dice.pick(&[0, 0, 1, 500]);
            lines.resize(most, b"1 0\n".to_vec());
            let more = dice.pick(&["1 0\n", "1 0", "\n", "x", "262144 16\n", "1 17\n"]);
            lines.push(more.as_bytes().to_vec());
        }
        // a long line
        5 => {
            let byte = dice.pick(b"0 19x\0");
            let mut long = vec![byte; 9 + dice.below(20_000)];
            long.push(b'\n');
            lines.insert(at, long);
        }
        _ => {
            if let Some(line) = lines.get_mut(at) {
                change_a_byte(dice, line);
            }
        }
    }
}

/// One byte more, less, or another.
fn change_a_byte(dice: &mut Dice, text: &mut Vec<u8>) {
    let at = dice.below(text.len() + 1);
    let byte = dice.pick(b"  \t\r\n0126-+#x\0\xff");
    match dice.below(3) {
        0 if at < text.len() => {
            text.remove(at);
        }
        1 if at < text.len() => text[at] = byte,
        _ => text.insert(at, byte),
    }
}

#[cfg(test)]
mod tests {
    use super::*;
    use plain::report::report;
    use std::collections::BTreeSet;

    /// What the random inputs reach: every refusal, the edges of lines and numbers, bad lines at all places.
    #[test]
    fn reach() {
        let (mut good, mut bad) = (0, 0);
        let mut seen = BTreeSet::new();
        for seed in 0..1000 {
            let input = random(seed);
            let text = report(&input);
            let lines: Vec<&[u8]> = input.split_inclusive(|&byte| byte == b'\n').collect();
            let Some(number) = text.strip_prefix("bad line ") else {
                good += 1;
                seen.extend(text.lines().skip(4).map(|line| {
                    let words: Vec<&str> = line.split(' ').collect();
                    words[..2].join(" ")
                }));
                seen.insert(format!("{} trials", lines.len().min(2)));
                if lines.len() >= 999 {
                    seen.insert(format!("{} trials", lines.len()));
                }
                if text.contains("greatest 262144\n") {
                    seen.insert("the most attempts".to_string());
                }
                continue;
            };
            bad += 1;
            let number: usize = number.trim_end().parse().expect("a number");
            let line = String::from_utf8_lossy(lines[number - 1]).into_owned();
            seen.insert(match number {
                1 | 1000 | 1001 => format!("bad line {number}"),
                _ => "bad line between".to_string(),
            });
            if number < 1001 {
                seen.extend(
                    BAD_LINES
                        .iter()
                        .find(|bad| line == format!("{bad}\n"))
                        .map(|bad| format!("{bad:?}")),
                );
                if !line.ends_with('\n') {
                    seen.insert("no line feed".to_string());
                }
                if line.len() > 10_000 {
                    seen.insert("a long line".to_string());
                }
            }
            if lines.len() > number {
                seen.insert("lines behind the bad one".to_string());
            }
        }
        println!("{good} good, {bad} bad");
        assert!(good > 250 && bad > 250, "{good} good, {bad} bad");
        let expected = "bad line 1|bad line 1000|bad line 1001|bad line between|no line feed|a long line|\
                        lines behind the bad one|0 trials|1 trials|2 trials|999 trials|1000 trials|the most attempts";
        let mut expected: BTreeSet<String> = expected.split('|').map(String::from).collect();
        expected.extend(
            plain::report::NAMES
                .iter()
                .zip(1..)
                .map(|(name, number)| format!("{number} {name}")),
        );
        expected.extend(BAD_LINES.iter().map(|bad| format!("{bad:?}")));
        assert_eq!(seen, expected);
    }

    #[test]
    fn what_a_player_printed() {
        let printed = b"granted 1 1 next 2 place 0 attempts 1 boundaries 3 yields 0 dropped 0
> acquire_index_bucket 0 2
granted 2 2 next 3 place 0 attempts 1 boundaries 3 yields 0 dropped 0
> acquire_index_bucket 0 2 7
line 7: not understood
> transactional_try_lock_bucket 0 2
busy next 3 place 0 attempts 1 boundaries 3 yields 0 dropped 0
> acquire_index_bucket 0 2
refused 11 SerializationFailure 4096 next 2 place 0 attempts 4096 boundaries 12352 yields 64 dropped 0
> acquire_index_bucket 9 2
refused 5 BadBinding 0 next 2 place 0 attempts 0 boundaries 0 yields 0 dropped 0
> try_acquire 3
granted 3 3 next 4 place 0 attempts 1 boundaries 0 yields 0 dropped 0
";
        assert_eq!(played(printed), "1 0\n4096 11\n0 5\n");
        assert_eq!(played(b""), "");
    }

    /// As the requests of document 02 change a call's line.
    #[test]
    fn what_a_later_player_printed() {
        let printed = b"> acquire_index_bucket 0 2
granted 2 2 77 next 3 place 0 attempts 3 boundaries 9 yields 0 dropped 0
> acquire_index_bucket 0 2
refused 11 SerializationFailure 4096 held 1 next 2 place 0 attempts 4096 boundaries 12352 yields 64 dropped 0
> acquire_index_bucket 0 2
refused 16 StaleBoot 1 next 2 place 0 attempts 0 boundaries 0 yields 0 dropped 0
";
        assert_eq!(played(printed), "3 0\n4096 11\n0 16\n");
    }
}
