//! Document 02, L12: the acceptance report over acquisition trials.

use std::fmt::Write;

/// "up to 1,000 acquisition trials"
pub const MOST_TRIALS: usize = 1_000;
/// "attempts up to 262,144"
pub const MOST_ATTEMPTS: u32 = 262_144;
/// "refusal 1 to 16 or 0 for granted"
pub const MOST_REFUSAL: u32 = 16;
/// The longest good line is `262144 16` and its line feed, so a good input is no longer than this.
pub const LONGEST: usize = 10 * MOST_TRIALS;

/// "with its name from a fixed list of names": the name of refusal 1 stands first.
pub const NAMES: [&str; 16] = [
    "BadShape",
    "BadScript",
    "BadHeld",
    "TooMany",
    "BadBinding",
    "BadHeader",
    "Poisoned",
    "InvalidBucket",
    "Damaged",
    "SerialsSpent",
    "SerializationFailure",
    "NotHeld",
    "Protected",
    "Repeated",
    "BadCrew",
    "StaleBoot",
];

/// The sums over the lines so far.
#[derive(Default)]
struct Sums {
    trials: usize,
    attempts: u64,
    greatest: u32,
    /// By number; 0 for granted.
    refusals: [usize; 1 + MOST_REFUSAL as usize],
}

/// What the program prints for this input. Of an input longer than `LONGEST` the first `LONGEST` + 1 bytes are enough:
/// a bad line, or the beginning of line 1,001, is among them.
pub fn report(input: &[u8]) -> String {
    match sums(input) {
        Ok(sums) => text_of(&sums),
        // "A bad line N, or line 1,001, prints only `bad line N`."
        Err(line) => format!("bad line {line}\n"),
    }
}

/// The sums over the input, a trial a line; or the number of the first bad line, from 1. Line 1,001 is bad whatever it
/// holds.
///
/// "a line each (attempts up to 262,144, a space, refusal 1 to 16 or 0 for granted, decimal without leading zeros,
/// line feed)"
fn sums(input: &[u8]) -> Result<Sums, usize> {
    let mut sums = Sums::default();
    let mut rest = input;
    while !rest.is_empty() {
        let line = sums.trials + 1;
        if line > MOST_TRIALS {
            return Err(line);
        }
        let (attempts, behind) = number(rest, b' ', MOST_ATTEMPTS).ok_or(line)?;
        let (refusal, behind) = number(behind, b'\n', MOST_REFUSAL).ok_or(line)?;
        rest = behind;
        sums.trials = line;
        sums.attempts += u64::from(attempts);
        sums.greatest = sums.greatest.max(attempts);
        sums.refusals[refusal as usize] += 1;
    }
    Ok(sums)
}

/// A decimal number without leading zeros, at most `most`, and the byte that ends it; and what is left. None: there is no
/// such number in front. `most` is far below a u32's greatest, so no sum here is too great.
#[inline(always)]
fn number(text: &[u8], end: u8, most: u32) -> Option<(u32, &[u8])> {
    let mut number = 0;
    for (at, &byte) in text.iter().enumerate() {
        let digit = byte.wrapping_sub(b'0');
        if digit > 9 {
            let leading = at == 0 || at > 1 && text[0] == b'0';
            return (byte == end && !leading).then(|| (number, &text[at + 1..]));
        }
        number = 10 * number + u32::from(digit);
        if number > most {
            return None;
        }
    }
    None
}

/// "prints exact numbers: trials, grants, summed attempts, greatest attempts, then one line for each refusal seen, in
/// number order, with its name"
fn text_of(sums: &Sums) -> String {
    let Sums {
        trials,
        attempts,
        greatest,
        refusals: [grants, refusals @ ..],
    } = sums;
    let mut text = format!(
        "trials {trials}\ngrants {grants}\nattempts {attempts} of {trials} trials\ngreatest {greatest}\n"
    );
    for ((number, name), seen) in (1..).zip(NAMES).zip(refusals) {
        if *seen > 0 {
            let _ = writeln!(text, "{number} {name} {seen}");
        }
    }
    text
}

#[cfg(test)]
mod tests {
    use super::*;

    fn printed(input: &str) -> String {
        report(input.as_bytes())
    }

    #[test]
    fn document_02_s_examples() {
        assert_eq!(
            printed("1 0\n"),
            "trials 1\ngrants 1\nattempts 1 of 1 trials\ngreatest 1\n"
        );
        assert_eq!(
            printed(""),
            "trials 0\ngrants 0\nattempts 0 of 0 trials\ngreatest 0\n"
        );
        assert_eq!(
            printed("4096 11\n"),
            "trials 1\ngrants 0\nattempts 4096 of 1 trials\ngreatest 4096\n11 SerializationFailure 1\n"
        );
    }

    #[test]
    fn a_refused_trial_counts_in_trials_attempts_and_greatest() {
        assert_eq!(
            printed("1 0\n7 11\n3 0\n2 7\n7 11\n0 1\n"),
            "trials 6\ngrants 2\nattempts 20 of 6 trials\ngreatest 7\n\
             1 BadShape 1\n7 Poisoned 1\n11 SerializationFailure 2\n"
        );
    }

    #[test]
    fn every_refusal_in_number_order() {
        let lines: String = (0..=16).rev().map(|n| format!("{n} {n}\n")).collect();
        let expected = "trials 17
grants 1
attempts 136 of 17 trials
greatest 16
1 BadShape 1
2 BadScript 1
3 BadHeld 1
4 TooMany 1
5 BadBinding 1
6 BadHeader 1
7 Poisoned 1
8 InvalidBucket 1
9 Damaged 1
10 SerialsSpent 1
11 SerializationFailure 1
12 NotHeld 1
13 Protected 1
14 Repeated 1
15 BadCrew 1
16 StaleBoot 1
";
        assert_eq!(printed(&lines), expected);
    }

    #[test]
    fn a_thousand_lines_and_one_more() {
        let lines = "262144 16\n".repeat(1000);
        assert_eq!(lines.len(), LONGEST);
        assert_eq!(
            printed(&lines),
            "trials 1000\ngrants 0\nattempts 262144000 of 1000 trials\ngreatest 262144\n16 StaleBoot 1000\n"
        );
        // line 1,001 is bad whatever it holds, complete or not
        for more in [
            "1 0\n",
            "1 0",
            "\n",
            " ",
            "x\n1 0\n",
            "262144 16\n262144 16\n",
        ] {
            assert_eq!(
                printed(&(lines.clone() + more)),
                "bad line 1001\n",
                "{more:?}"
            );
        }
        // an earlier bad line is named first
        let lines = "1 0\n".repeat(999);
        assert_eq!(printed(&(lines.clone() + "1 17\n1 0\n")), "bad line 1000\n");
        assert_eq!(printed(&(lines + "1 0")), "bad line 1000\n");
    }

    #[test]
    fn bad_lines() {
        for line in [
            "",
            " ",
            "1",
            "1 ",
            " 0",
            "x",
            "1 0 0",
            "1 0 ",
            " 1 0",
            "1  0",
            "1\t0",
            "1 0\r",
            "\r",
            "01 0",
            "00 0",
            "1 00",
            "1 01",
            "262145 0",
            "262150 0",
            "1000000 0",
            "4294967295 0",
            "4294967296 0",
            "4294967297 1",
            "18446744073709551617 0",
            "1 17",
            "1 20",
            "1 100",
            "1 4294967296",
            "1 4294967297",
            "+1 0",
            "1 +0",
            "-1 0",
            "-0 0",
            "1 -0",
            "1,0",
            "1.0 0",
            "0x1 0",
            "1 0x",
            "a 0",
            "1 a",
            "# 1 0",
            "#",
            "granted",
            "1 granted",
            "\0",
            "1\x000",
        ] {
            assert_eq!(printed(&format!("{line}\n")), "bad line 1\n", "{line:?}");
            assert_eq!(
                printed(&format!("1 0\n5 3\n{line}\n1 0\nx\n")),
                "bad line 3\n",
                "{line:?}"
            );
        }
        assert_eq!(report(b"1 0\n1\xa00\n"), "bad line 2\n");
        assert_eq!(report(b"1 0\n\xff\n"), "bad line 2\n");
        // a last line without line feed
        assert_eq!(printed("1 0"), "bad line 1\n");
        assert_eq!(printed("1 0\n1 0"), "bad line 2\n");
        assert_eq!(printed("1 0\n\n"), "bad line 2\n");
    }

    #[test]
    fn the_greatest_numbers() {
        assert_eq!(
            printed("262144 0\n0 16\n"),
            "trials 2\ngrants 1\nattempts 262144 of 2 trials\ngreatest 262144\n16 StaleBoot 1\n"
        );
    }

    /// What stands behind the first 10,001 bytes is not asked for.
    #[test]
    fn the_first_bytes_are_enough() {
        for input in [
            "262144 16\n".repeat(2000),
            "1 0\n".repeat(5000),
            "262144 16\n".repeat(999) + &"0".repeat(100),
            "262144 16\n".repeat(999) + "262144 16 " + &"\n".repeat(100),
            "x".repeat(20_000),
            "262144 16\n".repeat(1000) + "x",
        ] {
            assert_eq!(printed(&input), printed(&input[..LONGEST + 1]));
        }
    }

    /// The console's names of document 01's refusals.
    #[test]
    fn the_names_are_the_console_s() {
        use crate::rules::{Reason, Refusal};
        let refusals = [
            Refusal::BadShape,
            Refusal::BadScript,
            Refusal::BadHeld(0),
            Refusal::TooMany,
            Refusal::BadBinding(0),
            Refusal::BadHeader(0),
            Refusal::Poisoned(0),
            Refusal::InvalidBucket(0),
            Refusal::Damaged(0),
            Refusal::SerialsSpent(0),
            Refusal::SerializationFailure(Reason::Before),
            Refusal::NotHeld(0),
            Refusal::Protected,
            Refusal::Repeated(0),
            Refusal::BadCrew(0),
            Refusal::StaleBoot(0),
        ];
        assert_eq!(refusals.len(), NAMES.len());
        for (row, refusal) in refusals.into_iter().enumerate() {
            assert_eq!(refusal.number() as usize, row + 1);
            assert_eq!(refusal.name(), NAMES[row]);
        }
    }
}
