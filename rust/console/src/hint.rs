//! Why a line is not understood, and what else a person at a terminal is told.

use crate::answer::{kind_of, Answer, KINDS};
use crate::build::Head;
use crate::desk::{Desk, MEMBERS};
use crate::explain::text::bar;
use crate::help::{entry_of, grouped, Entry, Number, Takes, LANGUAGE, OF_THE_TERMINAL};
use crate::line::{is_skipped, number, Line, LINE};

/// Why a line is not understood; none if it is understood, or skipped.
pub fn fault(desk: &Desk, line: &[u8]) -> Option<String> {
    if line.len() > LINE {
        return Some(format!("a line has at most {} bytes", grouped(LINE as u64)));
    }
    if is_skipped(line) {
        return None;
    }
    let words: Vec<&[u8]> = line.split(|&byte| byte == b' ').collect();
    let (first, rest) = (words[0], &words[1..]);
    spaces(line, &words).or_else(|| match entry_of(first) {
        Some(entry) => counts(entry, rest)
            .or_else(|| numbers(entry, rest))
            .or_else(|| room(entry, desk)),
        None => Some(unknown(first)),
    })
}

/// What is wrong between the words.
fn spaces(line: &[u8], words: &[&[u8]]) -> Option<String> {
    if line.ends_with(b"\r") {
        Some("it ends with a carriage return, which is no space".to_string())
    } else if line.contains(&b'\t') {
        Some("a tab is no space".to_string())
    } else if words.iter().any(|word| word.is_empty()) {
        Some("words stand one space apart, with none before the first or behind the last".into())
    } else {
        None
    }
}

/// Too few words, or too many.
fn counts(entry: &Entry, rest: &[&[u8]]) -> Option<String> {
    let word = entry.word;
    match entry.takes {
        Takes::Numbers([]) if !rest.is_empty() => Some(format!("{word} stands alone")),
        Takes::Numbers(numbers) if rest.len() != numbers.len() => {
            Some(format!("{word} wants {}", wanted(numbers)))
        }
        Takes::OrNone(numbers) if !rest.is_empty() && rest.len() != numbers.len() => {
            Some(format!("{word} wants {}, or none", wanted(numbers)))
        }
        Takes::List(_, most) if rest.len() > most => Some(format!(
            "{word} takes at most {} numbers, and here are {}",
            grouped(most as u64),
            grouped(rest.len() as u64)
        )),
        Takes::Setpoint if rest.len() != 6 => Some(format!(
            "{word} wants a slot, a lease (cell, serial, boot number), a kind (pressure, speed or valve) and a value"
        )),
        _ => None,
    }
}

/// "3 numbers: cell, serial, boot number".
fn wanted(numbers: &[Number]) -> String {
    let names: Vec<&str> = numbers.iter().map(|number| number.what).collect();
    let numbers = match names.len() {
        1 => "1 number".to_string(),
        count => format!("{count} numbers"),
    };
    format!("{numbers}: {}", names.join(", "))
}

/// A word that should be a number and is none, or is too large. The count of words is right.
fn numbers(entry: &Entry, rest: &[&[u8]]) -> Option<String> {
    let numbers = match entry.takes {
        Takes::Numbers(numbers) | Takes::OrNone(numbers) | Takes::List(numbers, _) => numbers,
        Takes::Setpoint => return setpoint(rest),
    };
    rest.iter()
        .zip(numbers.iter().cycle())
        .find_map(|(word, number)| within(word, number.what, number.most))
}

fn setpoint(rest: &[&[u8]]) -> Option<String> {
    let (kind, value) = (rest[4], rest[5]);
    let no_number = |word: &&[u8]| within(word, "", u32::MAX);
    rest[..4]
        .iter()
        .find_map(no_number)
        .or_else(|| match kind_of(kind) {
            None => Some(format!(
                "{} is no kind of setpoint: {}",
                readable(kind),
                KINDS.join(", ")
            )),
            Some(3) if number(value).is_some_and(|value| value > 1) => {
                Some("a valve is 0, shut, or 1, open".to_string())
            }
            Some(_) => no_number(&value),
        })
}

/// Why a word is no number up to this one.
fn within(word: &[u8], what: &str, most: u32) -> Option<String> {
    let digits = !word.is_empty() && word.iter().all(u8::is_ascii_digit);
    match number(word) {
        Some(value) if value <= most => None,
        Some(_) if what.starts_with("1 for") => {
            Some(format!("{} is neither 0 nor 1", readable(word)))
        }
        Some(_) => Some(format!(
            "{} is too large: {what}, at most {}",
            readable(word),
            grouped(most)
        )),
        None if digits && word[0] == b'0' => {
            Some(format!("{} is no number: it begins with 0", readable(word)))
        }
        None if digits => Some(format!(
            "{} is too large: a number is at most {}",
            readable(word),
            grouped(u32::MAX)
        )),
        None => Some(format!("{} is no number", readable(word))),
    }
}

/// What the rooms of the console do not allow.
fn room(entry: &Entry, desk: &Desk) -> Option<String> {
    let full = entry.word == "member" && desk.members.len() == MEMBERS;
    full.then(|| format!("there are {MEMBERS} members already, and there is room for no more"))
}

/// A first word that is none, and the nearest that is one.
fn unknown(word: &[u8]) -> String {
    let text = readable(word);
    if OF_THE_TERMINAL.iter().any(|known| known.as_bytes() == word) {
        return format!("{text} is a word of the terminal alone");
    }
    // capitals are a typo; of a long line without a space the beginning is enough
    let typed = word[..word.len().min(40)].to_ascii_lowercase();
    if let Some(known) = nearest(&typed) {
        return format!("there is no word {text}; the nearest is {known}");
    }
    match begun(&typed)[..] {
        [] => format!("there is no word {text}; \"help\" lists the words"),
        ref words => format!("there is no word {text}; so begin {}", words.join(", ")),
    }
}

fn known() -> impl Iterator<Item = &'static str> {
    LANGUAGE.iter().map(|entry| entry.word)
}

/// The word of the language that is meant: at most a third of its letters away.
fn nearest(typed: &[u8]) -> Option<&'static str> {
    known()
        .map(|word| (distance(typed, word.as_bytes()), word))
        .filter(|(away, word)| 3 * away <= word.len().max(4))
        .min_by_key(|(away, _)| *away)
        .map(|(_, word)| word)
}

/// The words of the language that begin so.
fn begun(typed: &[u8]) -> Vec<&'static str> {
    let begins = |word: &&str| typed.len() >= 3 && word.as_bytes().starts_with(typed);
    known().filter(begins).collect()
}

/// How many letters must be put in, left out, changed or swapped with their neighbour to make one word of the other.
fn distance(one: &[u8], other: &[u8]) -> usize {
    let mut rows = vec![(0..=other.len()).collect::<Vec<usize>>()];
    for (i, a) in one.iter().enumerate() {
        let mut row = vec![i + 1];
        for (j, b) in other.iter().enumerate() {
            let mut least = rows[i][j] + usize::from(a != b);
            least = least.min(rows[i][j + 1] + 1).min(row[j] + 1);
            if i > 0 && j > 0 && *a == other[j - 1] && one[i - 1] == *b {
                least = least.min(rows[i - 1][j - 1] + 1);
            }
            row.push(least);
        }
        rows.push(row);
    }
    rows[one.len()][other.len()]
}

/// Bytes of a line as a person can read them, cut if they are many.
pub fn readable(bytes: &[u8]) -> String {
    const LONGEST: usize = 60;
    let cut = bytes.len() > LONGEST;
    let shown = &bytes[..bytes.len().min(LONGEST)];
    let text = String::from_utf8_lossy(shown);
    let mut readable: String = text.chars().flat_map(without_controls).collect();
    if cut {
        readable.push_str("..");
    }
    readable
}

/// A character that moves the cursor is shown by its name.
pub(crate) fn without_controls(character: char) -> Vec<char> {
    if character.is_control() {
        character.escape_default().collect()
    } else {
        vec![character]
    }
}

/// What a person at a terminal is told besides what the language prints.
pub fn note(desk: &Desk, line: &[u8], played: &Line) -> Option<String> {
    let Line::Call(answered) = played else {
        return None;
    };
    let refused = match &answered.answer {
        Answer::Reply(reply) | Answer::Grants(reply) => reply[9] >= 5 && reply[10] == 1,
        Answer::Crew(reply) | Answer::Work(reply) => reply[9] != 0 && reply[10] == 1,
        Answer::Salvage(reply) => reply[4] != 0 && reply[5] == 1,
        Answer::Book(reply) => reply[0] == 3 && reply[1] == 1,
    };
    if refused && desk.head == Head::default() && !line.starts_with(b"prepare ") {
        return Some(
            "refused by 1, since no arena is prepared yet: \"prepare 2 4 1 5\" makes one of 2 headers with 4 buckets \
             each, with serials from 1 and boot number 5"
                .to_string(),
        );
    }
    match answered.answer {
        Answer::Book([2, _, 1, bits]) => Some(bar_of(bits as u32)),
        Answer::Book([1, ..]) => pressure_in(line).map(bar_of),
        _ => None,
    }
}

fn bar_of(bits: u32) -> String {
    format!("pressure {bits} is {}", bar(bits))
}

/// The bits of the pressure that a line writes.
fn pressure_in(line: &[u8]) -> Option<u32> {
    let words: Vec<&[u8]> = line.split(|&byte| byte == b' ').collect();
    match words[..] {
        [_, _, _, _, _, b"pressure", bits] => number(bits),
        _ => None,
    }
}
