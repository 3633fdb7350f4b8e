//! Random input for `dump` and `undump`. The same seed gives the same input.
//!
//! `waves history SEED` prints a history, the input of `dump`: good, too wide, too long, without room for its dump, or
//! with a line that is not understood.
//!
//! `waves dump SEED` prints a dump, the input of `undump`: whole, or damaged in one way or two.
//!
//! `waves largest SEED` prints the largest history: 94 cells, 32,768 steps, each of which changes a bit.

use console::dice::Dice;
use plain::rules::MOST_STEPS;
use plain::wave::{self, INPUT, MOST_CELLS, STEP_ROOM};
use std::io::{self, Write};

fn main() -> io::Result<()> {
    let words: Vec<String> = std::env::args().skip(1).collect();
    let seed = words.get(1).and_then(|seed| seed.parse().ok());
    let text = match (words.len(), words.first().map(String::as_str), seed) {
        (2, Some("history"), Some(seed)) => history(&mut Dice(seed)),
        (2, Some("dump"), Some(seed)) => dump(&mut Dice(seed)),
        (2, Some("largest"), Some(seed)) => largest(&mut Dice(seed)),
        _ => {
            eprintln!("usage: waves history SEED | waves dump SEED | waves largest SEED");
            std::process::exit(2);
        }
    };
    io::stdout().lock().write_all(&text)
}

// ---- Steps

fn cells(dice: &mut Dice) -> u32 {
    match dice.below(8) {
        0 => MOST_CELLS as u32,
        1 => dice.number(MOST_CELLS as u32) + 1,
        _ => dice.number(6) + 1,
    }
}

/// Steps of all kinds, on few cells, so that bits change often; some on cells beyond the first ones.
fn mixed_steps(dice: &mut Dice, cells: u32, count: usize) -> Vec<[u32; 3]> {
    let few = dice.number(cells) + 1;
    (0..count)
        .map(|_| {
            let kind = match dice.below(10) {
                0 => dice.pick(&[0, 3, 4, 5]),
                1 => dice.pick(&[6, 255, 257, 258, u32::MAX]),
                2..=5 => 1,
                _ => 2,
            };
            let place = match dice.below(12) {
                0 => dice.pick(&[cells, cells + 1, cells + 32, u32::MAX]),
                1 => dice.odd_number(),
                2 => dice.number(cells),
                _ => dice.number(few),
            };
            [kind, place, dice.pick(&[0, 1, 7, u32::MAX])]
        })
        .collect()
}

/// Steps that change a bit each: the longest dumps.
fn changing_steps(dice: &mut Dice, cells: u32, count: usize) -> Vec<[u32; 3]> {
    let mut bits = vec![false; cells as usize];
    (0..count)
        .map(|_| {
            let cell = dice.number(cells);
            let bit = &mut bits[cell as usize];
            *bit = !*bit;
            [if *bit { 1 } else { 2 }, cell, 0]
        })
        .collect()
}

fn steps(dice: &mut Dice, cells: u32) -> Vec<[u32; 3]> {
    let count = match dice.below(30) {
        0 => MOST_STEPS,
        1..=2 => dice.below(3),
        3..=5 => dice.below(3000),
        _ => dice.below(60),
    };
    if dice.once_in(5) {
        changing_steps(dice, cells, count)
    } else {
        mixed_steps(dice, cells, count)
    }
}

// ---- Histories

/// Lines that are not understood wherever they stand.
const BAD_LINES: [&str; 24] = [
    "",
    " ",
    "#",
    "# a remark",
    "1 0 0 0",
    "1 0 0 ",
    " 1 0 0",
    "1  0 0",
    "1\t0 0",
    "1 0 0\r",
    "1 0 x",
    "take 0 0",
    "01 0 0",
    "1 00 0",
    "1 0 00",
    "1 0 4294967296",
    "4294967297 0 0",
    "1 18446744073709551616 0",
    "-1 0 0",
    "+1 0 0",
    "1,0,0",
    "1 0 0.",
    "\0",
    "script 1 0 0",
];

fn history(dice: &mut Dice) -> Vec<u8> {
    let cells = cells(dice);
    let mut steps = steps(dice, cells);
    // over the limit of steps, and over the room of the program
    let over = dice.once_in(20);
    if over {
        let count = dice.pick(&[MOST_STEPS + 1, STEP_ROOM, STEP_ROOM + 1, STEP_ROOM + 9]);
        steps.resize(count, [1, 0, 0]);
    }
    // two faults at once, for the order of the checks
    let wide = match dice.below(if over { 2 } else { 12 }) {
        0 => dice.pick(&[0, 95, 96, 350, u32::MAX]),
        _ => cells,
    };
    let mut lines = vec![first_line(dice, wide, &steps)];
    lines.extend(steps.iter().map(step_line));
    if dice.once_in(5) {
        let at = dice.below(lines.len() + 1);
        // a first line has one number or two, every other line three
        let bad = match dice.below(4) {
            0 => dice.pick(&["7", "7 7"]).to_string(),
            _ => dice.pick(&BAD_LINES).to_string(),
        };
        lines.insert(at, bad + "\n");
    }
    let mut text = lines.concat().into_bytes();
    match dice.below(24) {
        0 => text.clear(),
        1..=2 => change_a_byte(dice, &mut text),
        3..=6 => {
            text.pop();
        }
        7 => lengthen(dice, &mut text),
        _ => {}
    }
    text
}

fn step_line([kind, place, number]: &[u32; 3]) -> String {
    format!("{kind} {place} {number}\n")
}

fn largest(dice: &mut Dice) -> Vec<u8> {
    let cells = MOST_CELLS as u32;
    let mut text = format!("{cells}\n");
    let steps = changing_steps(dice, cells, MOST_STEPS);
    text.extend(steps.iter().map(step_line));
    text.into_bytes()
}

/// `N` or `N ROOM`, with about as much room as the dump takes.
fn first_line(dice: &mut Dice, cells: u32, steps: &[[u32; 3]]) -> String {
    if !dice.once_in(3) {
        return format!("{cells}\n");
    }
    let dump = wave::write(cells, steps.as_flattened(), usize::MAX);
    let exact = dump.map_or(0, |text| text.len() as u32);
    let less = dice.number(exact);
    let room = dice.pick(&[
        exact,
        exact,
        exact.saturating_sub(1),
        exact + 1,
        0,
        less,
        u32::MAX,
    ]);
    format!("{cells} {room}\n")
}

/// As long as an input may be, or one byte longer.
fn lengthen(dice: &mut Dice, text: &mut Vec<u8>) {
    let byte = dice.pick(b"\n0x");
    text.resize(INPUT + dice.below(2), byte);
}

/// One byte more, less, or another.
fn change_a_byte(dice: &mut Dice, text: &mut Vec<u8>) {
    let at = dice.below(text.len() + 1);
    let byte = dice.pick(b"  \t\r\n0123456789-#$!\"~x\0\x7f\xff");
    match dice.below(3) {
        0 if at < text.len() => {
            text.remove(at);
        }
        1 if at < text.len() => text[at] = byte,
        _ => text.insert(at, byte),
    }
}

// ---- Dumps

/// A dump by its lines, each with its line feed.
struct Dump {
    cells: usize,
    lines: Vec<Vec<u8>>,
}

type Damage = fn(&mut Dice, &mut Dump);

/// Every way to damage a dump. Some of them leave it a dump now and then.
const DAMAGES: [(&str, Damage); 24] = [
    ("a byte changed", a_byte_changed),
    ("a line lost", a_line_lost),
    ("a line doubled", a_line_doubled),
    ("lines exchanged", lines_exchanged),
    ("a line torn", a_line_torn),
    ("lines joined", lines_joined),
    ("a carriage return", a_carriage_return),
    ("a space more", a_space_more),
    ("the last line feed lost", the_last_line_feed_lost),
    ("stopped behind a line", stopped_behind_a_line),
    ("stopped anywhere", stopped_anywhere),
    ("something behind", something_behind),
    ("no variables", no_variables),
    ("a 95th variable", a_95th_variable),
    ("a variable more", a_variable_more),
    ("an initial value 1", an_initial_value_1),
    ("a leading zero", a_leading_zero),
    ("times that do not rise", times_that_do_not_rise),
    ("a late time", a_late_time),
    ("a time without change", a_time_without_change),
    ("a change without time", a_change_without_time),
    ("a value that was there", a_value_that_was_there),
    ("another code", another_code),
    ("no bit", no_bit),
];

fn dump(dice: &mut Dice) -> Vec<u8> {
    let mut dump = whole(dice);
    let damages = dice.pick(&[0, 1, 1, 1, 1, 2]);
    for _ in 0..damages {
        let (_, damage) = dice.pick(&DAMAGES);
        damage(dice, &mut dump);
    }
    let mut text = dump.lines.concat();
    match dice.below(100) {
        0 => text.clear(),
        1..=2 => lengthen(dice, &mut text),
        _ => {}
    }
    text
}

fn whole(dice: &mut Dice) -> Dump {
    let cells = cells(dice);
    let steps = steps(dice, cells);
    let text = wave::write(cells, steps.as_flattened(), usize::MAX).expect("a good history");
    Dump {
        cells: cells as usize,
        lines: lines_of(text.as_bytes()),
    }
}

fn lines_of(text: &[u8]) -> Vec<Vec<u8>> {
    let lines = text.split_inclusive(|&byte| byte == b'\n');
    lines.map(<[u8]>::to_vec).collect()
}

impl Dump {
    /// The place of any line, or of the end where there is none.
    fn any(&self, dice: &mut Dice) -> usize {
        // the lines before the first time are few beside the others, and as good
        let most = match dice.once_in(2) {
            true => self.lines.len(),
            false => self.lines.len().min(2 * self.cells + 8),
        };
        dice.below(most)
    }

    /// Where the lines of initial values begin, and where they end.
    fn initial(&self) -> usize {
        self.cells + 5
    }

    fn changes(&self) -> usize {
        2 * self.cells + 5
    }

    /// The place of any time line behind the initial values; its change stands behind it.
    fn any_time(&self, dice: &mut Dice) -> Option<usize> {
        let pairs = self.lines.len().saturating_sub(self.changes()) / 2;
        (pairs > 0).then(|| self.changes() + 2 * dice.below(pairs))
    }

    /// The number of a time line, 0 where there is none.
    fn time(&self, at: usize) -> u32 {
        let line = self
            .lines
            .get(at)
            .map_or("", |line| std::str::from_utf8(line).unwrap_or(""));
        line.trim_start_matches('#').trim_end().parse().unwrap_or(0)
    }

    fn set(&mut self, at: usize, line: String) {
        if at < self.lines.len() {
            self.lines[at] = line.into_bytes();
        }
    }
}

fn a_byte_changed(dice: &mut Dice, dump: &mut Dump) {
    let at = dump.any(dice);
    if at < dump.lines.len() {
        change_a_byte(dice, &mut dump.lines[at]);
    }
}

fn a_line_lost(dice: &mut Dice, dump: &mut Dump) {
    let at = dump.any(dice);
    if at < dump.lines.len() {
        dump.lines.remove(at);
    }
}

fn a_line_doubled(dice: &mut Dice, dump: &mut Dump) {
    let at = dump.any(dice);
    if at < dump.lines.len() {
        dump.lines.insert(at, dump.lines[at].clone());
    }
}

fn lines_exchanged(dice: &mut Dice, dump: &mut Dump) {
    let (at, other) = (dump.any(dice), dump.any(dice));
    let other = if dice.once_in(2) { at + 1 } else { other };
    if at.max(other) < dump.lines.len() {
        dump.lines.swap(at, other);
    }
}

fn a_line_torn(dice: &mut Dice, dump: &mut Dump) {
    let at = dump.any(dice);
    if at < dump.lines.len() {
        let place = dice.below(dump.lines[at].len());
        dump.lines[at].insert(place, b'\n');
    }
}

fn lines_joined(dice: &mut Dice, dump: &mut Dump) {
    let at = dump.any(dice);
    if at < dump.lines.len() {
        dump.lines[at].pop();
    }
}

/// Of one line, or of all.
fn a_carriage_return(dice: &mut Dice, dump: &mut Dump) {
    let at = dump.any(dice);
    let all = dice.once_in(3);
    for (number, line) in dump.lines.iter_mut().enumerate() {
        if all || number == at {
            line.insert(line.len().saturating_sub(1), b'\r');
        }
    }
}

fn a_space_more(dice: &mut Dice, dump: &mut Dump) {
    let at = dump.any(dice);
    if at < dump.lines.len() {
        let length = dump.lines[at].len();
        let place = dice.pick(&[0, length.saturating_sub(1), length / 2]);
        dump.lines[at].insert(place, b' ');
    }
}

fn the_last_line_feed_lost(_: &mut Dice, dump: &mut Dump) {
    if let Some(line) = dump.lines.last_mut() {
        line.pop();
    }
}

fn stopped_behind_a_line(dice: &mut Dice, dump: &mut Dump) {
    let at = dump.any(dice);
    dump.lines.truncate(at);
}

fn stopped_anywhere(dice: &mut Dice, dump: &mut Dump) {
    let at = dump.any(dice);
    if at < dump.lines.len() {
        dump.lines.truncate(at + 1);
        let length = dice.below(dump.lines[at].len());
        dump.lines[at].truncate(length);
    }
}

fn something_behind(dice: &mut Dice, dump: &mut Dump) {
    let more = dice.pick(&[
        "\n",
        " ",
        "#",
        "#32768\n",
        "#32768\n1!\n",
        "0!\n",
        "1!\n",
        "$end\n",
        "$dumpoff\n",
        "\0",
    ]);
    dump.lines.push(more.as_bytes().to_vec());
}

fn no_variables(_: &mut Dice, dump: &mut Dump) {
    dump.lines.retain(|line| !line.starts_with(b"$var"));
}

/// 94 variables and one more, with the code and name that would come next.
fn a_95th_variable(dice: &mut Dice, dump: &mut Dump) {
    let text = wave::write(MOST_CELLS as u32, &[1, 0, 0], usize::MAX).expect("a good history");
    dump.cells = MOST_CELLS;
    dump.lines = lines_of(text.as_bytes());
    let line = dice.pick(&["$var wire 1 \x7f c94 $end\n", "$var wire 1 ! c94 $end\n"]);
    dump.lines.insert(2 + MOST_CELLS, line.as_bytes().to_vec());
}

/// The next variable, without its initial value, or with it.
fn a_variable_more(dice: &mut Dice, dump: &mut Dump) {
    let (cell, code) = (dump.cells, char::from(33 + dump.cells as u8));
    if dice.once_in(2) && dump.lines.len() >= dump.changes() {
        dump.lines
            .insert(dump.changes(), format!("0{code}\n").into_bytes());
    }
    if dump.lines.len() >= 2 + cell {
        let line = format!("$var wire 1 {code} c{cell} $end\n");
        dump.lines.insert(2 + cell, line.into_bytes());
    }
}

fn an_initial_value_1(dice: &mut Dice, dump: &mut Dump) {
    let cell = dice.below(dump.cells);
    let code = char::from(33 + cell as u8);
    dump.set(dump.initial() + cell, format!("1{code}\n"));
}

fn a_leading_zero(dice: &mut Dice, dump: &mut Dump) {
    if let Some(at) = dump.any_time(dice) {
        let zeros = dice.pick(&["0", "00", "+"]);
        dump.set(at, format!("#{zeros}{}\n", dump.time(at)));
    }
}

/// A time no later than the one before it; for the first that is 0.
fn times_that_do_not_rise(dice: &mut Dice, dump: &mut Dump) {
    if let Some(at) = dump.any_time(dice) {
        let before = dump.time(at - 2);
        let time = dice.pick(&[before, before, before.saturating_sub(1), 0]);
        dump.set(at, format!("#{time}\n"));
    }
}

/// 32,768 is the last time there is. The last numbers are 1, but for a power of two.
fn a_late_time(dice: &mut Dice, dump: &mut Dump) {
    let times = [
        "32768",
        "32769",
        "32770",
        "65537",
        "99999",
        "4294967297",
        "18446744073709551617",
    ];
    let time = dice.pick(&times);
    let last = dump.lines.len().saturating_sub(2);
    let at = dump.any_time(dice).unwrap_or(last);
    let at = if dice.once_in(2) { last } else { at };
    dump.set(at, format!("#{time}\n"));
}

/// A time line more, and no change; or its change lost.
fn a_time_without_change(dice: &mut Dice, dump: &mut Dump) {
    if let Some(at) = dump.any_time(dice) {
        if dice.once_in(2) {
            let time = dump.time(at).saturating_add(1);
            dump.lines.insert(at + 2, format!("#{time}\n").into_bytes());
        } else {
            dump.lines.remove(at + 1);
        }
    }
}

/// A time line lost; or a second change at one time.
fn a_change_without_time(dice: &mut Dice, dump: &mut Dump) {
    if let Some(at) = dump.any_time(dice) {
        if dice.once_in(2) {
            dump.lines.remove(at);
        } else {
            let mut change = dump.lines[at + 1].clone();
            if let Some(bit) = change.first_mut() {
                *bit ^= 1;
            }
            dump.lines.insert(at + 2, change);
        }
    }
}

/// A change to the value that the cell has already; or the opposite change.
fn a_value_that_was_there(dice: &mut Dice, dump: &mut Dump) {
    if let Some(at) = dump.any_time(dice) {
        if dice.once_in(2) {
            if let Some(bit) = dump.lines[at + 1].first_mut() {
                *bit ^= 1;
            }
        } else {
            let (time, change) = (dump.time(at).saturating_add(1), dump.lines[at + 1].clone());
            dump.lines.insert(at + 2, format!("#{time}\n").into_bytes());
            dump.lines.insert(at + 3, change);
        }
    }
}

/// The code of another cell, or of none.
fn another_code(dice: &mut Dice, dump: &mut Dump) {
    if let Some(at) = dump.any_time(dice) {
        let other = 33 + dice.below(dump.cells) as u8;
        let code = dice.pick(&[other, other, 33 + dump.cells as u8, 32, 127, 128, 0]);
        if let Some(byte) = dump.lines[at + 1].get_mut(1) {
            *byte = code;
        }
    }
}

/// A value of the standard that the writer never writes.
fn no_bit(dice: &mut Dice, dump: &mut Dump) {
    if let Some(at) = dump.any_time(dice) {
        let value = dice.pick(&[
            "x!\n", "z!\n", "X!\n", "2!\n", "b1 !\n", "1 !\n", "1!!\n", "!\n", "1\n", "\n",
        ]);
        dump.set(at + 1, value.to_string());
    }
}

#[cfg(test)]
mod tests {
    use super::*;
    use console::waveform;
    use plain::Plain;
    use std::collections::BTreeMap;

    /// How often each name came.
    fn counted(names: impl Iterator<Item = String>) -> BTreeMap<String, usize> {
        let mut counts = BTreeMap::new();
        for name in names {
            *counts.entry(name).or_default() += 1;
        }
        println!("{counts:#?}");
        counts
    }

    /// The names of a list come, and no other.
    fn reached(counts: &BTreeMap<String, usize>, names: &[&str]) {
        let mut expected: Vec<&str> = names.to_vec();
        expected.sort();
        assert_eq!(counts.keys().collect::<Vec<_>>(), expected);
    }

    fn text_of(printed: Vec<u8>) -> String {
        String::from_utf8(printed).expect("it prints text")
    }

    /// Too wide, whatever else is wrong.
    fn is_wide(input: &[u8]) -> bool {
        let first = String::from_utf8_lossy(input);
        let first = first.split(['\n', ' ']).next().unwrap_or_default();
        !matches!(first.parse(), Ok(1..=94))
    }

    fn history_case(seed: u64) -> String {
        let input = history(&mut Dice(seed));
        let text = text_of(waveform::dump(&mut Plain, None, &input));
        if text == "refused 2 BadScript 0\n" && is_wide(&input) {
            return "refused 2, and too wide".to_string();
        }
        let lines = input.split_inclusive(|&byte| byte == b'\n').count();
        let first = input
            .split(|&byte| byte == b'\n')
            .next()
            .unwrap_or_default();
        if let Some(line) = text.strip_prefix("line ") {
            let line = line.split(':').next().unwrap_or_default();
            return match line {
                "1" if input.is_empty() => "empty input",
                "1" | "2" | "32802" => return format!("line {line}"),
                _ if line.parse() == Ok(lines) => "the last line",
                _ => "a line between",
            }
            .to_string();
        }
        if !text.starts_with('$') {
            return text.trim_end().to_string();
        }
        let changes = text.matches("\n#").count() - 1;
        match changes {
            _ if first.ends_with(format!(" {}", text.len()).as_bytes()) => {
                "a dump, room to the byte"
            }
            _ if input.last() != Some(&b'\n') => "a dump, the last line feed missing",
            0 => "a dump without changes",
            MOST_STEPS => "a dump, all steps there can be, all changes",
            _ if lines == MOST_STEPS + 1 => "a dump, all steps there can be",
            _ => "a dump",
        }
        .to_string()
    }

    #[test]
    fn reach_of_histories() {
        let counts = counted((0..1500).map(history_case));
        reached(
            &counts,
            &[
                "empty input",
                "line 1",
                "line 2",
                "line 32802",
                "the last line",
                "a line between",
                "input too long",
                "refused 2 BadScript 0",
                "refused 2, and too wide",
                "refused TooWide",
                "refused NoRoom",
                "a dump, room to the byte",
                "a dump, the last line feed missing",
                "a dump without changes",
                "a dump, all steps there can be, all changes",
                "a dump, all steps there can be",
                "a dump",
            ],
        );
    }

    /// What a line after these good ones has to be.
    fn role(before: &[&[u8]]) -> &'static str {
        let cells = before
            .iter()
            .filter(|line| line.starts_with(b"$var"))
            .count();
        match before.len() {
            0 => "the timescale",
            1 => "the scope",
            _ if !before.contains(&&b"$upscope $end\n"[..]) => "a variable",
            length if length == cells + 3 => "the end of definitions",
            length if length == cells + 4 => "time 0",
            length if length < 2 * cells + 5 => "an initial value",
            length if (length - cells) % 2 == (cells + 5) % 2 => "a time",
            _ => "a change",
        }
    }

    fn dump_case(text: &[u8]) -> String {
        let printed = text_of(waveform::undump(&mut Plain, text));
        let Some(line) = printed.strip_prefix("refused BadLine ") else {
            return match printed.as_str() {
                "input too long\n" => "input too long",
                _ => "a dump",
            }
            .to_string();
        };
        let line: usize = line.trim_end().parse().expect("a number");
        let lines: Vec<&[u8]> = text.split_inclusive(|&byte| byte == b'\n').collect();
        let role = role(&lines[..line - 1]);
        match lines.get(line - 1) {
            None => format!("{role}, missing"),
            Some(line) if !line.ends_with(b"\n") => format!("{role}, without line feed"),
            Some(_) => format!("{role}, wrong"),
        }
    }

    #[test]
    fn reach_of_dumps() {
        let counts = counted((0..3000).map(|seed| dump_case(&dump(&mut Dice(seed)))));
        let roles = [
            "the timescale",
            "the scope",
            "a variable",
            "the end of definitions",
            "time 0",
            "an initial value",
            "a time",
            "a change",
        ];
        let mut names = vec!["a dump".to_string(), "input too long".to_string()];
        for role in roles {
            for fault in ["missing", "without line feed", "wrong"] {
                // where a time could stand the text may end
                if (role, fault) != ("a time", "missing") {
                    names.push(format!("{role}, {fault}"));
                }
            }
        }
        let names: Vec<&str> = names.iter().map(String::as_str).collect();
        reached(&counts, &names);
    }

    /// How many of 100 dumps with changes each damage makes no dump of.
    #[test]
    fn reach_of_damages() {
        for (name, damage) in DAMAGES {
            let mut refused = 0;
            let mut dice = Dice(1);
            for _ in 0..100 {
                let mut dump = whole(&mut dice);
                while dump.lines.len() < dump.changes() + 4 {
                    dump = whole(&mut dice);
                }
                damage(&mut dice, &mut dump);
                refused += usize::from(wave::read(&dump.lines.concat()).is_err());
            }
            println!("{name}: {refused} of 100");
            let always = [
                "a leading zero",
                "a 95th variable",
                "the last line feed lost",
                "times that do not rise",
                "no variables",
                "a time without change",
                "no bit",
            ];
            if always.contains(&name) {
                assert_eq!(refused, 100, "{name}");
            } else {
                assert!(refused >= 40, "{name}: {refused}");
            }
        }
    }
}
