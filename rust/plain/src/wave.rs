//! Document 02, L11: the bits of the first cells over a history, as a value change dump; and back.

use crate::rules::MOST_STEPS;

/// "n up to 94", one for each code.
pub const MOST_CELLS: usize = 94;
/// "Codes are the printable characters from `!` (33) up."
pub const FIRST_CODE: u8 = 33;
/// The longest input of the programs, in bytes.
pub const INPUT: usize = 2 * 1024 * 1024;
/// The room that `dump` has for steps. It is larger than the limit, so that the limit can be tried.
pub const STEP_ROOM: usize = 32_800;

/// The kinds of the steps that change a bit.
const TAKE: u32 = 1;
const RELEASE: u32 = 2;

/// A line feed stands behind every line.
const HEADER: &[u8] = b"$timescale 1 ns $end\n$scope module t $end\n";
const END_OF_HEADER: &[u8] = b"$upscope $end\n$enddefinitions $end\n#0\n";
const VARIABLE: &[u8] = b"$var wire 1 ";
const END_OF_VARIABLE: &[u8] = b" $end\n";

fn code(cell: usize) -> u8 {
    FIRST_CODE + cell as u8
}

/// The digits of a number, and how many there are. A number here is at most 32,768.
#[inline(always)]
fn digits(mut number: usize) -> ([u8; 5], usize) {
    let count = length_of(number);
    let mut digits = [0; 5];
    for digit in digits[..count].iter_mut().rev() {
        *digit = b'0' + (number % 10) as u8;
        number /= 10;
    }
    (digits, count)
}

/// How many digits a number has.
#[inline(always)]
fn length_of(number: usize) -> usize {
    1 + usize::from(number > 9)
        + usize::from(number > 99)
        + usize::from(number > 999)
        + usize::from(number > 9999)
}

// ---- The writer

/// Why there is no dump. The checks are made in this order.
#[derive(Clone, Copy, Debug, PartialEq, Eq)]
pub enum Refusal {
    /// Refusal 2: length no multiple of 3, or over 32,768 steps.
    BadScript,
    /// No cells or more than 94.
    TooWide,
    /// The buffer is too short for the whole dump.
    NoRoom,
}

/// Writes the dump of the first `cells` cells over the history that the script is, and gives its length. The length is
/// known first, so that a refusal writes nothing.
pub fn write_into(cells: u32, script: &[u32], text: &mut [u8]) -> Result<usize, Refusal> {
    if script.len() % 3 != 0 || script.len() / 3 > MOST_STEPS {
        return Err(Refusal::BadScript);
    }
    let cells = cells as usize;
    if cells == 0 || cells > MOST_CELLS {
        return Err(Refusal::TooWide);
    }
    let length = length(cells, script);
    let Some(text) = text.get_mut(..length) else {
        return Err(Refusal::NoRoom);
    };
    let mut rest = start(cells, text);
    changes(cells, script, |time, bit, cell| {
        let (digits, count) = digits(time);
        let (line, behind) = std::mem::take(&mut rest).split_at_mut(count + 5);
        line[0] = b'#';
        line[1..1 + count].copy_from_slice(&digits[..count]);
        line[1 + count..].copy_from_slice(&[b'\n', b'0' + u8::from(bit), code(cell), b'\n']);
        rest = behind;
    });
    Ok(length)
}

/// As [`write_into`], in a buffer of its own.
pub fn write(cells: u32, script: &[u32], room: usize) -> Result<String, Refusal> {
    let mut text = vec![0; room.min(LONGEST)];
    let length = write_into(cells, script, &mut text)?;
    text.truncate(length);
    Ok(String::from_utf8(text).expect("a dump is text"))
}

/// No dump is longer: 94 cells, and a change at each of 32,768 steps.
pub const LONGEST: usize = 319_088;

/// The length of a dump.
fn length(cells: usize, script: &[u32]) -> usize {
    let variables: usize = (0..cells)
        .map(|cell| VARIABLE.len() + 3 + length_of(cell) + END_OF_VARIABLE.len())
        .sum();
    let mut length = HEADER.len() + variables + END_OF_HEADER.len() + 3 * cells;
    changes(cells, script, |time, _, _| length += 5 + length_of(time));
    length
}

/// The lines before the first change; gives what is left of the text.
fn start(cells: usize, text: &mut [u8]) -> &mut [u8] {
    let mut rest = put(text, HEADER);
    for cell in 0..cells {
        let (digits, count) = digits(cell);
        rest = put(rest, VARIABLE);
        rest = put(rest, &[code(cell), b' ', b'c']);
        rest = put(rest, &digits[..count]);
        rest = put(rest, END_OF_VARIABLE);
    }
    rest = put(rest, END_OF_HEADER);
    for cell in 0..cells {
        rest = put(rest, &[b'0', code(cell), b'\n']);
    }
    rest
}

/// Writes these bytes in front; gives what is left.
fn put<'a>(text: &'a mut [u8], bytes: &[u8]) -> &'a mut [u8] {
    let (front, rest) = text.split_at_mut(bytes.len());
    front.copy_from_slice(bytes);
    rest
}

/// Shows each change: its time, the bit, the cell. The steps are "numbered from 1, from all bits 0". "a take sets its cell's
/// bit, a release clears it, any other step only counts", and so does a step on another cell than the first ones. Whether
/// the step is legal is not asked. "After `#0`, a time line stands only where a bit changed." One step changes at most
/// one bit.
#[inline(always)]
fn changes(cells: usize, script: &[u32], mut seen: impl FnMut(usize, bool, usize)) {
    let mut bits = [false; MOST_CELLS];
    let bits = &mut bits[..cells];
    for (time, step) in (1..).zip(script.chunks_exact(3)) {
        let (kind, cell) = (step[0], step[1] as usize);
        if kind != TAKE && kind != RELEASE {
            continue;
        }
        let taken = kind == TAKE;
        match bits.get_mut(cell) {
            Some(bit) if *bit != taken => {
                *bit = taken;
                seen(time, taken, cell);
            }
            _ => {}
        }
    }
}

// ---- The reader

/// What a dump says.
#[derive(Clone, Debug, PartialEq, Eq)]
pub struct Reading {
    pub cells: usize,
    /// Takes and releases up to the last change; other steps and the number words are 0.
    pub script: Vec<u32>,
}

/// What was read into a lent buffer: the cells, and the steps up to the last change.
#[derive(Clone, Copy, Debug, PartialEq, Eq)]
pub struct Read {
    pub cells: usize,
    pub steps: usize,
}

/// Why nothing was read.
#[derive(Clone, Copy, Debug, PartialEq, Eq)]
pub enum NotRead {
    /// Its first wrong line.
    BadLine(usize),
    /// The buffer is too short for the whole reading.
    NoRoom,
}

/// As [`read_into`], into a buffer of its own.
pub fn read(text: &[u8]) -> Result<Reading, usize> {
    let mut script = vec![0; 3 * MOST_STEPS];
    match read_into(text, &mut script) {
        Ok(Read { cells, steps }) => {
            script.truncate(3 * steps);
            Ok(Reading { cells, script })
        }
        Err(NotRead::BadLine(line)) => Err(line),
        Err(NotRead::NoRoom) => unreachable!("there is room for every reading"),
    }
}

/// "The reader takes only what the writer could have written; anything else is refused with its first wrong line, from
/// 1": the first line such that no dump begins with the lines up to it. If the text stops too early, that is the line
/// which is missing. All is tested before the first word is written.
pub fn read_into(text: &[u8], script: &mut [u32]) -> Result<Read, NotRead> {
    let (cells, changes, line) = read_start(text).map_err(NotRead::BadLine)?;
    let steps = check_changes(cells, changes, line).map_err(NotRead::BadLine)?;
    let Some(script) = script.get_mut(..3 * steps) else {
        return Err(NotRead::NoRoom);
    };
    script.fill(0);
    let mut rest = changes;
    while let Some((time, value, behind)) = change_of(rest, 0).ok().flatten() {
        let kind = if value[0] == b'1' { TAKE } else { RELEASE };
        let at = 3 * (time - 1);
        script[at] = kind;
        script[at + 1] = u32::from(value[1] - FIRST_CODE);
        rest = behind;
    }
    Ok(Read { cells, steps })
}

/// The lines before the first change: how many cells there are, the text behind them, and the number of the next line.
fn read_start(text: &[u8]) -> Result<(usize, &[u8], usize), usize> {
    let mut line = 1;
    let mut rest = text;
    for wanted in HEADER.split_inclusive(|&byte| byte == b'\n') {
        rest = rest.strip_prefix(wanted).ok_or(line)?;
        line += 1;
    }
    let mut cells = 0;
    while let Some(behind) = variable(rest, cells).filter(|_| cells < MOST_CELLS) {
        rest = behind;
        cells += 1;
        line += 1;
    }
    if cells == 0 {
        return Err(line);
    }
    for wanted in END_OF_HEADER.split_inclusive(|&byte| byte == b'\n') {
        rest = rest.strip_prefix(wanted).ok_or(line)?;
        line += 1;
    }
    for cell in 0..cells {
        rest = rest.strip_prefix(&[b'0', code(cell), b'\n']).ok_or(line)?;
        line += 1;
    }
    Ok((cells, rest, line))
}

/// The text behind the variable of this cell, if it stands in front.
fn variable(text: &[u8], cell: usize) -> Option<&[u8]> {
    let (digits, count) = digits(cell);
    text.strip_prefix(VARIABLE)?
        .strip_prefix(&[code(cell), b' ', b'c'])?
        .strip_prefix(&digits[..count])?
        .strip_prefix(END_OF_VARIABLE)
}

/// The time lines, each with the change behind it, to the end of the text; gives the last time. The first has this number.
fn check_changes(cells: usize, text: &[u8], first: usize) -> Result<usize, usize> {
    let mut bits = [b'0'; MOST_CELLS];
    let bits = &mut bits[..cells];
    let (mut rest, mut line, mut last) = (text, first, 0);
    loop {
        let found = change_of(rest, last).map_err(|late| line + late)?;
        let Some((time, value, behind)) = found else {
            return Ok(last);
        };
        match bits.get_mut(usize::from(value[1].wrapping_sub(FIRST_CODE))) {
            Some(bit) if *bit ^ 1 == value[0] => *bit = value[0],
            _ => return Err(line + 1),
        }
        (rest, line, last) = (behind, line + 2, time);
    }
}

/// `#`, a number without leading zeros that is later than the last one, and the line behind it, of two bytes; and what is
/// left. None at the end of the text. An error is 0 where the time line is wrong, and 1 where the one behind it is. A
/// number of more than five digits is too great.
#[inline(always)]
#[allow(clippy::type_complexity)]
fn change_of(text: &[u8], last: usize) -> Result<Option<(usize, [u8; 2], &[u8])>, usize> {
    let [b'#', rest @ ..] = text else {
        return if text.is_empty() { Ok(None) } else { Err(0) };
    };
    let mut time = 0;
    let mut count = 0;
    while let Some(digit) = rest.get(count).map(|byte| byte.wrapping_sub(b'0')) {
        if digit > 9 || count == 5 {
            break;
        }
        time = 10 * time + usize::from(digit);
        count += 1;
    }
    let is_number = count > 0 && rest[0] != b'0' && rest.get(count) == Some(&b'\n');
    if !is_number || time <= last || time > MOST_STEPS {
        return Err(0);
    }
    match rest[count + 1..] {
        [bit, code, b'\n', ref behind @ ..] => Ok(Some((time, [bit, code], behind))),
        _ => Err(1),
    }
}

#[cfg(test)]
mod tests {
    use super::*;
    use console::dice::Dice;
    use console::waveform;
    use std::collections::BTreeSet;

    /// The bench's `dump`, as this build answers it.
    fn dump(input: &[u8]) -> String {
        let text = waveform::dump(&mut crate::Plain, None, input);
        String::from_utf8(text).expect("it prints text")
    }

    /// And its `undump`.
    fn undump(input: &[u8]) -> String {
        let text = waveform::undump(&mut crate::Plain, input);
        String::from_utf8(text).expect("it prints text")
    }

    /// Document 02: two cells, cell 0 taken at step 1.
    const EXAMPLE: &str = "$timescale 1 ns $end
$scope module t $end
$var wire 1 ! c0 $end
$var wire 1 \" c1 $end
$upscope $end
$enddefinitions $end
#0
0!
0\"
#1
1!
";
    const UPSCOPE: &str = "$upscope $end";
    const ANY: usize = usize::MAX;

    fn written(cells: u32, script: &[u32]) -> String {
        write(cells, script, ANY).expect("a good history")
    }

    /// The lines behind those that every dump of so many cells begins with.
    fn changes(cells: u32, script: &[u32]) -> String {
        let text = written(cells, script);
        let start = written(cells, &[]);
        text.strip_prefix(&start)
            .expect("the same start")
            .to_string()
    }

    /// The bits after each step.
    fn bits(cells: usize, script: &[u32]) -> Vec<Vec<bool>> {
        let mut now = vec![false; cells];
        let mut all = Vec::new();
        for step in script.chunks(3) {
            for (cell, bit) in now.iter_mut().enumerate() {
                if step[1] as usize == cell && (step[0] == 1 || step[0] == 2) {
                    *bit = step[0] == 1;
                }
            }
            all.push(now.clone());
        }
        all
    }

    fn random_script(dice: &mut Dice, cells: u32, steps: usize) -> Vec<u32> {
        (0..steps)
            .flat_map(|_| {
                let kind = dice.pick(&[0, 1, 1, 1, 2, 2, 2, 3, 4, 5, 6, u32::MAX]);
                [kind, dice.number(cells + 2), dice.odd_number()]
            })
            .collect()
    }

    #[test]
    fn document_02_s_example() {
        assert_eq!(written(2, &[1, 0, 7]), EXAMPLE);
        assert_eq!(dump(b"2\n1 0 0\n"), EXAMPLE);
        assert_eq!(undump(EXAMPLE.as_bytes()), "2\n1 0 0\n");
    }

    #[test]
    fn codes() {
        let text = written(94, &[1, 93, 0]);
        let lines: Vec<&str> = text.lines().collect();
        assert_eq!(lines[2], "$var wire 1 ! c0 $end");
        assert_eq!(lines[95], "$var wire 1 ~ c93 $end");
        assert_eq!(lines[96], UPSCOPE);
        assert_eq!(lines[99], "0!");
        assert_eq!(lines[192], "0~");
        assert_eq!(lines[193..], ["#1", "1~"]);
    }

    #[test]
    fn a_time_line_only_where_a_bit_changed() {
        // taken again, released again, cells beyond, other kinds, any number
        let script = [
            2, 0, 1, 1, 0, 0, 1, 0, 9, 0, 0, 0, 3, 0, 1, 4, 0, 1, 5, 0, 0, 6, 0, 0, 1, 1, 0, 1, 2,
            0, 2, 2, 0, 2, 0, 77, 2, 0, 77, 1, 4294967295, 0, 2, 1, 0,
        ];
        assert_eq!(changes(2, &script), "#2\n1!\n#9\n1\"\n#12\n0!\n#15\n0\"\n");
        assert_eq!(changes(1, &script), "#2\n1!\n#12\n0!\n");
        assert_eq!(changes(3, &script[24..33]), "#1\n1\"\n#2\n1#\n#3\n0#\n");
        assert_eq!(changes(1, &[]), "");
    }

    #[test]
    fn refusals_of_the_writer() {
        let most = [0; 3 * MOST_STEPS];
        let more = [0; 3 * MOST_STEPS + 3];
        assert_eq!(write(1, &most, ANY), Ok(written(1, &[])));
        assert_eq!(write(1, &more, ANY), Err(Refusal::BadScript));
        assert_eq!(write(1, &[1, 0], ANY), Err(Refusal::BadScript));
        assert_eq!(write(0, &[], ANY), Err(Refusal::TooWide));
        assert_eq!(write(95, &[], ANY), Err(Refusal::TooWide));
        assert_eq!(write(u32::MAX, &[], ANY), Err(Refusal::TooWide));
        assert_eq!(write(2, &[1, 0, 0], EXAMPLE.len()), Ok(EXAMPLE.to_string()));
        assert_eq!(
            write(2, &[1, 0, 0], EXAMPLE.len() - 1),
            Err(Refusal::NoRoom)
        );
        // in this order
        assert_eq!(write(0, &more, 0), Err(Refusal::BadScript));
        assert_eq!(write(0, &[], 0), Err(Refusal::TooWide));
    }

    /// The text, one way or another damaged, and its first wrong line.
    fn wrong(text: &str, line: usize) {
        assert_eq!(read(text.as_bytes()), Err(line), "{text:?}");
        assert_eq!(undump(text.as_bytes()), format!("refused BadLine {line}\n"));
    }

    #[test]
    fn early_stops() {
        let lines: Vec<&str> = EXAMPLE.split_inclusive('\n').collect();
        for stop in 0..lines.len() {
            let text = lines[..stop].concat();
            match stop {
                9 => assert_eq!(undump(text.as_bytes()), "2\n"),
                _ => wrong(&text, stop + 1),
            }
            // a last line without its line feed is wrong itself
            for length in 1..lines[stop].len() {
                wrong(&(text.clone() + &lines[stop][..length]), stop + 1);
            }
        }
    }

    #[test]
    fn wrong_lines() {
        // what stands in the example's place of a line, and that line
        for (line, old, new) in [
            (1, "$timescale 1 ns", "$timescale 1 us"),
            (1, "$timescale", " $timescale"),
            (2, "module t $end", "module t  $end"),
            (3, "c0", "c1"),
            (3, "c0 $end", "c0 $end\r"),
            (3, "! c0", "# c0"),
            (3, "$var wire 1 ! c0 $end\n$var wire 1 \" c1 $end\n", ""),
            (3, "wire 1 !", "wire 2 !"),
            (4, "\" c1", "\" c01"),
            (4, "$var wire 1 \" c1 $end", "$var wire 1 ! c0 $end"),
            (5, "$upscope $end", "$upscope $END"),
            (5, "$upscope $end\n", ""),
            (6, "$enddefinitions $end", "$enddefinitions  $end"),
            (7, "#0", "#1"),
            (7, "#0", "#00"),
            (8, "0!", "1!"),
            (8, "0!\n0\"", "0\"\n0!"),
            (9, "0\"\n", ""),
            (10, "#1", "#0"),
            (10, "#1", "#01"),
            (10, "#1", "#07"),
            (10, "#1", "#32769"),
            (10, "#1", "#4294967297"),
            (10, "#1", "#18446744073709551617"),
            (10, "#1", "#"),
            (10, "#1", "#-1"),
            (10, "#1", "# 1"),
            (10, "#1", "#1 "),
            (10, "#1", "#1\r"),
            (10, "#1", "1"),
            (10, "#1\n", ""),
            (10, "#1", ""),
            (11, "1!", "0!"),
            (11, "1!", "1#"),
            (11, "1!", "x!"),
            (11, "1!", "b1 !"),
            (11, "1!", "1 !"),
            (11, "1!", "1"),
            (11, "1!", ""),
            (11, "1!", "#2"),
            (12, "1!\n", "1!\n\n"),
            (12, "1!\n", "1!\n1\"\n"),
            (12, "1!\n", "1!\n#1\n1\"\n"),
            (13, "1!\n", "1!\n#2\n1!\n"),
            (13, "1!\n", "1!\n#2\n"),
        ] {
            // the last place: no text of a later line stands earlier
            let at = EXAMPLE.rfind(old).expect("a part of the example");
            let text = [&EXAMPLE[..at], new, &EXAMPLE[at + old.len()..]].concat();
            wrong(&text, line);
        }
        assert_eq!(read(b"$timescale 1 ns $end\n\xff\n"), Err(2));
    }

    #[test]
    fn the_greatest_times_and_numbers_of_cells() {
        let late = EXAMPLE.replace("#1\n", "#32768\n");
        assert_eq!(
            read(late.as_bytes()).map(|reading| reading.script.len()),
            Ok(3 * 32_768)
        );
        let most = written(94, &[]);
        assert_eq!(read(most.as_bytes()).map(|reading| reading.cells), Ok(94));
        let more = most.replace(UPSCOPE, "$var wire 1 \u{7f} c94 $end\n$upscope $end");
        wrong(&more, 97);
        // the 95th initial value
        wrong(&(most.clone() + "0\u{7f}\n"), 194);
        wrong(&(most + "#1\n1\u{7f}\n"), 195);
    }

    #[test]
    fn what_was_written_reads_back() {
        let mut dice = Dice(11);
        for round in 0..200 {
            let cells = match round {
                0 => 94,
                _ => dice.number(94) + 1,
            };
            let steps = match round {
                0 => MOST_STEPS,
                _ => dice.below(400),
            };
            let script = random_script(&mut dice, cells, steps);
            let text = written(cells, &script);
            let reading = read(text.as_bytes()).expect("a dump");
            assert_eq!(reading.cells, cells as usize);
            // the same bits at the same step numbers
            let (old, new) = (
                bits(reading.cells, &script),
                bits(reading.cells, &reading.script),
            );
            assert!(new.len() <= old.len() && old[..new.len()] == new[..]);
            // and no change behind the last step of the reading, which is a change itself
            let last = new.last().cloned().unwrap_or(vec![false; reading.cells]);
            assert!(old[new.len()..].iter().all(|later| *later == last));
            let length = reading.script.len();
            assert!(length == 0 || reading.script[length - 3] != 0);
            for step in reading.script.chunks(3) {
                assert!(step[0] <= 2 && step[2] == 0 && (step[0] != 0 || step[1] == 0));
            }
            // and the same text
            assert!(written(cells, &reading.script) == text);
        }
    }

    /// All dumps of one or two cells over up to three steps; damaged ones are refused with the least k such that no
    /// dump begins with lines 1 to k.
    #[test]
    fn the_first_wrong_line_of_small_texts() {
        let steps = [[0, 0, 0], [1, 0, 0], [1, 1, 0], [2, 0, 0], [2, 1, 0]];
        let mut dumps = BTreeSet::new();
        for choice in 0..125 {
            let script = [steps[choice % 5], steps[choice / 5 % 5], steps[choice / 25]].concat();
            dumps.extend([written(1, &script), written(2, &script)].map(String::into_bytes));
        }
        let mut beginnings = BTreeSet::new();
        for dump in &dumps {
            let lines: Vec<&[u8]> = dump.split_inclusive(|&byte| byte == b'\n').collect();
            beginnings.extend((0..=lines.len()).map(|count| lines[..count].concat()));
        }
        let pool: Vec<&Vec<u8>> = dumps.iter().collect();
        let mut dice = Dice(12);
        let mut judged = 0;
        for _ in 0..20_000 {
            let mut text = dice.pick(&pool).clone();
            for _ in 0..dice.below(3) {
                damage(&mut dice, &mut text);
            }
            let lines: Vec<&[u8]> = text.split_inclusive(|&byte| byte == b'\n').collect();
            // of later steps and more cells nothing is known here
            let known = |line: &&[u8]| {
                let line = line.strip_suffix(b"\n").unwrap_or(line);
                match line.strip_prefix(b"#") {
                    Some(time) => time.len() <= 1 && time <= b"3",
                    None => line != b"$var wire 1 # c2 $end",
                }
            };
            if !lines.iter().all(known) {
                continue;
            }
            judged += 1;
            let first =
                (1..=lines.len()).find(|&count| !beginnings.contains(&lines[..count].concat()));
            let expected = match first {
                Some(line) => Err(line),
                None if dumps.contains(&text) => Ok(()),
                None => Err(lines.len() + 1),
            };
            assert_eq!(
                read(&text).map(|_| ()),
                expected,
                "{}",
                String::from_utf8_lossy(&text)
            );
        }
        assert!(judged > 15_000, "{judged}");
    }

    /// A byte or a line lost, doubled, or another.
    fn damage(dice: &mut Dice, text: &mut Vec<u8>) {
        let mut lines: Vec<Vec<u8>> = text
            .split_inclusive(|&byte| byte == b'\n')
            .map(<[u8]>::to_vec)
            .collect();
        let (at, other) = (dice.below(text.len()), dice.below(lines.len()));
        let line = dice.below(lines.len());
        match dice.below(7) {
            0 if !text.is_empty() => text[at] = dice.pick(b"\n!\"#0123 "),
            1 if !text.is_empty() => {
                text.remove(at);
            }
            2 => text.insert(at, dice.pick(b"\n!\"#0123 ")),
            3 => text.truncate(at),
            kind if !lines.is_empty() => {
                match kind {
                    4 => lines.swap(line, other),
                    5 => lines.insert(line, lines[other].clone()),
                    _ => {
                        lines.remove(line);
                    }
                }
                *text = lines.concat();
            }
            _ => {}
        }
    }

    #[test]
    fn inputs_of_dump() {
        let (one, start) = (written(1, &[1, 0, 0]), written(1, &[]));
        let (one, start) = (one.as_str(), start.as_str());
        for (input, expected) in [
            ("", "line 1: not understood\n"),
            ("\n", "line 1: not understood\n"),
            ("1", start),
            ("1\n", start),
            ("1\n1 0 0", one),
            ("1\n1 0 0\n", one),
            ("1\n1 0 0\n\n", "line 3: not understood\n"),
            ("1\n\n1 0 0\n", "line 2: not understood\n"),
            ("1\n# a remark\n", "line 2: not understood\n"),
            ("#\n1\n", "line 1: not understood\n"),
            ("1\n1 0\n", "line 2: not understood\n"),
            ("1\n1 0 0 0\n", "line 2: not understood\n"),
            ("1\n1  0 0\n", "line 2: not understood\n"),
            ("1\n1 0 0 \n", "line 2: not understood\n"),
            ("1\n1 0 0\r\n", "line 2: not understood\n"),
            ("1\n01 0 0\n", "line 2: not understood\n"),
            ("1\n1 0 4294967296\n", "line 2: not understood\n"),
            ("1\n1 0 4294967295\n", one),
            ("1\nx\ny\n", "line 2: not understood\n"),
            ("01\n", "line 1: not understood\n"),
            ("1 2 3\n", "line 1: not understood\n"),
            ("1 \n", "line 1: not understood\n"),
            ("4294967296\n", "line 1: not understood\n"),
            ("0\n", "refused TooWide\n"),
            ("0 0\n1 0 0\n", "refused TooWide\n"),
            ("95\n", "refused TooWide\n"),
            ("95\nx\n", "line 2: not understood\n"),
            ("1 0\n", "refused NoRoom\n"),
            ("1 4294967295\n1 0 0\n", one),
        ] {
            assert_eq!(dump(input.as_bytes()), expected, "{input:?}");
        }
        let exact = format!("1 {}\n1 0 0\n", one.len());
        assert_eq!(dump(exact.as_bytes()), one);
        let short = format!("1 {}\n1 0 0\n", one.len() - 1);
        assert_eq!(dump(short.as_bytes()), "refused NoRoom\n");
    }

    #[test]
    fn many_steps() {
        let input = |steps: usize| format!("1\n{}", "0 0 0\n".repeat(steps)).into_bytes();
        assert_eq!(dump(&input(32_768)), written(1, &[]));
        assert_eq!(dump(&input(32_769)), "refused 2 BadScript 0\n");
        assert_eq!(dump(&input(32_800)), "refused 2 BadScript 0\n");
        assert_eq!(dump(&input(32_801)), "line 32802: not understood\n");
        assert_eq!(dump(&input(40_000)), "line 32802: not understood\n");
        let wide = String::from_utf8(input(32_769))
            .expect("text")
            .replacen('1', "0 0", 1);
        assert_eq!(dump(wide.as_bytes()), "refused 2 BadScript 0\n");
    }

    #[test]
    fn the_longest_input() {
        let long = vec![b'x'; INPUT];
        assert_eq!(dump(&long), "line 1: not understood\n");
        assert_eq!(undump(&long), "refused BadLine 1\n");
        let longer = vec![b'\n'; INPUT + 1];
        assert_eq!(dump(&longer), "input too long\n");
        assert_eq!(undump(&longer), "input too long\n");
    }
}
