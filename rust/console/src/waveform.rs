//! `dump` and `undump`: a history as a waveform, and back. docs/WAVE.md has their language.

use crate::build::Build;
use crate::line::number;

/// The longest input, in bytes.
pub const INPUT: usize = 2 * 1024 * 1024;
/// Room for steps: more than a history may have, so that the limit can be tried.
const STEPS: usize = 32_800;
/// No dump is longer.
const LONGEST: usize = 319_088;
/// Words of the longest history that a dump can have.
const READ: usize = 3 * 32_768;

/// What both print for a longer one, before anything else.
const TOO_LONG: &[u8] = b"input too long\n";

/// What `dump` prints. `N` or `N ROOM` is given, or it is the first line of the input.
pub fn dump(build: &mut impl Build, first: Option<&str>, input: &[u8]) -> Vec<u8> {
    if input.len() > INPUT {
        return TOO_LONG.to_vec();
    }
    let History {
        cells,
        room,
        script,
    } = match history(first, input) {
        Ok(history) => history,
        Err(line) => return format!("line {line}: not understood\n").into_bytes(),
    };
    let mut text = vec![0; room.min(LONGEST)];
    match build.write_dump(cells, &script, &mut text) {
        [0, size, _] => {
            text.truncate(size as usize);
            text
        }
        [1, number, _] => format!("refused {number} BadScript 0\n").into_bytes(),
        [2, ..] => b"refused TooWide\n".to_vec(),
        _ => b"refused NoRoom\n".to_vec(),
    }
}

/// The input of `dump`.
struct History {
    cells: u32,
    room: usize,
    script: Vec<u32>,
}

/// The first line is `N` or `N ROOM`, unless that is given, every other line a step; else the first line that is not
/// understood, which is also that of the first step that there is no room for. The last line may lack its line feed.
fn history(first: Option<&str>, input: &[u8]) -> Result<History, usize> {
    let mut lines = (1..).zip(
        input
            .split_inclusive(|&byte| byte == b'\n')
            .map(|line| line.strip_suffix(b"\n").unwrap_or(line)),
    );
    let (at, line) = match first {
        Some(given) => (0, given.as_bytes()),
        None => lines.next().ok_or(1usize)?,
    };
    let (cells, room) = match numbers(line).as_deref() {
        Some(&[cells]) => (cells, LONGEST),
        Some(&[cells, room]) => (cells, room as usize),
        _ => return Err(at),
    };
    let mut script = Vec::new();
    for (at, line) in lines {
        let step = numbers(line).filter(|step| step.len() == 3).ok_or(at)?;
        if script.len() / 3 == STEPS {
            return Err(at);
        }
        script.extend(step);
    }
    Ok(History {
        cells,
        room,
        script,
    })
}

/// The numbers of a line, with single spaces between them.
fn numbers(line: &[u8]) -> Option<Vec<u32>> {
    line.split(|&byte| byte == b' ').map(number).collect()
}

/// What `undump` prints.
pub fn undump(build: &mut impl Build, input: &[u8]) -> Vec<u8> {
    if input.len() > INPUT {
        return TOO_LONG.to_vec();
    }
    let mut script = vec![0; READ];
    match build.read_dump(input, &mut script) {
        [0, cells, steps] => {
            let mut text = format!("{cells}\n");
            for step in script[..3 * steps as usize].chunks_exact(3) {
                text.push_str(&format!("{} {} {}\n", step[0], step[1], step[2]));
            }
            text.into_bytes()
        }
        [4, line, _] => format!("refused BadLine {line}\n").into_bytes(),
        _ => b"refused NoRoom\n".to_vec(),
    }
}
