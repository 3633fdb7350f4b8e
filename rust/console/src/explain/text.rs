//! Words of a sentence: numbers, lists, leases.

use crate::help::grouped;

/// Entries of a list that are told one by one.
const TOLD: usize = 12;
/// Letters of a line.
const WIDE: usize = 112;

/// "1 cell", "2 cells", "no cells"; "2 boundaries".
pub fn counted(count: usize, what: &str) -> String {
    let many = match what.strip_suffix("ry") {
        Some(stem) => format!("{stem}ries"),
        None => format!("{what}s"),
    };
    match count {
        0 => format!("no {many}"),
        1 => format!("1 {what}"),
        _ => format!("{} {many}", grouped(count as u64)),
    }
}

/// The entries, and of a long list the first and how many there are.
pub fn listed(between: &str, entries: impl ExactSizeIterator<Item = String>) -> String {
    let count = entries.len();
    let told: Vec<String> = entries.take(TOLD).collect();
    let mut text = told.join(between);
    if count > TOLD {
        text.push_str(&format!(", and so on, {} in all", grouped(count as u64)));
    }
    text
}

/// Numbers, and of a long list the first and how many there are.
pub fn numbers<T: Copy + Into<u64>>(list: &[T]) -> String {
    listed(", ", list.iter().map(|&number| grouped(number)))
}

/// "cell 6 by serial 2"; a boot number that is not the head's is told too.
pub fn lease(lease: &[u32], boot: u32) -> String {
    let mut text = format!("cell {} by serial {}", grouped(lease[0]), grouped(lease[1]));
    if lease[2] != boot {
        text.push_str(&format!(" of boot {}", grouped(lease[2])));
    }
    text
}

/// A pressure by its bits: the shortest decimal that is it.
pub fn bar(bits: u32) -> String {
    let bar = f32::from_bits(bits);
    if bar == 0.0 || !bar.is_finite() || (1e-4..1e9).contains(&bar.abs()) {
        format!("{bar} bar")
    } else {
        format!("{bar:e} bar")
    }
}

/// A sentence: its first letter is made a capital, and it ends with a full stop.
pub fn sentence(text: &str) -> String {
    let mut letters = text.chars();
    let first = letters.next().map(|letter| letter.to_ascii_uppercase());
    first.into_iter().chain(letters).chain(['.']).collect()
}

/// The lines of a text, none longer than a page is wide unless a word is.
pub fn wrapped(text: &str) -> Vec<String> {
    let mut lines = vec![String::new()];
    for word in text.split(' ') {
        let last = lines.len() - 1;
        if lines[last].is_empty() {
            lines[last].push_str(word);
        } else if lines[last].chars().count() + 1 + word.chars().count() <= WIDE {
            lines[last] = format!("{} {word}", lines[last]);
        } else {
            lines.push(word.to_string());
        }
    }
    lines
}
