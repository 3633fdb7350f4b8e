//! The salvage: its report and its list.

use super::text::{counted, listed, numbers};
use super::{refusals, Made};
use crate::build::SalvageReply;
use crate::help::grouped;

pub fn sentences(made: &Made, reply: &SalvageReply) -> Vec<String> {
    let (changed, held) = match reply[4..] {
        [0, changed, held] => (changed as usize, held as usize),
        [_, number, _] if number > 100 => return vec![refusals::named(made, number)],
        [_, number, _] => {
            let why = refusals::why(made, number, 0);
            return vec![refusals::numbered(number, &why)];
        }
        _ => return Vec::new(),
    };
    let report = made.desk.report.chunks_exact(3).take(changed);
    let changes = match changed {
        0 => "Salvaged: nothing had to be changed.".to_string(),
        _ => format!(
            "Salvaged, with {}: {}.",
            counted(changed, "change"),
            listed(", ", report.map(|entry| change(made, entry)))
        ),
    };
    vec![changes, left_held(&made.desk.unconfirmed[..held])]
}

/// The cells of the list.
fn left_held(cells: &[u32]) -> String {
    match cells {
        [] => "No cell is left held.".to_string(),
        [cell] => {
            let cell = grouped(*cell);
            format!("Cell {cell} is left held, for its owner to confirm or to drop.")
        }
        _ => format!(
            "Cells left held, for their owners to confirm or to drop: {}.",
            numbers(cells)
        ),
    }
}

/// An entry of the report: place, old, new. Health places count on from the table's.
fn change(made: &Made, entry: &[u32]) -> String {
    let (place, old, new) = (entry[0] as usize, grouped(entry[1]), grouped(entry[2]));
    let (words, _) = made.desk.lent(made.desk.head);
    let what = match place.checked_sub(words) {
        Some(header) => format!("the health of header {header}"),
        None => format!(
            "the {} of cell {}",
            ["bit", "owner", "waiters"][place % 3],
            grouped((place / 3) as u64)
        ),
    };
    format!("{what} from {old} to {new}")
}

pub fn report_full(made: &Made) -> String {
    format!(
        "a report with room for {} and a list with room for {} cannot hold all entries; nothing \
         is changed",
        counted(made.desk.report.len() / 3, "change"),
        counted(made.desk.unconfirmed.len(), "cell")
    )
}
