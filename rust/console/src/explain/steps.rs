//! The steps of others, ahead and done.

use super::text::listed;
use super::Made;
use crate::help::{grouped, Given};

/// The step that ends a boundary.
const END: u32 = 5;

/// What a script holds, boundary by boundary.
pub fn ahead(script: &[u32]) -> String {
    let steps: Vec<&[u32]> = script.chunks_exact(3).collect();
    let boundaries = steps.split_inclusive(|step| step[0] == END).enumerate();
    let tries = boundaries.filter_map(|(at, steps)| tried(at, steps));
    let tries: Vec<String> = tries.collect();
    match tries.len() {
        0 => "Others will do nothing.".to_string(),
        _ => format!("Others will try {}.", listed("; ", tries.into_iter())),
    }
}

/// What others try at a boundary, counted from 0; none if it is quiet.
fn tried(at: usize, steps: &[&[u32]]) -> Option<String> {
    let acts = steps.iter().filter(|step| step[0] != END);
    let acts: Vec<String> = acts.map(|step| will(step)).collect();
    let when = match at {
        0 => "at the next boundary".to_string(),
        _ => format!("at boundary {}", grouped(at as u64 + 1)),
    };
    (!acts.is_empty()).then(|| format!("{when} to {}", listed(", to ", acts.into_iter())))
}

fn will(step: &[u32]) -> String {
    let (place, number) = (grouped(step[1]), grouped(step[2]));
    match (step[0], step[2]) {
        (0, _) => "look on".to_string(),
        (1, _) => format!("take cell {place}"),
        (2, _) => format!("release cell {place} of serial {number}"),
        (3, _) => format!("set the waiters of cell {place} to {number}"),
        (4, 0) => format!("set header {place} healthy"),
        (4, 1) => format!("poison header {place}"),
        (4, _) => format!("set the health of header {place} to {number}"),
        (kind, _) => format!("do a step of kind {}, which is none", grouped(kind)),
    }
}

/// A step that was legal.
fn did(step: &[u32]) -> String {
    let (place, number) = (grouped(step[1]), grouped(step[2]));
    match (step[0], step[2]) {
        (0, _) => "somebody looked on".to_string(),
        (1, _) => format!("somebody took cell {place}"),
        (2, _) => format!("serial {number} gave cell {place} back"),
        (3, _) => format!("the waiters of cell {place} were set to {number}"),
        (_, 0) => format!("header {place} was set healthy"),
        _ => format!("header {place} was poisoned"),
    }
}

/// What others did during a call; none if they did nothing.
pub fn meanwhile(made: &Made, dropped: u64) -> Option<String> {
    if !made.is_given(Given::Script) {
        return None;
    }
    let script = &made.desk.script;
    let ran = script.get(3 * made.place..3 * made.desk.place)?;
    let acts: Vec<&[u32]> = ran.chunks_exact(3).filter(|step| step[0] != END).collect();
    let count = acts.len() as u64;
    match (count, dropped) {
        (0, _) => None,
        (_, 0) => Some(listed(", then ", acts.into_iter().map(did))),
        (1, 1) => Some("others tried 1 step, which was not legal and was dropped".to_string()),
        _ if dropped == count => Some(format!(
            "others tried {} steps; none was legal, and all were dropped",
            grouped(count)
        )),
        _ => Some(format!(
            "others tried {} steps; {} of them {} not legal, and dropped",
            grouped(count),
            grouped(dropped),
            if dropped == 1 { "was" } else { "were" }
        )),
    }
}
