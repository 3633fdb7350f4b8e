//! The lists that commands replace.

use super::steps;
use super::text::{counted, lease, listed, sentence};
use crate::help::grouped;

/// What a list holds now; none if the line says it, or the word is that of no list.
pub fn replaced(word: &str, numbers: &[u32], boot: u32) -> Option<String> {
    let (name, each) = match word {
        "registry" => ("registry", 1),
        "held" => ("held list", 3),
        "keys" => ("list of keys", 2),
        "leases" => ("list to release", 3),
        "turns" => ("list of turns", 1),
        "counters" => ("list of counters", 1),
        "script" => ("script", 3),
        _ => return None,
    };
    if numbers.is_empty() && word != "script" {
        return Some(format!("The {name} is empty."));
    }
    if numbers.len() % each != 0 {
        let by = ["one", "two", "three"][each - 1];
        let numbers = counted(numbers.len(), "number");
        return Some(format!(
            "The {name} has {numbers}, which {by} does not divide."
        ));
    }
    match word {
        "script" => Some(steps::ahead(numbers)),
        "turns" => Some(format!(
            "The crew has {} to come.",
            counted(numbers.len(), "turn")
        )),
        "registry" => Some(registry(numbers)),
        "keys" => Some(keys(numbers)),
        "counters" => None,
        _ => {
            let leases = numbers.chunks_exact(3).map(|one| lease(one, boot));
            Some(format!("The {name} is {}.", listed(", ", leases)))
        }
    }
}

fn registry(headers: &[u32]) -> String {
    let each = |(at, header): (usize, &u32)| format!("binding {at} is header {}", grouped(*header));
    sentence(&listed(", ", headers.iter().enumerate().map(each)))
}

fn keys(numbers: &[u32]) -> String {
    let each = |key: &[u32]| format!("binding {} bucket {}", grouped(key[0]), grouped(key[1]));
    let keys = listed(", ", numbers.chunks_exact(2).map(each));
    match numbers.len() {
        2 => format!("The key is {keys}."),
        _ => format!("The keys are {keys}."),
    }
}
