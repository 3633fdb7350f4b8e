//! What a command does, where the typed line does not say it.

use super::lists;
use super::text::{counted, numbers as in_words};
use crate::desk::Desk;
use crate::help::{grouped, Entry};

/// A sentence, once the command has been played.
pub fn sentence(entry: &Entry, numbers: &[u32], desk: &Desk) -> Option<String> {
    let text = match (entry.word, numbers) {
        ("lend", []) => "Calls get what their head asks for.".to_string(),
        ("lend", &[words, bytes]) => format!(
            "From now on calls get {} and {}.",
            counted(words as usize, "table word"),
            counted(bytes as usize, "health byte")
        ),
        ("ram", _) => "Table, health and book are full of rubbish now.".to_string(),
        ("head", _) => head_in_force(desk),
        ("word" | "byte" | "book_byte" | "book", _) => stored(entry.word, numbers),
        ("place", &[place]) => {
            let place = grouped(place);
            format!("The next step of the script is number {place}, from 0.")
        }
        ("grants", &[words]) => room("The grant buffer", words, 3, "lease"),
        ("report", &[words]) => room("The report", words, 3, "change"),
        ("unconfirmed", &[words]) => room("The list of the cells left held", words, 1, "cell"),
        ("member", cells) => member(desk.members.len() - 1, cells),
        ("crewless", _) => "There are no members any more.".to_string(),
        ("trace", &[1]) => "From now on each call tells which bits it changed.".to_string(),
        ("trace", _) => "Calls no longer tell which bits they changed.".to_string(),
        _ => return lists::replaced(entry.word, numbers, desk.head.boot),
    };
    Some(text)
}

fn head_in_force(desk: &Desk) -> String {
    let head = desk.head;
    format!(
        "The head in force has {} of {}; its next serial is {}, its boot number {}.",
        counted(head.headers as usize, "header"),
        counted(head.buckets as usize, "bucket"),
        grouped(head.next),
        grouped(head.boot)
    )
}

/// What a member wants.
fn member(number: usize, cells: &[u32]) -> String {
    match cells {
        [] => format!("Member {number} wants no cells."),
        [cell] => format!("Member {number} wants cell {}.", grouped(*cell)),
        _ => format!("Member {number} wants cells {}.", in_words(cells)),
    }
}

/// What a stored number is part of.
fn stored(word: &str, numbers: &[u32]) -> String {
    match (word, numbers) {
        ("word", &[index, value]) => format!(
            "The {} of cell {} {} now {}.",
            ["bit", "owner", "waiters"][index as usize % 3],
            grouped(index / 3),
            ["is", "is", "are"][index as usize % 3],
            grouped(value)
        ),
        ("byte", &[header, value]) => format!(
            "The health of header {header} is now {value}: {}.",
            if value == 0 { "healthy" } else { "poisoned" }
        ),
        ("book", &[bytes]) => format!(
            "From now on calls get {} of the book.",
            counted(bytes as usize, "byte")
        ),
        (_, &[index, value]) => format!("Byte {} of the book is now {value}.", grouped(index)),
        _ => String::new(),
    }
}

/// How many entries a run of words has room for.
fn room(what: &str, words: u32, each: u32, entry: &str) -> String {
    format!(
        "{what} has room for {}.",
        counted((words / each) as usize, entry)
    )
}
