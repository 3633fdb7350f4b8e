//! One sentence for each refusal: what it means for who called.

use super::text::{self, counted};
use super::Made;
use crate::answer::{name_of, NAMED, REFUSALS};
use crate::build::{Head, Reply};
use crate::help::{grouped, Given};
use crate::show::is_arena;

/// Of a call with counts.
pub fn sentence(made: &Made, reply: &Reply) -> String {
    let (kind, number, carried, position) = (reply[9], reply[10], reply[11], reply[12]);
    let why = match number {
        11 => out_of_patience(reply),
        _ => why(made, number, carried),
    };
    if kind == 6 {
        return at_a_key(made, number, position as usize, &why);
    }
    let mut told = numbered(number, &why);
    // one attempt, and its health was read after the third boundary
    if number == 7 && (reply[5], reply[6]) == (1, 3) {
        told.push_str(
            " That was seen when the cell was taken: it is given up again, and its serial stays \
             spent.",
        );
    }
    let released = ["release_then_handoff", "foreign_release_between_attempts"];
    if number == 10 && released.contains(&made.entry.word) {
        told.push_str(" The release stands.");
    }
    told
}

/// "Refused by 12, NotHeld: cell 6 is not held by serial 2."
pub fn numbered(number: u64, why: &str) -> String {
    let name = name_of(&REFUSALS, 1, number);
    format!("Refused by {number}, {name}: {why}.")
}

/// Multi-lock says which key is refused.
fn at_a_key(made: &Made, number: u64, position: usize, why: &str) -> String {
    let name = name_of(&REFUSALS, 1, number);
    let key = match made.desk.keys.chunks_exact(2).nth(position) {
        Some(key) => format!("key {} {}, position {position}", key[0], key[1]),
        None => format!("position {position}"),
    };
    format!("Refused at {key}, by {number}, {name}: {why}. No key is granted.")
}

/// Refusal 11 has the reason of the last attempt.
fn out_of_patience(reply: &Reply) -> String {
    let serial = grouped(reply[14]);
    let last = match reply[13] {
        1 => format!("serial {serial} holds the cell"),
        2 => "somebody waits for the cell".to_string(),
        _ => format!(
            "somebody waited for the cell when it had been taken; serial {serial} stays spent"
        ),
    };
    format!(
        "all {} attempts were Busy, the last because {last}",
        grouped(reply[11])
    )
}

/// What a refusal of document 01 says of this call; 11 has a reason, and stands above.
pub fn why(made: &Made, number: u64, carried: u64) -> String {
    let at = carried as usize;
    let carried = grouped(carried);
    match number {
        1 => bad_shape(made),
        2 => bad_script(made),
        3 => bad_held(made, at),
        4 => too_many(made),
        5 => bad_binding(made, at),
        6 => {
            let headers = counted(made.head().headers as usize, "header");
            format!("the registry leads to header {carried}, and the arena has {headers}")
        }
        7 => format!("header {carried} is poisoned, and gives no cell"),
        8 => invalid_bucket(made, &carried),
        9 => format!("the words of cell {carried} are those of neither a free nor a held cell"),
        10 => format!("cell {carried} is free, but no serial is left to give"),
        12 => not_held(made, at),
        13 => {
            let lease = text::lease(made.lease(), made.head().boot);
            format!("{lease} is in the held list, and so protected")
        }
        14 => format!(
            "the lease at position {carried} stands earlier in the list too; nothing is released"
        ),
        15 => super::crews::bad_crew(made, at),
        16 => stale_boot(made, at),
        _ => String::new(),
    }
}

/// By key it carries a bucket, by cell a cell.
fn invalid_bucket(made: &Made, carried: &str) -> String {
    let Head {
        headers, buckets, ..
    } = made.head();
    if made.is_given(Given::Registry) {
        let buckets = counted(buckets as usize, "bucket");
        format!("there is no bucket {carried}, since a header has {buckets}, counted from 0")
    } else {
        let cells = counted((headers * buckets) as usize, "cell");
        format!("there is no cell {carried}, since the arena has {cells}, counted from 0")
    }
}

fn bad_shape(made: &Made) -> String {
    let (head, desk) = (made.head(), made.desk);
    let (words, bytes) = desk.lent(head);
    // the true product, of a head that may be anything
    let cells = u128::from(head.headers) * u128::from(head.buckets);
    let asked = usize::try_from(3 * cells).unwrap_or(usize::MAX);
    let headers = head.headers as usize;
    if head == Head::default() && made.entry.word != "prepare" {
        "no arena is prepared, since the head in force is 0 0 0 0".to_string()
    } else if !is_arena(head, asked, headers) {
        "a head has 1 to 64 headers, 1 to 1,024 buckets each, at most 4,096 cells, and a serial \
         from 1 on"
            .to_string()
    } else if words != asked && !made.is_given(Given::NoTable) {
        format!(
            "it was lent {}, and {} are needed",
            counted(words, "table word"),
            grouped(asked as u64)
        )
    } else if bytes != headers && made.is_given(Given::Health) {
        format!(
            "it was lent {} for {}",
            counted(bytes, "health byte"),
            counted(headers, "header")
        )
    } else if desk.registry.len() > 64 && made.is_given(Given::Registry) {
        format!(
            "the registry has {} entries, and 64 are the most",
            desk.registry.len()
        )
    } else {
        format!(
            "it was given {} for {}",
            counted(desk.counters.len(), "counter"),
            counted(asked / 3, "cell")
        )
    }
}

fn bad_script(made: &Made) -> String {
    let steps = made.desk.script.len() / 3;
    if made.desk.script.len() % 3 != 0 {
        uneven("the script", made.desk.script.len(), "three")
    } else if steps > 32_768 {
        format!(
            "the script has {} steps, and 32,768 are the most",
            grouped(steps as u64)
        )
    } else {
        format!(
            "the place is {}, and the script has {}",
            grouped(made.place as u64),
            counted(steps, "step")
        )
    }
}

/// A list that ends inside an entry.
fn uneven(what: &str, words: usize, by: &str) -> String {
    format!(
        "{what} has {}, which {by} does not divide",
        counted(words, "number")
    )
}

fn bad_held(made: &Made, at: usize) -> String {
    let held = &made.desk.held;
    if held.len() % 3 != 0 {
        uneven("the held list", held.len(), "three")
    } else if held.len() / 3 > 64 {
        format!(
            "the held list has {} leases, and 64 are the most",
            held.len() / 3
        )
    } else {
        not_live("held list", held, at)
    }
}

/// The lease at a position of a list is not live.
fn not_live(list: &str, leases: &[u32], at: usize) -> String {
    let lease = leases.chunks_exact(3).nth(at).unwrap_or(&[0, 0, 0]);
    format!(
        "position {at} of the {list} is not live, since cell {} is not held by serial {}",
        grouped(lease[0]),
        grouped(lease[1])
    )
}

fn too_many(made: &Made) -> String {
    let desk = made.desk;
    let (held, keys, leases) = (desk.held.len() / 3, desk.keys.len() / 2, desk.leases.len());
    if made.is_given(Given::Leases) && leases % 3 != 0 {
        uneven("the list of leases", leases, "three")
    } else if made.is_given(Given::Leases) {
        format!("the list has {} leases, and 64 are the most", leases / 3)
    } else if desk.keys.len() % 2 != 0 {
        uneven("the list of keys", desk.keys.len(), "two")
    } else if held + keys > 64 {
        format!(
            "{} and {} are over 64 together",
            counted(held, "held lease"),
            counted(keys, "key")
        )
    } else {
        format!(
            "the grant buffer has {}, and for {} it must have {}",
            counted(desk.grants.len(), "word"),
            counted(keys, "key"),
            3 * keys
        )
    }
}

fn bad_binding(made: &Made, at: usize) -> String {
    let (binding, by) = match made.numbers {
        [binding, _] => (Some(binding), String::new()),
        _ => (
            made.desk.keys.get(2 * at),
            format!(" (key at position {at})"),
        ),
    };
    format!(
        "there is no binding {}{by}, since the registry has {} entries, counted from 0",
        grouped(*binding.unwrap_or(&0)),
        made.desk.registry.len()
    )
}

fn not_held(made: &Made, at: usize) -> String {
    if made.is_given(Given::Leases) {
        return format!(
            "{}; nothing is released",
            not_live("list", &made.desk.leases, at)
        );
    }
    let (cell, serial) = (grouped(made.lease()[0]), grouped(made.lease()[1]));
    if made.is_given(Given::Book) {
        let slot = grouped(made.numbers[0]);
        return format!("slot {slot} needs a live lease on cell {slot}, and cell {cell} by serial {serial} is none");
    }
    format!("cell {cell} is not held by serial {serial}")
}

/// The held list is looked at before the lease by itself.
fn stale_boot(made: &Made, at: usize) -> String {
    let boot = made.desk.head.boot;
    let (list, name) = match (made.is_given(Given::Held), made.is_given(Given::Leases)) {
        (true, _) => (made.desk.held.as_slice(), "held list"),
        (_, true) => (made.desk.leases.as_slice(), "list"),
        _ => (&[][..], ""),
    };
    let listed = list
        .chunks_exact(3)
        .nth(at)
        .filter(|lease| lease[2] != boot);
    let (of, which) = match listed {
        Some(lease) => (
            lease[2],
            format!("the lease at position {at} of the {name}"),
        ),
        None => (made.lease()[2], "the lease".to_string()),
    };
    format!(
        "{which} has boot number {}, and the head has {}",
        grouped(of),
        grouped(boot)
    )
}

/// A refusal without a number of document 01.
pub fn named(made: &Made, number: u64) -> String {
    let name = name_of(&NAMED, 101, number);
    let slot = grouped(*made.numbers.first().unwrap_or(&0));
    let why = match name {
        "BadSlot" => super::books::bad_slot(made),
        "NotFinite" => "the pressure is not finite, and is not written".to_string(),
        "DamagedBook" => "a line or a kept body of some slot fits no rule, or two bodies overlap; \
                          until the book is prepared again, nothing in it can be trusted"
            .to_string(),
        "VersionsSpent" => format!("slot {slot} is at version 4,294,967,295, the last"),
        "NeverWritten" => super::books::never_written(made),
        "BookFull" => "the kept settings leave fewer than 5 bytes; nothing is written, and none \
                       is dropped"
            .to_string(),
        _ => super::salvages::report_full(made),
    };
    format!("Refused as {name}: {why}.")
}
