//! A sentence or two for what a call answered.

use super::counts::unquiet;
use super::steps::meanwhile;
use super::text::{counted, listed, sentence};
use super::{books, crews, refusals, salvages, Made};
use crate::answer::{Answer, Answered};
use crate::build::Reply;
use crate::help::{grouped, Given};

/// What is told of a call.
pub fn sentences(made: &Made, answered: &Answered) -> Vec<String> {
    let mut told = match &answered.answer {
        Answer::Reply(reply) | Answer::Grants(reply) => replied(made, reply),
        Answer::Crew(reply) | Answer::Work(reply) => crews::sentences(made, reply),
        Answer::Salvage(reply) => salvages::sentences(made, reply),
        Answer::Book(reply) => vec![books::sentence(made, reply)],
    };
    told.extend(answered.trace.as_ref().map(|bits| traced(bits)));
    told
}

/// Of a call with counts: its answer, what others did meanwhile, and the counts of one that was not quiet.
fn replied(made: &Made, reply: &Reply) -> Vec<String> {
    let others = meanwhile(made, reply[8]);
    if made.entry.word.starts_with("environment") && reply[9] == 0 {
        let did = others.unwrap_or("nobody does anything".to_string());
        return vec![format!("One boundary: {did}.")];
    }
    let answer = match reply[9] {
        0 => done(made),
        1 => format!("The lease stands: {}.", holding(made)),
        2 => granted(made, reply),
        3 => all_granted(made),
        4 => busy(made, reply),
        _ => refusals::sentence(made, reply),
    };
    let meanwhile = others.map(|did| format!("Meanwhile {did}."));
    [meanwhile, Some(answer), unquiet(made, reply)]
        .into_iter()
        .flatten()
        .collect()
}

/// "cell 6 is held by serial 2", of the lease that was typed.
fn holding(made: &Made) -> String {
    let lease = made.lease();
    format!(
        "cell {} is held by serial {}",
        grouped(lease[0]),
        grouped(lease[1])
    )
}

fn done(made: &Made) -> String {
    let head = made.head();
    match made.entry.word {
        "prepare" => format!(
            "The arena is prepared: {} of {}, {}, all free; the next serial is {}, the boot number {}.",
            counted(head.headers as usize, "header"),
            counted(head.buckets as usize, "bucket"),
            counted((head.headers * head.buckets) as usize, "cell"),
            grouped(head.next),
            grouped(head.boot)
        ),
        "release_all" => match made.desk.leases.len() / 3 {
            0 => "There is no lease to give back.".to_string(),
            1 => "The lease is given back.".to_string(),
            count => format!("{} are given back, the last first.", counted(count, "lease")),
        },
        _ => {
            let lease = made.lease();
            format!("Serial {} gives cell {} back: it is free.", grouped(lease[1]), grouped(lease[0]))
        }
    }
}

/// "cell 9", or the cell of a key.
fn asked(made: &Made) -> String {
    match *made.numbers {
        [binding, bucket] => {
            let cell = made.cell_of(binding, bucket).unwrap_or_default();
            format!("key {binding} {bucket}, cell {},", grouped(cell))
        }
        _ => format!("cell {}", grouped(made.numbers[0])),
    }
}

fn granted(made: &Made, reply: &Reply) -> String {
    let (cell, serial) = (grouped(reply[10]), grouped(reply[11]));
    match made.entry.word {
        "release_then_handoff" | "foreign_release_between_attempts" => format!(
            "Cell {cell} changes hands: serial {} is released, serial {serial} is granted.",
            grouped(made.lease()[1])
        ),
        _ if made.is_given(Given::Registry) => format!(
            "Key {} {} is granted: cell {cell}, serial {serial}.",
            made.numbers[0], made.numbers[1]
        ),
        _ => format!("Cell {cell} is granted: serial {serial}."),
    }
}

/// The leases of a multi-lock stand in its buffer, key by key.
fn all_granted(made: &Made) -> String {
    let keys = made
        .desk
        .keys
        .chunks_exact(2)
        .zip(made.desk.grants.chunks_exact(3));
    let each = |(key, lease): (&[u32], &[u32])| {
        let [binding, bucket] = [key[0], key[1]];
        format!(
            "key {binding} {bucket} is cell {}, serial {}",
            grouped(lease[0]),
            grouped(lease[1])
        )
    };
    match keys.len() {
        0 => "Granted: there is no key, and nothing to take.".to_string(),
        1 => format!("The key is granted: {}.", listed("; ", keys.map(each))),
        count => format!(
            "{count} keys are granted: {}.",
            listed("; ", keys.map(each))
        ),
    }
}

fn busy(made: &Made, reply: &Reply) -> String {
    let serial = grouped(reply[14]);
    let reason = match reply[13] {
        1 => format!("serial {serial} holds it"),
        2 => "somebody waits for it".to_string(),
        _ => format!(
            "it was taken, and then somebody waited for it. It is given up again, and serial \
             {serial} stays spent"
        ),
    };
    sentence(&format!("{} is Busy: {reason}", asked(made)))
}

/// What a call did to the bits.
fn traced(bits: &[(usize, bool)]) -> String {
    let each = |&(cell, taken): &(usize, bool)| {
        format!(
            "that of cell {} is now {}",
            grouped(cell as u64),
            u8::from(taken)
        )
    };
    match bits {
        [] => "No bit changed.".to_string(),
        _ => format!("Bits: {}.", listed(", ", bits.iter().map(each))),
    }
}
