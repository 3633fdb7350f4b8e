//! The crew, at work or not.

use super::text::{counted, numbers};
use super::{refusals, Made};
use crate::build::CrewReply;
use crate::help::{grouped, Given};

pub fn sentences(made: &Made, reply: &CrewReply) -> Vec<String> {
    if reply[9] != 0 {
        let why = refusals::why(made, reply[10], reply[11]);
        return vec![refusals::numbered(reply[10], &why)];
    }
    let (moving, idle) = (reply[15] as usize, reply[16] as usize);
    let turns = counted(moving + idle, "turn");
    let mut told = vec![format!(
        "The crew had {turns}: {moving} moving, {idle} idle."
    )];
    let members = reply[17..33]
        .iter()
        .zip(&reply[33..])
        .zip(&made.desk.members);
    for (member, ((&taken, &released), &wanted)) in members.enumerate() {
        told.push(format!(
            "Member {member} {}.",
            progress(wanted as usize, taken as usize, released as usize)
        ));
    }
    if made.is_given(Given::Counters) {
        told.push(format!(
            "The counters are now {}.",
            numbers(&made.desk.counters)
        ));
    }
    told
}

/// What a member did in these turns.
fn progress(wanted: usize, taken: usize, released: usize) -> String {
    let all = match wanted {
        1 => "its cell".to_string(),
        _ => format!("all its {wanted} cells"),
    };
    match (wanted, taken, released) {
        (0, _, _) => "wants no cells".to_string(),
        (1, 0, _) => "did not get its cell".to_string(),
        (_, 0, _) => format!("took none of its {wanted} cells"),
        (_, _, 0) if taken == wanted => format!("took {all}"),
        (_, _, 0) => format!("took {taken} of its {wanted} cells"),
        _ if released == wanted => format!("held {all}, and is finished"),
        _ => format!("held {all}, and gave {released} back"),
    }
}

/// The limits come first, then the lists by member, then the turns.
pub fn bad_crew(made: &Made, at: usize) -> String {
    let desk = made.desk;
    let (members, total) = (desk.members.len(), desk.cells.len());
    if !(1..=16).contains(&members) {
        format!("a crew has 1 to 16 members, and here are {members}")
    } else if let Some(member) = desk.members.iter().position(|&cells| cells > 64) {
        format!(
            "member {member} wants {} cells, and 64 are the most",
            desk.members[member]
        )
    } else if total > 256 {
        format!("the members want {total} cells together, and 256 are the most")
    } else if desk.turns.len() > 65_536 {
        format!(
            "there are {} turns, and 65,536 are the most",
            grouped(desk.turns.len() as u64)
        )
    } else if is_bad_list(made, at) {
        format!("the cells of member {at} do not rise, or one of them is not in the arena")
    } else {
        let named = desk.turns.get(at).copied().unwrap_or_default();
        format!(
            "turn {at} names member {}, and the crew has {}, counted from 0",
            grouped(named),
            counted(members, "member")
        )
    }
}

/// A member's cells must rise strictly, and be cells of the arena.
fn is_bad_list(made: &Made, member: usize) -> bool {
    let (desk, head) = (made.desk, made.head());
    let Some(&count) = desk.members.get(member) else {
        return false;
    };
    let start: u32 = desk.members[..member].iter().sum();
    let list = &desk.cells[start as usize..(start + count) as usize];
    let rises = list.windows(2).all(|two| two[0] < two[1]);
    !rises || list.iter().any(|&cell| cell >= head.headers * head.buckets)
}
