//! The counts of a call, told where they are not those of a quiet one: a call whose keys are taken, or refused, at
//! once.

use super::text::counted;
use super::Made;
use crate::build::Reply;
use crate::help::Given;

/// Attempts, boundaries and yields.
type Counts = (u64, u64, u64);

/// The counts, if they are unlike those of a quiet call.
pub fn unquiet(made: &Made, reply: &Reply) -> Option<String> {
    let counts = (reply[5], reply[6], reply[7]);
    let (attempts, boundaries, yields) = counts;
    // a refusal before the first step, a boundary by itself, a release: nothing else can come of them
    if !made.is_given(Given::Script) || attempts == 0 || is_quiet(made, reply, counts) {
        return None;
    }
    let mut text = format!(
        "It took {} and {}",
        counted(attempts as usize, "attempt"),
        counted(boundaries as usize, "boundary")
    );
    if yields > 0 {
        text.push_str(&format!(", with {}", counted(yields as usize, "yield")));
    }
    Some(text + ".")
}

fn is_quiet(made: &Made, reply: &Reply, counts: Counts) -> bool {
    let (attempts, boundaries, yields) = counts;
    match reply[9] {
        // all keys granted: every cell at its first attempt
        3 => {
            let mut cells: Vec<u32> = made
                .desk
                .grants
                .chunks_exact(3)
                .map(|lease| lease[0])
                .collect();
            cells.sort_unstable();
            cells.dedup();
            counts == (cells.len() as u64, 3 * cells.len() as u64, 0)
        }
        // refused at a key: three boundaries for each cell taken before it, and one behind its release
        6 => last_attempts(reply)
            .iter()
            .any(|&(last, at_last, yielded)| {
                attempts >= last
                    && boundaries == 4 * (attempts - last) + at_last
                    && yields == yielded
            }),
        _ => last_attempts(reply).contains(&counts),
    }
}

/// What a key or cell counts that is granted, Busy or refused at once; 11 counts 4,096 attempts of one kind.
fn last_attempts(reply: &Reply) -> Vec<Counts> {
    let (kind, refusal, reason) = (reply[9], reply[10], reply[13]);
    // the boundaries of a Busy attempt: held, waited for before, waited for after
    let busy = [2, 2, 1, 3][reason as usize % 4];
    match (kind, refusal) {
        (2, _) => vec![(1, 3, 0)],
        (4, _) => vec![(1, busy, 0)],
        (_, 6 | 8) => vec![(1, 0, 0)],
        (_, 7) => vec![(1, 0, 0), (1, 3, 0)],
        (_, 9 | 10) => vec![(1, 2, 0)],
        (_, 11) => vec![(4096, 4096 * busy + 4096 + 64, 64)],
        _ => Vec::new(),
    }
}
