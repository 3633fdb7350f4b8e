//! The two sides. A side makes a call with what lies on the desk, and shows its reply to the watch where the call left
//! it; nothing is copied, and nothing is read that the watch does not read.

use crate::desk::Desk;
use std::hint::black_box;

/// A reply told: its words as include/skid.h lays them out, and its counts for people.
pub struct Told {
    pub words: Vec<u64>,
    pub counts: String,
}

/// What becomes of the replies.
pub trait Watch {
    fn see<R>(&mut self, reply: &R, told: fn(&R) -> Told);
}

/// They are written to memory, and that is all.
pub struct Blind;

impl Watch for Blind {
    #[inline(always)]
    fn see<R>(&mut self, reply: &R, _told: fn(&R) -> Told) {
        black_box(reply);
    }
}

/// The last one is kept.
pub struct Kept(pub Option<Told>);

impl Watch for Kept {
    fn see<R>(&mut self, reply: &R, told: fn(&R) -> Told) {
        self.0 = Some(told(reply));
    }
}

macro_rules! calls {
    ($($call:ident $kind:ident;)*) => {
        pub trait Side {
            $(fn $call(desk: &mut Desk, watch: &mut impl Watch);)*
        }

        /// A call of either side, as a type: the loop around it is compiled for it.
        pub trait Call {
            fn call<S: Side>(desk: &mut Desk, watch: &mut impl Watch);
        }

        $(
            pub struct $kind;

            impl Call for $kind {
                #[inline(always)]
                fn call<S: Side>(desk: &mut Desk, watch: &mut impl Watch) {
                    S::$call(desk, watch)
                }
            }
        )*
    };
}
calls! {
    prepare Prepare;
    drop_lease DropLease;
    drop_preserving_borrows DropPreservingBorrows;
    environment Environment;
    try_lock TryLock;
    transactional_try_lock_bucket TransactionalTryLockBucket;
    acquire_index_bucket AcquireIndexBucket;
    acquire_index_locks AcquireIndexLocks;
    acquire_sorted_locks AcquireSortedLocks;
    release_all ReleaseAll;
    crew Crew;
    crew_at_work CrewAtWork;
    salvage Salvage;
    write_speed WriteSpeed;
    read_version ReadVersion;
    write_dump WriteDump;
    read_dump ReadDump;
}

/// The counts of a reply of 15 words: what it answers, and those that are not 0.
pub fn told_reply(words: &[u64]) -> Told {
    let answer = match words[9] {
        0 => "done".to_string(),
        2 => "granted".to_string(),
        3 => "all granted".to_string(),
        5 | 6 => format!("refused {}", words[10]),
        kind => format!("answer {kind}"),
    };
    let names = ["attempts", "boundaries", "yields", "dropped"];
    let counts = names.iter().zip(&words[5..9]);
    let seen = counts
        .filter(|(_, &count)| count > 0)
        .map(|(name, count)| format!("{name} {count}"));
    let counts: Vec<String> = [answer].into_iter().chain(seen).collect();
    told(words, counts.join(", "))
}

pub fn told(words: &[u64], counts: String) -> Told {
    Told {
        words: words.to_vec(),
        counts,
    }
}

pub fn told_crew(words: &[u64]) -> Told {
    let counts = format!("moving {}, idle {}", words[15], words[16]);
    told(words, counts)
}

pub fn told_salvage(words: &[u64]) -> Told {
    let counts = format!("changed {}, left held {}", words[5], words[6]);
    told(words, counts)
}

pub fn told_written(words: &[u64]) -> Told {
    let counts = format!("version {}, bytes moved {}", words[1], words[2]);
    told(words, counts)
}

pub fn told_read(words: &[u64]) -> Told {
    let counts = format!("version {}, speed {}", words[1], words[3]);
    told(words, counts)
}

pub fn told_dump(words: &[u64]) -> Told {
    told(words, format!("bytes {}", words[1]))
}

pub fn told_history(words: &[u64]) -> Told {
    told(words, format!("cells {}, steps {}", words[1], words[2]))
}
