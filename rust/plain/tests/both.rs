//! What `Both` finds: nothing where two builds agree, and a slip of one build wherever it shows.

use console::build::{
    BookReply, Build, CrewReply, Head, Key, Lease, Reply, SalvageReply, WaveReply,
};
use console::for_every_call;
use console::histories::Writer;
use console::Both;
use plain::Plain;

/// The plain build with a slip in one place.
struct Slip(u32);

macro_rules! the_slips {
    ($($call:ident($($given:ident: $kind:ty),* $(,)?) -> $reply:ty;)*) => {
        impl Build for Slip {
            $(fn $call(&mut self, $($given: $kind),*) -> $reply {
                slip!(self, $call, $($given),*)
            })*
        }
    };
}
macro_rules! slip {
    // a word of the reply that the console does not print
    ($self:ident, try_acquire, $head:ident, $table:ident, $cell:ident) => {{
        let mut reply = Plain.try_acquire($head, $table, $cell);
        if $self.0 == 1 && reply[9] == 5 {
            reply[12] = 1;
        }
        reply
    }};
    // a cell of the table
    ($self:ident, drop_lease, $head:ident, $table:ident, $lease:ident) => {{
        let reply = Plain.drop_lease($head, $table, $lease);
        if $self.0 == 2 && reply[9] == 0 && $lease.cell > 0 {
            $table[3 * $lease.cell as usize - 1] = 1;
        }
        reply
    }};
    // a byte of the health after a refusal
    ($self:ident, try_lock, $head:ident, $table:ident, $health:ident, $($more:ident),*) => {{
        let reply = Plain.try_lock($head, $table, $health, $($more),*);
        if $self.0 == 3 && reply[9] == 5 && reply[10] == 3 && !$health.is_empty() {
            $health[0] ^= 1;
        }
        reply
    }};
    ($self:ident, $call:ident, $($given:ident),*) => {
        Plain.$call($($given),*)
    };
}
for_every_call!(the_slips);

/// The first difference in a history of so many calls.
fn first_difference(build: impl Build, calls: usize) -> Option<String> {
    let mut first = None;
    let both = Both::new(Plain, build);
    let mut writer = Writer::new(
        7,
        both,
        Plain,
        |both: &mut Both<_, _>, _: &[u8], _: &[u8]| {
            first = both.difference.take();
            first.is_none()
        },
    );
    writer.history(calls);
    drop(writer);
    first
}

#[test]
fn no_slip_no_difference() {
    assert_eq!(first_difference(Slip(0), 1_000), None);
}

#[test]
fn slips_are_found() {
    for (slip, call) in [
        (1, "try_acquire, reply[12]"),
        (2, "drop_lease, table["),
        (3, "try_lock, health[0]"),
    ] {
        let found = first_difference(Slip(slip), 5_000).expect("a difference");
        assert!(found.starts_with(call), "{found}");
    }
}
