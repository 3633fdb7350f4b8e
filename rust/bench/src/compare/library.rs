//! The library with its reply at a fence too.

use super::fence::Fences;
use crate::proved::Given;
use console::both::{Copied, Stand};
use console::build::{
    BookReply, Build, CrewReply, Head, Key, Lease, Reply, SalvageReply, WaveReply,
};
use console::for_every_call;
use skid::raw::{lent, BLANK};

/// The library. Its reply stands in each way in turn.
#[derive(Default)]
pub struct Library {
    fences: Fences,
    way: usize,
}

impl Library {
    /// The reply that a call wrote into words at a fence. If it wrote beside them, it is given as if nothing was written.
    fn reply<const N: usize>(&mut self, call: impl FnOnce(&mut [u64; N])) -> [u64; N] {
        let blank = [BLANK; N];
        let mut copy = self.fences.copy(&blank, true, self.way);
        self.way = (self.way + 1) % Fences::WAYS;
        let reply = <&mut [u64; N]>::try_from(copy.run_mut()).expect("a copy has its length");
        call(reply);
        let reply = *reply;
        if copy.is_overrun() {
            return blank;
        }
        reply
    }
}

macro_rules! the_library {
    ($($call:ident($($given:ident: $kind:ty),* $(,)?) -> $reply:ty;)*) => {
        impl Build for Library {
            $(fn $call(&mut self, $($given: $kind),*) -> $reply {
                self.reply(|reply| lent::$call($($given.raw(),)* reply))
            })*
        }
    };
}
for_every_call!(the_library);
