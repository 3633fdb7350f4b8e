//! The proved build: the library as people link it, through `skid::raw`.

use console::build::{
    BookReply, Build, CrewReply, Head, Key, Lease, Reply, SalvageReply, WaveReply,
};
use console::for_every_call;
use skid::raw;

/// The proved library.
#[derive(Clone, Copy, Debug, Default)]
pub struct Proved;

/// What a call is given, as `raw` takes it.
pub trait Given {
    type Raw;
    fn raw(self) -> Self::Raw;
}

impl Given for Head {
    type Raw = skid::Head;
    fn raw(self) -> skid::Head {
        let Head {
            headers,
            buckets,
            next,
            boot,
        } = self;
        skid::Head {
            headers,
            buckets,
            next,
            boot,
        }
    }
}

impl Given for Lease {
    type Raw = skid::Lease;
    fn raw(self) -> skid::Lease {
        let Lease { cell, serial, boot } = self;
        skid::Lease { cell, serial, boot }
    }
}

impl Given for Key {
    type Raw = skid::Key;
    fn raw(self) -> skid::Key {
        let Key { binding, bucket } = self;
        skid::Key { binding, bucket }
    }
}

impl<'a, T> Given for &'a [T] {
    type Raw = &'a [T];
    fn raw(self) -> &'a [T] {
        self
    }
}

impl<'a, T> Given for &'a mut [T] {
    type Raw = &'a mut [T];
    fn raw(self) -> &'a mut [T] {
        self
    }
}

macro_rules! numbers {
    ($($number:ty),*) => {$(
        impl Given for $number {
            type Raw = $number;
            fn raw(self) -> $number {
                self
            }
        }
    )*};
}
numbers!(u32, usize, f32, bool);

macro_rules! the_library {
    ($($call:ident($($given:ident: $kind:ty),* $(,)?) -> $reply:ty;)*) => {
        impl Build for Proved {
            $(fn $call(&mut self, $($given: $kind),*) -> $reply {
                raw::$call($($given.raw()),*)
            })*
        }
    };
}
for_every_call!(the_library);

#[cfg(test)]
mod tests {
    use super::Proved;
    use console::histories::Writer;
    use console::Both;
    use plain::Plain;

    #[test]
    fn the_library_is_as_plain() {
        let mut first = None;
        let both = Both::new(Plain, Proved);
        let mut writer = Writer::new(
            7,
            both,
            Plain,
            |both: &mut Both<_, _>, _: &[u8], _: &[u8]| {
                first = both.difference.take();
                first.is_none()
            },
        );
        writer.history(1_000);
        drop(writer);
        assert_eq!(first, None);
    }
}
