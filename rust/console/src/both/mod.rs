//! Two builds at once: each call is made by the plain build on what is lent, and by the other, the library, on copies of
//! it; the reply's words and every lent run must then be the same. Where the copies stand is a choice ([`Stand`]).

mod stand;

pub use stand::{Copied, Element, Guarded, Guards, Stand, GUARD, MARK};

use crate::build::{BookReply, Build, CrewReply, Head, Key, Lease, Reply, SalvageReply, WaveReply};

pub struct Both<A, B, S = Guards> {
    /// The plain build, whose answers are given.
    plain: A,
    /// The build that is compared with it.
    proved: B,
    /// Where its copies of the runs stand.
    stand: S,
    /// Calls made so far.
    pub calls: u64,
    /// The first difference, if there was one.
    pub difference: Option<String>,
}

impl<A: Build, B: Build> Both<A, B> {
    /// The copies stand between guards.
    pub fn new(plain: A, proved: B) -> Self {
        Both::on(Guards, plain, proved)
    }
}

impl<A: Build, B: Build, S: Stand> Both<A, B, S> {
    pub fn on(stand: S, plain: A, proved: B) -> Self {
        Both {
            plain,
            proved,
            stand,
            calls: 0,
            difference: None,
        }
    }
}

/// What a call is given: a number, or a run that it may change or only read.
trait Given<S> {
    /// The library's own copy.
    type Copy;
    type Lent<'a>
    where
        Self: 'a;
    fn copy(&self, stand: &mut S, way: usize) -> Self::Copy;
    fn lend(&mut self) -> Self::Lent<'_>;
    fn lend_copy<'a>(copy: &'a mut Self::Copy) -> Self::Lent<'a>
    where
        Self: 'a;
    fn difference(&self, name: &str, copy: &Self::Copy) -> Option<String>;
}

impl<T: Element, S: Stand> Given<S> for &mut [T] {
    type Copy = S::Copy<T>;
    type Lent<'a>
        = &'a mut [T]
    where
        Self: 'a;
    fn copy(&self, stand: &mut S, way: usize) -> S::Copy<T> {
        stand.copy(self, true, way)
    }
    fn lend(&mut self) -> &mut [T] {
        self
    }
    fn lend_copy<'a>(copy: &'a mut S::Copy<T>) -> &'a mut [T]
    where
        Self: 'a,
    {
        copy.run_mut()
    }
    fn difference(&self, name: &str, copy: &S::Copy<T>) -> Option<String> {
        copy.difference(name, self)
    }
}

impl<T: Element, S: Stand> Given<S> for &[T] {
    type Copy = S::Copy<T>;
    type Lent<'a>
        = &'a [T]
    where
        Self: 'a;
    fn copy(&self, stand: &mut S, way: usize) -> S::Copy<T> {
        stand.copy(self, false, way)
    }
    fn lend(&mut self) -> &[T] {
        self
    }
    fn lend_copy<'a>(copy: &'a mut S::Copy<T>) -> &'a [T]
    where
        Self: 'a,
    {
        copy.run()
    }
    fn difference(&self, name: &str, copy: &S::Copy<T>) -> Option<String> {
        copy.difference(name, self)
    }
}

macro_rules! numbers {
    ($($number:ty),*) => {$(
        impl<S> Given<S> for $number {
            type Copy = $number;
            type Lent<'a> = $number;
            fn copy(&self, _: &mut S, _: usize) -> $number {
                *self
            }
            fn lend(&mut self) -> $number {
                *self
            }
            fn lend_copy<'a>(copy: &'a mut $number) -> $number
            where
                Self: 'a,
            {
                *copy
            }
            fn difference(&self, _: &str, _: &$number) -> Option<String> {
                None
            }
        }
    )*};
}
numbers!(u32, usize, f32, bool, Head, Lease, Key);

/// How two replies differ.
fn reply_difference<const N: usize>(proved: &[u64; N], plain: &[u64; N]) -> Option<String> {
    let at = (0..N).find(|&at| proved[at] != plain[at])?;
    let (proved, plain) = (proved[at], plain[at]);
    Some(format!("reply[{at}]: proved {proved}, plain {plain}"))
}

/// What the plain build is given, and the library's copies of it, one for each way to stand.
struct Twin<S, G: Given<S>> {
    plain: G,
    proved: Vec<G::Copy>,
}

impl<S: Stand, G: Given<S>> Twin<S, G> {
    fn new(stand: &mut S, plain: G) -> Self {
        let proved = (0..S::WAYS).map(|way| plain.copy(stand, way)).collect();
        Twin { plain, proved }
    }

    fn plain(&mut self) -> G::Lent<'_> {
        self.plain.lend()
    }

    fn proved(&mut self, way: usize) -> G::Lent<'_> {
        G::lend_copy(&mut self.proved[way])
    }

    fn difference(&self, name: &str) -> Option<String> {
        let mut copies = self.proved.iter();
        copies.find_map(|copy| self.plain.difference(name, copy))
    }
}

macro_rules! the_two {
    ($($call:ident($($given:ident: $kind:ty),* $(,)?) -> $reply:ty;)*) => {
        impl<A: Build, B: Build, S: Stand> Build for Both<A, B, S> {
            $(fn $call(&mut self, $($given: $kind),*) -> $reply {
                $(let mut $given = Twin::new(&mut self.stand, $given);)*
                let build = &mut self.proved;
                let proved: Vec<$reply> = (0..S::WAYS)
                    .map(|way| build.$call($($given.proved(way)),*))
                    .collect();
                let plain = self.plain.$call($($given.plain()),*);
                self.calls += 1;
                if self.difference.is_none() {
                    self.difference = proved
                        .iter()
                        .find_map(|proved| reply_difference(proved, &plain))
                        $(.or_else(|| $given.difference(stringify!($given))))*
                        .map(|what| format!("{}, {what}", stringify!($call)));
                }
                plain
            })*
        }
    };
}
crate::for_every_call!(the_two);
