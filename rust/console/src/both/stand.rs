//! Where the second build's copies of the lent runs stand.

use std::fmt::Display;

/// What a run is made of.
pub trait Element: Copy + PartialEq + From<u8> + Display {}

impl<T: Copy + PartialEq + From<u8> + Display> Element for T {}

/// Where the copies stand.
pub trait Stand {
    /// A copy, which stands as long as it is kept.
    type Copy<T: Element>: Copied<T>;
    /// In how many ways a copy can stand. Each call is made once in each of them.
    const WAYS: usize;
    /// A copy of a run, which the build may change or only read, in one of the ways.
    fn copy<T: Element>(&mut self, run: &[T], may_change: bool, way: usize) -> Self::Copy<T>;
}

/// A copy of a run.
pub trait Copied<T: Element> {
    fn run(&self) -> &[T];
    /// Of a run that the build may change.
    fn run_mut(&mut self) -> &mut [T];
    /// Whether something was written beside it.
    fn is_overrun(&self) -> bool;

    /// How it differs from what the plain build left.
    fn difference(&self, name: &str, plain: &[T]) -> Option<String> {
        if let Some(at) = self.run().iter().zip(plain).position(|(a, b)| a != b) {
            let (proved, plain) = (self.run()[at], plain[at]);
            return Some(format!("{name}[{at}]: proved {proved}, plain {plain}"));
        }
        self.is_overrun()
            .then(|| format!("{name}: proved wrote beside it"))
    }
}

/// Elements of a guard.
pub const GUARD: usize = 5;

/// What stands in them.
pub const MARK: u8 = 0xa5;

/// The copies stand between guards, at places that are aligned as far as the header asks for and no further. A word that
/// is written beside what was lent shows, and so does one in a run that may only be read.
#[derive(Clone, Copy, Debug, Default)]
pub struct Guards;

/// A copy of a run, between guards.
pub struct Guarded<T>(Vec<T>);

impl Stand for Guards {
    type Copy<T: Element> = Guarded<T>;
    const WAYS: usize = 1;

    fn copy<T: Element>(&mut self, run: &[T], _may_change: bool, _way: usize) -> Guarded<T> {
        let mut all = Vec::with_capacity(run.len() + 2 * GUARD);
        all.resize(GUARD, T::from(MARK));
        all.extend_from_slice(run);
        all.resize(run.len() + 2 * GUARD, T::from(MARK));
        Guarded(all)
    }
}

impl<T: Element> Copied<T> for Guarded<T> {
    fn run(&self) -> &[T] {
        &self.0[GUARD..self.0.len() - GUARD]
    }

    fn run_mut(&mut self) -> &mut [T] {
        let end = self.0.len() - GUARD;
        &mut self.0[GUARD..end]
    }

    fn is_overrun(&self) -> bool {
        let (before, rest) = self.0.split_at(GUARD);
        let behind = &rest[rest.len() - GUARD..];
        before.iter().chain(behind).any(|&one| one != T::from(MARK))
    }
}

#[cfg(test)]
mod tests {
    use super::*;

    #[test]
    fn what_is_written_beside_is_found() {
        for at in [0, GUARD - 1, GUARD + 4, 2 * GUARD + 3] {
            let mut copy = Guards.copy(&[1u32, 2, 3, 4], true, 0);
            assert_eq!(copy.difference("run", &[1, 2, 3, 4]), None);
            copy.0[at] = 9;
            let found = copy.difference("run", &[1, 2, 3, 4]);
            assert_eq!(found.as_deref(), Some("run: proved wrote beside it"));
        }
    }
}
