use super::{Arena, Key, Lease, TakeError};
use core::cell::RefCell;
use core::marker::PhantomData;
use core::mem;

/// The kernel's own lock around its arena: one caller at a time, interrupts off where they call too.
///
/// ```
/// use skid::kernel::{Arena, Buckets, Guard, Headers, Key, Lock, Memory};
/// use std::sync::Mutex;
///
/// struct Plant<'a>(Mutex<Arena<'a>>);
///
/// impl<'a> Lock<'a> for Plant<'a> {
///     fn with<R>(&self, work: impl FnOnce(&mut Arena<'a>) -> R) -> R {
///         work(&mut self.0.lock().unwrap())
///     }
/// }
///
/// let mut memory = Memory::<Headers<2>, Buckets<4>>::new();
/// let plant = Plant(Mutex::new(Arena::open(&mut memory, &[0, 1], 1)));
/// std::thread::scope(|tasks| {
///     for bucket in 0..4 {
///         tasks.spawn({
///             let plant = &plant;
///             move || Guard::take(plant, Key { binding: 0, bucket }).map(drop).unwrap()
///         });
///     }
/// });
/// assert_eq!(plant.with(|arena| arena.head().next), 5);
/// ```
pub trait Lock<'a> {
    /// Does the work with the arena while nobody else has it. Where a head is kept on paper, this writes it there,
    /// after the work and before it lets go: nobody may act by a lease before.
    fn with<R>(&self, work: impl FnOnce(&mut Arena<'a>) -> R) -> R;
}

/// For one task: a second caller inside the work panics.
impl<'a> Lock<'a> for RefCell<Arena<'a>> {
    fn with<R>(&self, work: impl FnOnce(&mut Arena<'a>) -> R) -> R {
        work(&mut self.borrow_mut())
    }
}

/// A cell that is given back when this goes. It keeps the kernel's lock for the two calls, not between them.
///
/// ```
/// use core::cell::RefCell;
/// use skid::kernel::{Arena, Buckets, Guard, Headers, Key, Memory};
///
/// let mut memory = Memory::<Headers<2>, Buckets<4>>::new();
/// let arena = RefCell::new(Arena::open(&mut memory, &[0, 1], 1));
/// let key = Key { binding: 0, bucket: 2 };
/// {
///     let valve = Guard::take(&arena, key).unwrap();
///     assert_eq!(valve.lease().cell(), 2);
///     assert!(Guard::take(&arena, key).is_err_and(|error| error.is_busy()));
/// }
/// assert!(Guard::take(&arena, key).is_ok());
/// ```
#[derive(Debug)]
#[must_use = "a guard that is not kept gives its cell back at once"]
pub struct Guard<'l, 'a, L: Lock<'a>> {
    lock: &'l L,
    lease: Lease,
    arena: PhantomData<Arena<'a>>,
}

impl<'l, 'a, L: Lock<'a>> Guard<'l, 'a, L> {
    /// One look at a key.
    pub fn take(lock: &'l L, key: Key) -> Result<Self, TakeError> {
        let lease = lock.with(|arena| arena.take(key))?;
        Ok(Self::of(lock, lease))
    }

    /// Guards a lease that was taken before.
    pub fn of(lock: &'l L, lease: Lease) -> Self {
        Guard {
            lock,
            lease,
            arena: PhantomData,
        }
    }

    /// The lease.
    pub fn lease(&self) -> &Lease {
        &self.lease
    }

    /// The lease by itself: nothing gives it back but its owner.
    pub fn keep(self) -> Lease {
        let lease = Lease(self.lease.0);
        mem::forget(self);
        lease
    }
}

impl<'a, L: Lock<'a>> Drop for Guard<'_, 'a, L> {
    fn drop(&mut self) {
        let lease = Lease(self.lease.0);
        // Refused, it was not live any more: the arena was opened anew meanwhile, and there is nothing to give back.
        let _ = self.lock.with(|arena| arena.give(lease));
    }
}
