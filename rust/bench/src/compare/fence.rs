//! Runs at fences: a page that nobody may touch stands right behind a run, or right before it, and a run that a build may
//! only read is in pages that nobody may write. Whatever a build touches beside a run ends the process.
//!
//! std has no way to ask for such pages, so the two functions of the C library that give them are declared here.
#![allow(unsafe_code)]

use console::both::{Copied, Element, Stand, GUARD, MARK};
use std::cell::RefCell;
use std::ffi::{c_char, c_int, c_uint, c_void};
use std::fs::File;
use std::io;
use std::marker::PhantomData;
use std::os::fd::{AsRawFd, FromRawFd};
use std::ptr;
use std::rc::Rc;
use std::slice;
use std::sync::atomic::AtomicUsize;

extern "C" {
    fn mmap(
        at: *mut c_void,
        bytes: usize,
        protection: c_int,
        flags: c_int,
        file: c_int,
        from: i64,
    ) -> *mut c_void;
    fn memfd_create(name: *const c_char, flags: c_uint) -> c_int;
}

/// What Linux calls them.
const PROT_NONE: c_int = 0;
const PROT_READ: c_int = 1;
const PROT_WRITE: c_int = 2;
const MAP_SHARED: c_int = 1;
const MAP_PRIVATE: c_int = 2;
const MAP_FIXED: c_int = 16;
const MAP_ANONYMOUS: c_int = 32;

/// Bytes of a fence: whole pages on every machine.
const FENCE: usize = 65_536;

/// Memory between two fences, seen at two places: at one it can be written, at the other only read. It is kept to the end
/// of the process.
struct Room {
    writable: *mut u8,
    readable: *const u8,
    bytes: usize,
}

impl Room {
    /// A room of at least so many bytes, all of them 0.
    fn new(bytes: usize) -> io::Result<Room> {
        let bytes = bytes.max(1).next_multiple_of(FENCE);
        // SAFETY: the name ends with a zero, and nothing else is lent.
        let number = unsafe { memfd_create(c"fenced".as_ptr(), 0) };
        if number < 0 {
            return Err(io::Error::last_os_error());
        }
        // SAFETY: it was opened just now, and nobody else has it.
        let file = unsafe { File::from_raw_fd(number) };
        file.set_len(bytes as u64)?;
        Ok(Room {
            writable: seen(&file, bytes, PROT_READ | PROT_WRITE)?,
            readable: seen(&file, bytes, PROT_READ)?,
            bytes,
        })
    }
}

/// A file's bytes in memory, between two fences.
fn seen(file: &File, bytes: usize, protection: c_int) -> io::Result<*mut u8> {
    let nothing = MAP_PRIVATE | MAP_ANONYMOUS;
    // SAFETY: a place that the system chooses, where nothing is yet.
    let all = unsafe {
        mmap(
            ptr::null_mut(),
            bytes + 2 * FENCE,
            PROT_NONE,
            nothing,
            -1,
            0,
        )
    };
    let all = mapped(all)?;
    // SAFETY: the place is inside what was mapped just now.
    let room = unsafe { all.add(FENCE) };
    let over = MAP_SHARED | MAP_FIXED;
    // SAFETY: it takes the place of what was mapped just now, between the fences. Nobody has a reference to that.
    mapped(unsafe { mmap(room.cast(), bytes, protection, over, file.as_raw_fd(), 0) })
}

/// What `mmap` gave, unless that was its failure.
fn mapped(given: *mut c_void) -> io::Result<*mut u8> {
    if given.addr() == usize::MAX {
        return Err(io::Error::last_os_error());
    }
    Ok(given.cast())
}

/// A number that this process has in common with those that it starts.
pub fn shared_number() -> io::Result<&'static AtomicUsize> {
    let room = Room::new(size_of::<AtomicUsize>())?;
    // SAFETY: it is 0, aligned, kept to the end, and nobody else is given this room.
    Ok(unsafe { &*room.writable.cast() })
}

/// The rooms that are free; they are used again and again.
type Free = Rc<RefCell<Vec<Room>>>;

/// Each run ends at a fence and, in the other way, begins at one. At its open side there is a guard.
#[derive(Default)]
pub struct Fences {
    free: Free,
}

/// A copy of a run, at a fence.
pub struct Fenced<T> {
    /// None only while it is dropped.
    room: Option<Room>,
    /// Where in the room the run begins, and where its guard does, in bytes.
    run: usize,
    guard: usize,
    length: usize,
    may_change: bool,
    free: Free,
    element: PhantomData<T>,
}

impl Stand for Fences {
    type Copy<T: Element> = Fenced<T>;
    const WAYS: usize = 2;

    fn copy<T: Element>(&mut self, run: &[T], may_change: bool, way: usize) -> Fenced<T> {
        let (bytes, guard) = (size_of_val(run), GUARD * size_of::<T>());
        let room = self.room(bytes + guard);
        let (start, beside) = match way {
            0 => (room.bytes - bytes, room.bytes - bytes - guard),
            _ => (0, bytes),
        };
        // SAFETY: run and guard lie in the room and do not overlap. Room and fence are whole pages, and a `T` is as long as
        // its alignment or a multiple of it, so both are aligned. The room is not free, so nobody else has it.
        unsafe {
            let to = room.writable.add(start).cast();
            ptr::copy_nonoverlapping(run.as_ptr(), to, run.len());
            let to: *mut T = room.writable.add(beside).cast();
            (0..GUARD).for_each(|at| to.add(at).write(T::from(MARK)));
        }
        Fenced {
            room: Some(room),
            run: start,
            guard: beside,
            length: run.len(),
            may_change,
            free: Rc::clone(&self.free),
            element: PhantomData,
        }
    }
}

impl Fences {
    /// The smallest free room of at least so many bytes, or a new one.
    fn room(&mut self, bytes: usize) -> Room {
        let mut free = self.free.borrow_mut();
        let rooms = free.iter().enumerate();
        let fitting = rooms.filter(|(_, room)| room.bytes >= bytes);
        match fitting.min_by_key(|(_, room)| room.bytes) {
            Some((at, _)) => free.swap_remove(at),
            None => Room::new(bytes).expect("memory for the fences"),
        }
    }
}

impl<T> Fenced<T> {
    fn room(&self) -> &Room {
        self.room.as_ref().expect("it is not dropped")
    }

    /// Elements that were written by `copy`, from this byte on.
    fn elements(&self, from: usize, length: usize) -> &[T] {
        // SAFETY: `copy` has put so many elements there, aligned; who writes them has borrowed this copy to be changed.
        unsafe { slice::from_raw_parts(self.room().readable.add(from).cast(), length) }
    }
}

impl<T: Element> Copied<T> for Fenced<T> {
    fn run(&self) -> &[T] {
        self.elements(self.run, self.length)
    }

    fn run_mut(&mut self) -> &mut [T] {
        assert!(self.may_change, "a run that may only be read");
        // SAFETY: as in `elements`; this copy is borrowed to be changed, and nobody else has its room.
        unsafe { slice::from_raw_parts_mut(self.room().writable.add(self.run).cast(), self.length) }
    }

    fn is_overrun(&self) -> bool {
        let mark = T::from(MARK);
        self.elements(self.guard, GUARD)
            .iter()
            .any(|&one| one != mark)
    }
}

impl<T> Drop for Fenced<T> {
    fn drop(&mut self) {
        self.free.borrow_mut().extend(self.room.take());
    }
}
