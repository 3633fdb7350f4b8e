//! A task in a process of its own, so that its crash can be told of.
//!
//! std can start other programs, but under an emulator this program could not start itself. So the process is forked, and
//! the functions of the C library for that are declared here.
#![allow(unsafe_code)]

use std::ffi::c_int;
use std::io::{self, Read, Write};
use std::os::unix::net::UnixStream;
use std::os::unix::process::ExitStatusExt;
use std::panic::{catch_unwind, AssertUnwindSafe};
use std::process::ExitStatus;

/// The bytes that a process may leave behind when it crashes: now, and at most.
#[repr(C)]
struct Limit {
    now: u64,
    most: u64,
}

extern "C" {
    fn fork() -> c_int;
    fn waitpid(process: c_int, status: *mut c_int, options: c_int) -> c_int;
    fn setrlimit(what: c_int, limit: *const Limit) -> c_int;
    fn _exit(status: c_int) -> !;
}

/// What Linux calls it.
const RLIMIT_CORE: c_int = 4;
/// The status of a process that panicked.
const PANICKED: c_int = 101;

/// What the task gave, or how its process ended.
pub fn apart(task: impl FnOnce() -> String) -> io::Result<Result<String, ExitStatus>> {
    let (mut ours, theirs) = UnixStream::pair()?;
    // SAFETY: it lends nothing. The child goes on with this thread alone and never comes back from `child`; it takes no
    // lock that another thread could hold but the allocator's, which the C library sees to.
    let process = unsafe { fork() };
    match process {
        -1 => return Err(io::Error::last_os_error()),
        0 => {
            drop(ours);
            child(task, theirs)
        }
        _ => drop(theirs),
    }
    let mut said = String::new();
    let read = ours.read_to_string(&mut said);
    let status = wait(process)?;
    read?;
    Ok(if status.success() {
        Ok(said)
    } else {
        Err(status)
    })
}

/// The child's whole life. What the parent had not yet printed is not printed here.
fn child(task: impl FnOnce() -> String, mut parent: UnixStream) -> ! {
    let none = Limit { now: 0, most: 0 };
    // SAFETY: it reads the limit, and keeps no pointer.
    unsafe { setrlimit(RLIMIT_CORE, &none) };
    let status = match catch_unwind(AssertUnwindSafe(task)) {
        Ok(said) => c_int::from(parent.write_all(said.as_bytes()).is_err()),
        Err(_) => PANICKED,
    };
    // SAFETY: it ends the process.
    unsafe { _exit(status) }
}

/// Waits for the end of a child.
fn wait(process: c_int) -> io::Result<ExitStatus> {
    let mut status = 0;
    loop {
        // SAFETY: it writes the status, and keeps no pointer.
        if unsafe { waitpid(process, &mut status, 0) } == process {
            return Ok(ExitStatus::from_raw(status));
        }
        let error = io::Error::last_os_error();
        if error.kind() != io::ErrorKind::Interrupted {
            return Err(error);
        }
    }
}
