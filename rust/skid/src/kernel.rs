//! The face for a kernel, and the one to use: an [`Arena`] keeps head, memory and registry together, a [`Lease`] has
//! one owner, and every call that can be refused gives a `Result`.
//!
//! No call here has a script or a held list: a kernel's others act between its calls. A call looks once, since a held
//! cell cannot come free inside it; Busy is for the kernel's own scheduler.
mod arena;
mod book;
mod error;
mod guard;
mod lease;
mod memory;
mod salvage;
#[cfg(test)]
mod tests;

pub use crate::{BookRefusal, Change, Head, Key, Reason, Refusal, SalvageRefusal, Setpoint};
pub use arena::{Arena, Cell, State};
pub use book::{Book, BookMemory, Setting, Written};
pub use error::{NotGiven, TakeError};
pub use guard::{Guard, Lock};
pub use lease::{Grants, Lease};
pub use memory::{Buckets, Headers, Memory, PerBucket, PerHeader};
pub use salvage::{Left, Report, Salvaged};
