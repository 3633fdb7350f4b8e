use super::Grants;
use crate::{Answer, Reason, Refusal};
use core::error::Error;
use core::fmt::{self, Display, Formatter};

/// Why nothing was taken. The position is that of the key among several, and else 0.
#[derive(Clone, Copy, Debug, PartialEq, Eq, PartialOrd, Ord, Hash)]
#[non_exhaustive]
pub enum TakeError {
    /// Another holds the cell or waits for it: come back from the scheduler.
    Busy {
        /// Which key.
        position: usize,
        /// Why.
        reason: Reason,
    },
    /// Refused; asking again is of no use before something is done about it.
    Refused {
        /// Which key.
        position: usize,
        /// Why.
        refusal: Refusal,
    },
}

impl TakeError {
    /// Whether it is Busy.
    pub const fn is_busy(self) -> bool {
        matches!(self, TakeError::Busy { .. })
    }

    /// The refusal, unless it is Busy.
    pub const fn refusal(self) -> Option<Refusal> {
        match self {
            TakeError::Busy { .. } => None,
            TakeError::Refused { refusal, .. } => Some(refusal),
        }
    }

    /// The refusal's number; Busy has none.
    pub const fn number(self) -> Option<u32> {
        match self {
            TakeError::Busy { .. } => None,
            TakeError::Refused { refusal, .. } => Some(refusal.number()),
        }
    }

    /// The refusal's name, or Busy.
    pub const fn name(self) -> &'static str {
        match self {
            TakeError::Busy { .. } => "Busy",
            TakeError::Refused { refusal, .. } => refusal.name(),
        }
    }
}

impl Display for TakeError {
    fn fmt(&self, f: &mut Formatter<'_>) -> fmt::Result {
        match self {
            TakeError::Busy { position, reason } => write!(f, "key {position} is Busy: {reason}"),
            TakeError::Refused { position, refusal } => {
                write!(f, "key {position} is refused: {refusal}")
            }
        }
    }
}

impl Error for TakeError {
    fn source(&self) -> Option<&(dyn Error + 'static)> {
        match self {
            TakeError::Busy { .. } => None,
            TakeError::Refused { refusal, .. } => Some(refusal),
        }
    }
}

/// Why the cells of several keys were not given back, and their leases, which are still the caller's: those that are
/// live can be given one by one ([`Grants::into_leases`]).
#[derive(Debug, PartialEq, Eq)]
#[must_use = "leases that are forgotten leave their cells held"]
pub struct NotGiven<const N: usize> {
    /// Why; a position is that of the key.
    pub refusal: Refusal,
    /// The leases, none of them given back.
    pub grants: Grants<N>,
}

impl<const N: usize> Display for NotGiven<N> {
    fn fmt(&self, f: &mut Formatter<'_>) -> fmt::Result {
        write!(f, "none of {N} keys is given back: {}", self.refusal)
    }
}

impl<const N: usize> Error for NotGiven<N> {
    fn source(&self) -> Option<&(dyn Error + 'static)> {
        Some(&self.refusal)
    }
}

/// The error of a call that granted nothing. The library says `Busy` or a refusal there.
pub(super) fn not_taken(answer: Answer) -> TakeError {
    match answer {
        Answer::Busy(reason) => TakeError::Busy {
            position: 0,
            reason,
        },
        Answer::RefusedAt(refusal, position) => TakeError::Refused { position, refusal },
        Answer::Refused(refusal) => TakeError::Refused {
            position: match refusal {
                Refusal::BadBinding(at) => at,
                _ => 0,
            },
            refusal,
        },
        _ => TakeError::Refused {
            position: 0,
            refusal: Refusal::BadShape,
        },
    }
}
