//! What a granted call tells.

use crate::{raw, End, Pid, Refusal, Slot};
use std::fmt;

/// What a granted call answers, and beside it what the host alone is told. Its text is the answer's in a script.
///
/// ```
/// use lampfunnel::{Call, End, Slot, Table};
///
/// # fn main() -> Result<(), lampfunnel::Refusal> {
/// let mut table = Table::fresh();
/// let born = table.call(Slot::ROOT, Call::Clone)?;
/// assert_eq!((born.answer, born.child, born.end), (2, Some(Slot(1)), None));
/// table.by(Slot(1)).exit(7)?;
/// let reaped = table.call(Slot::ROOT, Call::Wait)?;
/// assert_eq!((reaped.answer, reaped.child, reaped.end), (2, None, Some(End::Exited(7))));
/// assert_eq!(reaped.to_string(), "2 gave 7");
/// # Ok(())
/// # }
/// ```
#[derive(Clone, Copy, PartialEq, Eq, Hash, Debug)]
#[must_use]
#[non_exhaustive]
pub struct Reply {
    /// A process number, a signal, or 0.
    pub answer: u16,
    /// The slot of a child that was born.
    pub child: Option<Slot>,
    /// How a process ended that a wait removed.
    pub end: Option<End>,
}

impl Reply {
    /// The child that was born, if the call was a birth.
    #[must_use]
    pub fn born(self) -> Option<Child> {
        self.child.map(|slot| Child { pid: Pid(self.answer), slot })
    }

    /// The process that was removed, if the call was a wait that removed one.
    #[must_use]
    pub fn reaped(self) -> Option<Reaped> {
        self.end.map(|end| Reaped { pid: Pid(self.answer), end })
    }

    pub(crate) fn read(told: raw::Reply) -> Result<Reply, Refusal> {
        match u16::try_from(told.answer) {
            Ok(answer) => Ok(Reply { answer, child: Slot::read(told.child), end: End::read(told.state, told.end) }),
            Err(_) => Err(Refusal::with_number(told.answer).expect("an answer below 0 is a refusal")),
        }
    }
}

impl fmt::Display for Reply {
    fn fmt(&self, f: &mut fmt::Formatter) -> fmt::Result {
        match self.end {
            Some(End::Exited(status)) => write!(f, "{} gave {status}", self.answer),
            Some(End::Signaled(signal)) => write!(f, "{} signal {signal}", self.answer),
            None => write!(f, "{}", self.answer),
        }
    }
}

/// A child that was born.
#[derive(Clone, Copy, PartialEq, Eq, Hash, Debug)]
#[must_use = "a child's slot is told at its birth alone"]
pub struct Child {
    /// Its number in the caller's own namespace.
    pub pid: Pid,
    /// Its slot.
    pub slot: Slot,
}

/// A process that a wait removed.
#[derive(Clone, Copy, PartialEq, Eq, Hash, Debug)]
#[must_use = "how a process ended is told once"]
pub struct Reaped {
    /// Its number in the caller's own namespace.
    pub pid: Pid,
    /// How it ended.
    pub end: End,
}
