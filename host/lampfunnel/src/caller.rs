//! The calls of one process, by name.

use crate::{Call, Child, Pid, Reaped, Refusal, Reply, Slot, Table};

/// The process at a slot, about to make calls: [`Table::by`]. Any of them may be told [`Refusal::Unsound`] or
/// [`Refusal::NotRunning`]; the others are named at each. A refused call changes nothing.
///
/// ```
/// use lampfunnel::{Slot, Table};
///
/// # fn main() -> Result<(), lampfunnel::Refusal> {
/// let mut table = Table::fresh();
/// let mut root = table.by(Slot::ROOT);
/// let first = root.clone()?;
/// let second = root.clone()?;
/// root.kill(first.pid, 9)?;
/// assert_eq!(root.wait()?.map(|reaped| reaped.pid), Some(first.pid));
/// root.kill(second.pid, 0)?; // signal 0 asks whether it is there
/// # Ok(())
/// # }
/// ```
#[must_use = "a caller does nothing until it makes a call"]
#[derive(Debug)]
pub struct Caller<'a> {
    table: &'a mut Table,
    slot: Slot,
}

impl<'a> Caller<'a> {
    pub(crate) fn new(table: &'a mut Table, slot: Slot) -> Caller<'a> {
        Caller { table, slot }
    }

    fn make(&mut self, call: Call) -> Result<Reply, Refusal> {
        self.table.call(self.slot, call)
    }

    fn child(&mut self, call: Call) -> Result<Child, Refusal> {
        Ok(self.make(call)?.born().expect("a birth tells the child's slot"))
    }

    /// A child is born into the caller's children's namespace.
    ///
    /// Refused as [`Refusal::DeadNamespace`] and [`Refusal::NoRoom`].
    ///
    /// ```
    /// # use lampfunnel::{Child, Pid, Slot, Table};
    /// let child = Table::fresh().by(Slot::ROOT).clone();
    /// assert_eq!(child, Ok(Child { pid: Pid(2), slot: Slot(1) }));
    /// ```
    pub fn clone(&mut self) -> Result<Child, Refusal> {
        self.child(Call::Clone)
    }

    /// A child is born that is the init of a new namespace below the caller's own.
    ///
    /// Refused as [`Refusal::Invalid`], [`Refusal::TooDeep`] and [`Refusal::NoRoom`].
    ///
    /// ```
    /// # use lampfunnel::{Pid, Slot, Table};
    /// # fn main() -> Result<(), lampfunnel::Refusal> {
    /// let mut table = Table::fresh();
    /// let init = table.by(Slot::ROOT).clone_new()?;
    /// assert_eq!((init.pid, table.by(init.slot).getpid()?), (Pid(2), Pid(1)));
    /// # Ok(())
    /// # }
    /// ```
    pub fn clone_new(&mut self) -> Result<Child, Refusal> {
        self.child(Call::CloneNew)
    }

    /// The caller's next child is the init of a new namespace, and those after it are members.
    ///
    /// Refused as [`Refusal::Invalid`], [`Refusal::TooDeep`] and [`Refusal::NoRoom`].
    ///
    /// ```
    /// # use lampfunnel::{Pid, Slot, Table};
    /// # fn main() -> Result<(), lampfunnel::Refusal> {
    /// let mut table = Table::fresh();
    /// table.by(Slot::ROOT).unshare()?;
    /// let init = table.by(Slot::ROOT).clone()?;
    /// assert_eq!(table.by(init.slot).getpid(), Ok(Pid(1)));
    /// # Ok(())
    /// # }
    /// ```
    pub fn unshare(&mut self) -> Result<(), Refusal> {
        self.make(Call::Unshare).map(drop)
    }

    /// From now on the caller's children are born into the namespace of process `pid`; its own number undoes an
    /// [`unshare`](Caller::unshare).
    ///
    /// Refused as [`Refusal::NoSuchProcess`].
    ///
    /// ```
    /// # use lampfunnel::{Pid, Slot, Table};
    /// # fn main() -> Result<(), lampfunnel::Refusal> {
    /// let mut table = Table::fresh();
    /// let init = table.by(Slot::ROOT).clone_new()?;
    /// table.by(Slot::ROOT).setns(init.pid)?;
    /// let guest = table.by(Slot::ROOT).clone()?;
    /// assert_eq!(table.by(guest.slot).getpid(), Ok(Pid(2)));
    /// # Ok(())
    /// # }
    /// ```
    pub fn setns(&mut self, pid: impl Into<i32>) -> Result<(), Refusal> {
        self.make(Call::Setns(pid.into())).map(drop)
    }

    /// Sends a signal to process `pid`; -1 means all that the caller sees but itself and number 1.
    ///
    /// Refused as [`Refusal::Invalid`], [`Refusal::NotKept`] and [`Refusal::NoSuchProcess`].
    ///
    /// ```
    /// # use lampfunnel::{Refusal, Slot, State, Table};
    /// # fn main() -> Result<(), Refusal> {
    /// let mut table = Table::fresh();
    /// let child = table.by(Slot::ROOT).clone()?;
    /// table.by(Slot::ROOT).kill(child.pid, 19)?;
    /// assert_eq!(table.process(child.slot).map(|process| process.state), Some(State::Stopped));
    /// assert_eq!(table.by(Slot::ROOT).kill(7, 9), Err(Refusal::NoSuchProcess));
    /// # Ok(())
    /// # }
    /// ```
    pub fn kill(&mut self, pid: impl Into<i32>, signal: i32) -> Result<(), Refusal> {
        self.make(Call::Kill(pid.into(), signal)).map(drop)
    }

    /// The caller ends and gives the remainder of `status` by 256; an init takes its whole subtree down.
    ///
    /// Refused as [`Refusal::RootInit`].
    ///
    /// ```
    /// # use lampfunnel::{Refusal, Slot, Table};
    /// assert_eq!(Table::fresh().by(Slot::ROOT).exit(0), Err(Refusal::RootInit));
    /// ```
    pub fn exit(&mut self, status: i32) -> Result<(), Refusal> {
        self.make(Call::Exit(status)).map(drop)
    }

    /// Removes the ended child with the lowest number; `None` where none has ended. It never blocks.
    ///
    /// Refused as [`Refusal::NoChildren`].
    ///
    /// ```
    /// # use lampfunnel::{End, Reaped, Refusal, Slot, Table};
    /// # fn main() -> Result<(), Refusal> {
    /// let mut table = Table::fresh();
    /// let child = table.by(Slot::ROOT).clone()?;
    /// assert_eq!(table.by(Slot::ROOT).wait(), Ok(None));
    /// table.by(child.slot).exit(-1)?;
    /// assert_eq!(table.by(Slot::ROOT).wait()?, Some(Reaped { pid: child.pid, end: End::Exited(255) }));
    /// assert_eq!(table.by(Slot::ROOT).wait(), Err(Refusal::NoChildren));
    /// # Ok(())
    /// # }
    /// ```
    pub fn wait(&mut self) -> Result<Option<Reaped>, Refusal> {
        Ok(self.make(Call::Wait)?.reaped())
    }

    /// The caller's number in its own namespace.
    ///
    /// ```
    /// # use lampfunnel::{Pid, Slot, Table};
    /// assert_eq!(Table::fresh().by(Slot::ROOT).getpid(), Ok(Pid(1)));
    /// ```
    pub fn getpid(&mut self) -> Result<Pid, Refusal> {
        Ok(Pid(self.make(Call::Getpid)?.answer))
    }

    /// The number of the caller's parent in the caller's own namespace; `None` where the parent is outside, or where
    /// there is none.
    ///
    /// ```
    /// # use lampfunnel::{Pid, Slot, Table};
    /// # fn main() -> Result<(), lampfunnel::Refusal> {
    /// let mut table = Table::fresh();
    /// let init = table.by(Slot::ROOT).clone_new()?;
    /// let child = table.by(init.slot).clone()?;
    /// assert_eq!(table.by(init.slot).getppid(), Ok(None));
    /// assert_eq!(table.by(child.slot).getppid(), Ok(Some(Pid(1))));
    /// # Ok(())
    /// # }
    /// ```
    pub fn getppid(&mut self) -> Result<Option<Pid>, Refusal> {
        let pid = self.make(Call::Getppid)?.answer;
        Ok((pid != 0).then_some(Pid(pid)))
    }

    /// A signal becomes pending from now on; or no more, and then it is dropped if it is pending.
    ///
    /// Refused as [`Refusal::Invalid`].
    ///
    /// ```
    /// # use lampfunnel::{Refusal, Slot, Table};
    /// let mut table = Table::fresh();
    /// assert_eq!(table.by(Slot::ROOT).handle(15, true), Ok(()));
    /// assert_eq!(table.process(Slot::ROOT).map(|process| process.handled), Some(1 << 15));
    /// assert_eq!(table.by(Slot::ROOT).handle(9, true), Err(Refusal::Invalid));
    /// ```
    pub fn handle(&mut self, signal: i32, on: bool) -> Result<(), Refusal> {
        self.make(Call::Handle(signal, on)).map(drop)
    }

    /// Takes the lowest pending signal; `None` where none is pending.
    ///
    /// ```
    /// # use lampfunnel::{Slot, Table};
    /// # fn main() -> Result<(), lampfunnel::Refusal> {
    /// let mut table = Table::fresh();
    /// table.by(Slot::ROOT).handle(15, true)?;
    /// table.by(Slot::ROOT).kill(1, 15)?;
    /// assert_eq!(table.by(Slot::ROOT).poll(), Ok(Some(15)));
    /// assert_eq!(table.by(Slot::ROOT).poll(), Ok(None));
    /// # Ok(())
    /// # }
    /// ```
    pub fn poll(&mut self) -> Result<Option<u8>, Refusal> {
        let signal = self.make(Call::Poll)?.answer as u8; // signals are below 32
        Ok((signal != 0).then_some(signal))
    }
}
