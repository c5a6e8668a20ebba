//! The table: a value that the host keeps.

use crate::{raw, Call, Caller, Namespace, NamespaceSlot, Pid, Process, Refusal, Reply, Slot};

/// A table of [`PROCESSES`](crate::PROCESSES) process slots and [`NAMESPACES`](crate::NAMESPACES) namespace slots.
///
/// It is a plain value: keep it between calls, clone it, compare it, send it to another thread, keep several. Calls
/// change it, and the other methods read it. `{:?}` shows its processes as a tree:
///
/// ```
/// use lampfunnel::{Slot, Table};
///
/// # fn main() -> Result<(), lampfunnel::Refusal> {
/// let mut table = Table::fresh();
/// let init = table.by(Slot::ROOT).clone_new()?;
/// let judge = table.by(init.slot).clone()?;
/// table.by(judge.slot).handle(15, true)?;
/// let before = table.clone();
/// table.by(Slot::ROOT).unshare()?;
/// assert_ne!(table, before);
///
/// let tree = "\
/// 3 processes, 3 namespaces
/// 1 slot 0, init of namespace 0 (level 0, last 3), children in namespace 2 (unborn)
/// └─2/1 slot 1, init of namespace 1 (level 1, last 2)
///   └─3/2 slot 2, namespace 1, handles 15
/// namespace 2 (level 1, last 0), unborn, below namespace 0";
/// assert_eq!(format!("{table:?}"), tree);
/// # Ok(())
/// # }
/// ```
#[derive(Clone, PartialEq, Eq)]
pub struct Table(raw::Table);

impl Default for Table {
    /// The fresh table.
    fn default() -> Table {
        Table::fresh()
    }
}

impl Table {
    /// The fresh table: the root init alone, at [`Slot::ROOT`].
    #[must_use]
    pub fn fresh() -> Table {
        // SAFETY: it takes nothing, and what it gives is numbers alone.
        Table(unsafe { raw::lampfunnel_fresh() })
    }

    /// The calls of the process at a slot, by name.
    ///
    /// ```
    /// # use lampfunnel::{Pid, Slot, Table};
    /// assert_eq!(Table::fresh().by(Slot::ROOT).getpid(), Ok(Pid(1)));
    /// ```
    pub fn by(&mut self, slot: Slot) -> Caller<'_> {
        Caller::new(self, slot)
    }

    /// One call by the process at a slot.
    ///
    /// ```
    /// # use lampfunnel::{Refusal, Slot, Table};
    /// let mut table = Table::fresh();
    /// let call = "wait".parse().expect("this is a call");
    /// assert_eq!(table.call(Slot::ROOT, call), Err(Refusal::NoChildren));
    /// ```
    pub fn call(&mut self, caller: Slot, call: Call) -> Result<Reply, Refusal> {
        Reply::read(self.request(u32::from(caller.0), call.request()))
    }

    /// One call as numbers, by the process at any slot: the lowest entry, also for numbers that no call has.
    ///
    /// ```
    /// # use lampfunnel::{raw, Refusal, Table};
    /// let mut table = Table::fresh();
    /// let getpid = raw::Request { call: 8, ..raw::Request::default() };
    /// assert_eq!(table.request(0, getpid).answer, 1);
    /// assert_eq!(table.request(256, getpid).answer, Refusal::NotRunning.number());
    /// assert_eq!(table.request(0, raw::Request::default()).answer, Refusal::NoCall.number());
    /// ```
    pub fn request(&mut self, caller: u32, request: raw::Request) -> raw::Reply {
        // SAFETY: the table is this one's alone, lent for the call and not kept. Any bytes in it, any slot and any
        // request have an answer.
        unsafe { raw::lampfunnel_call(&mut self.0, caller, request) }
    }

    /// Whether the table is sound. From the fresh table no call leads to one that is not.
    ///
    /// ```
    /// # use lampfunnel::Table;
    /// let mut damaged = *Table::fresh().as_raw();
    /// damaged.processes[0].parent = 0;
    /// assert!(Table::fresh().is_sound() && !Table::from_raw(damaged).is_sound());
    /// ```
    #[must_use]
    pub fn is_sound(&self) -> bool {
        // SAFETY: it takes a copy, and any bytes are some table.
        unsafe { raw::lampfunnel_sound(self.0) }
    }

    /// The number that the namespace at a slot would give next; `None` where there is no such slot.
    ///
    /// ```
    /// # use lampfunnel::{NamespaceSlot, Pid, Table};
    /// assert_eq!(Table::fresh().next_pid(NamespaceSlot::ROOT), Some(Pid(2)));
    /// assert_eq!(Table::fresh().next_pid(NamespaceSlot(48)), None);
    /// ```
    #[must_use]
    pub fn next_pid(&self, namespace: NamespaceSlot) -> Option<Pid> {
        // SAFETY: it takes a copy, and any bytes are some table.
        let pid = unsafe { raw::lampfunnel_next_pid(self.0, u32::from(namespace.0)) };
        (pid != 0).then_some(Pid(pid))
    }

    /// The process at a slot; `None` where there is none.
    ///
    /// ```
    /// # use lampfunnel::{Pid, Slot, State, Table};
    /// let root = Table::fresh().process(Slot::ROOT).expect("the root init is there");
    /// assert_eq!((root.state, root.pids, root.parent), (State::Running, vec![Pid(1)], None));
    /// assert_eq!(Table::fresh().process(Slot(1)), None);
    /// ```
    #[must_use]
    pub fn process(&self, slot: Slot) -> Option<Process> {
        self.0.processes.get(usize::from(slot.0)).and_then(Process::read)
    }

    /// All processes, ended ones too, by their slots.
    #[must_use = "iterators do nothing until they are asked"]
    pub fn processes(&self) -> impl Iterator<Item = (Slot, Process)> + '_ {
        (0..=u8::MAX).map(Slot).filter_map(|slot| Some((slot, self.process(slot)?)))
    }

    /// The namespace at a slot; `None` where there is none.
    ///
    /// ```
    /// # use lampfunnel::{Life, NamespaceSlot, Slot, Table};
    /// let root = Table::fresh().namespace(NamespaceSlot::ROOT).expect("the root is there");
    /// assert_eq!((root.level, root.life), (0, Life::Alive(Slot::ROOT)));
    /// ```
    #[must_use]
    pub fn namespace(&self, slot: NamespaceSlot) -> Option<Namespace> {
        self.0.namespaces.get(usize::from(slot.0)).and_then(|n| Namespace::read(slot, n))
    }

    /// All namespaces, unborn and dead ones too, by their slots.
    #[must_use = "iterators do nothing until they are asked"]
    pub fn namespaces(&self) -> impl Iterator<Item = (NamespaceSlot, Namespace)> + '_ {
        (0..=u8::MAX).map(NamespaceSlot).filter_map(|slot| Some((slot, self.namespace(slot)?)))
    }

    /// The table that has these numbers, sound or not.
    #[must_use]
    pub fn from_raw(table: raw::Table) -> Table {
        Table(table)
    }

    /// Its numbers, as C has them.
    #[must_use]
    pub fn as_raw(&self) -> &raw::Table {
        &self.0
    }
}
