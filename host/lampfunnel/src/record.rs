//! What a table has in a slot, read.

use crate::{raw, NamespaceSlot, Pid, Slot};

/// How a process ended.
#[derive(Clone, Copy, PartialEq, Eq, Hash, Debug)]
pub enum End {
    /// It gave a number.
    Exited(u8),
    /// A signal ended it.
    Signaled(u8),
}

impl End {
    /// The end that a state and its number mean; `None` for a process that has not ended.
    pub(crate) fn read(state: u8, end: u8) -> Option<End> {
        match state {
            0 | 1 => None,
            2 => Some(End::Exited(end)),
            _ => Some(End::Signaled(end)),
        }
    }
}

/// The state of a process. A byte that means none, which a sound table does not have, reads as an end by a signal.
#[derive(Clone, Copy, PartialEq, Eq, Hash, Debug)]
pub enum State {
    /// It can make calls.
    Running,
    /// It can make none until it is resumed.
    Stopped,
    /// It waits to be removed by its parent.
    Ended(End),
}

/// A process: what a taken slot holds.
#[derive(Clone, PartialEq, Eq, Hash, Debug)]
#[non_exhaustive]
pub struct Process {
    /// Its namespace.
    pub own: NamespaceSlot,
    /// The namespace that its children are born into. An ended process has none.
    pub children: Option<NamespaceSlot>,
    /// Its parent. Only the root init has none.
    pub parent: Option<Slot>,
    /// Whether it runs.
    pub state: State,
    /// The signals that it handles, bit s for signal s.
    pub handled: u32,
    /// Those that are pending.
    pub pending: u32,
    /// Its numbers, from the root's level to that of its own namespace.
    pub pids: Vec<Pid>,
}

impl Process {
    /// The process in a slot; `None` where the slot is empty.
    pub(crate) fn read(p: &raw::Process) -> Option<Process> {
        let pids: Vec<Pid> = p.pids.iter().take_while(|&&n| n != 0).map(|&n| Pid(n)).collect();
        let state = match End::read(p.state, p.end) {
            Some(end) => State::Ended(end),
            None if p.state == 1 => State::Stopped,
            None => State::Running,
        };
        (!pids.is_empty()).then_some(Process {
            own: NamespaceSlot(p.own),
            children: NamespaceSlot::read(p.children),
            parent: Slot::read(p.parent),
            state,
            handled: p.handled,
            pending: p.pending,
            pids,
        })
    }
}

/// The condition of a namespace. A byte that means none, which a sound table does not have, reads as dead.
#[derive(Clone, Copy, PartialEq, Eq, Hash, Debug)]
pub enum Life {
    /// It has had no process yet.
    Unborn,
    /// It has an init, at this slot.
    Alive(Slot),
    /// Its init has ended.
    Dead,
}

/// A namespace: what a taken slot holds.
#[derive(Clone, Copy, PartialEq, Eq, Hash, Debug)]
#[non_exhaustive]
pub struct Namespace {
    /// The namespace above it. Only the root has none.
    pub parent: Option<NamespaceSlot>,
    /// Its distance from the root.
    pub level: u8,
    /// The last number that it gave, or 0.
    pub last: Pid,
    /// Whether it lives.
    pub life: Life,
}

impl Namespace {
    /// The namespace in a slot; `None` where the slot is empty.
    pub(crate) fn read(slot: NamespaceSlot, n: &raw::Namespace) -> Option<Namespace> {
        let life = match n.life {
            0 => Life::Unborn,
            1 => Life::Alive(Slot(n.init)),
            _ => Life::Dead,
        };
        let taken = slot == NamespaceSlot::ROOT || n.level != 0;
        taken.then_some(Namespace { parent: NamespaceSlot::read(n.parent), level: n.level, last: Pid(n.last), life })
    }
}
