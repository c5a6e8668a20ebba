//! Slots of processes, slots of namespaces and process numbers: three kinds, and none can stand for another.

use crate::raw;
use std::fmt;

/// The slot of a process: how the host names it. Processes never learn slots. From 64 on a slot holds nobody.
#[derive(Clone, Copy, PartialEq, Eq, PartialOrd, Ord, Hash, Debug)]
pub struct Slot(pub u8);

impl Slot {
    /// The root init's.
    pub const ROOT: Slot = Slot(0);

    pub(crate) fn read(slot: u8) -> Option<Slot> {
        (slot != raw::NONE).then_some(Slot(slot))
    }
}

impl fmt::Display for Slot {
    fn fmt(&self, f: &mut fmt::Formatter) -> fmt::Result {
        self.0.fmt(f)
    }
}

/// The slot of a namespace. From 48 on it holds none.
#[derive(Clone, Copy, PartialEq, Eq, PartialOrd, Ord, Hash, Debug)]
pub struct NamespaceSlot(pub u8);

impl NamespaceSlot {
    /// The root namespace's.
    pub const ROOT: NamespaceSlot = NamespaceSlot(0);

    pub(crate) fn read(slot: u8) -> Option<NamespaceSlot> {
        (slot != raw::NONE).then_some(NamespaceSlot(slot))
    }
}

impl fmt::Display for NamespaceSlot {
    fn fmt(&self, f: &mut fmt::Formatter) -> fmt::Result {
        self.0.fmt(f)
    }
}

/// The number of a process, as one namespace has it.
#[derive(Clone, Copy, PartialEq, Eq, PartialOrd, Ord, Hash, Debug)]
pub struct Pid(pub u16);

impl fmt::Display for Pid {
    fn fmt(&self, f: &mut fmt::Formatter) -> fmt::Result {
        self.0.fmt(f)
    }
}

/// As an argument of a call.
impl From<Pid> for i32 {
    fn from(pid: Pid) -> i32 {
        i32::from(pid.0)
    }
}
