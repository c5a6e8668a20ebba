//! What the proved library takes and gives, as `host/include/lampfunnel.h` has it: numbers alone, so that any bytes are
//! some table. A program wants [`crate::Table`]; this is for one that damages tables, saves them, or lends them to C.

use crate::{LEVELS, NAMESPACES, PROCESSES};
use core::mem::{offset_of, size_of};

/// No slot, in a field that holds one.
pub const NONE: u8 = 255;

/// What `lampfunnel_run` answers where the buffer is too short.
pub const SHORT: usize = usize::MAX;

/// A process slot.
#[derive(Clone, Copy, PartialEq, Eq, Debug)]
#[repr(C)]
pub struct Process {
    /// The slot of its namespace.
    pub own: u8,
    /// That of its children's namespace.
    pub children: u8,
    /// The slot of its parent.
    pub parent: u8,
    /// 0 running, 1 stopped, 2 ended with a number, 3 ended by a signal.
    pub state: u8,
    /// That number or signal; else 0.
    pub end: u8,
    /// 0.
    pub reserved: u8,
    /// Its number at each level; the first is 0 in an empty slot.
    pub pids: [u16; LEVELS],
    /// The handled signals, bit s for signal s.
    pub handled: u32,
    /// The pending ones.
    pub pending: u32,
}

impl Process {
    /// An empty slot: all zero.
    pub const EMPTY: Process = Process {
        own: 0,
        children: 0,
        parent: 0,
        state: 0,
        end: 0,
        reserved: 0,
        pids: [0; LEVELS],
        handled: 0,
        pending: 0,
    };
}

/// A namespace slot.
#[derive(Clone, Copy, PartialEq, Eq, Debug)]
#[repr(C)]
pub struct Namespace {
    /// The slot of the namespace above it.
    pub parent: u8,
    /// Its distance from the root; 0 in an empty slot.
    pub level: u8,
    /// 0 unborn, 1 alive, 2 dead.
    pub life: u8,
    /// The slot of its init where it is alive; else 0.
    pub init: u8,
    /// The last number that it gave.
    pub last: u16,
}

impl Namespace {
    /// An empty slot: all zero.
    pub const EMPTY: Namespace = Namespace { parent: 0, level: 0, life: 0, init: 0, last: 0 };
}

/// A table. It has no padding.
#[derive(Clone, Copy, PartialEq, Eq, Debug)]
#[repr(C)]
pub struct Table {
    /// Its process slots.
    pub processes: [Process; PROCESSES],
    /// Its namespace slots.
    pub namespaces: [Namespace; NAMESPACES],
}

/// A call as numbers. What a call does not take is not looked at.
#[derive(Clone, Copy, PartialEq, Eq, Debug, Default)]
#[repr(C)]
pub struct Request {
    /// The call's number; 0 is no call.
    pub call: u32,
    /// Its first argument.
    pub a: i32,
    /// Its second.
    pub b: i32,
    /// Its third.
    pub c: i32,
}

/// What a call answers.
#[derive(Clone, Copy, PartialEq, Eq, Debug)]
#[repr(C)]
pub struct Reply {
    /// The answer; below 0 it is a refusal.
    pub answer: i32,
    /// The slot of a child that was born, or [`NONE`].
    pub child: u8,
    /// The state of a process that a wait removed; else 0.
    pub state: u8,
    /// The number or signal of its end; else 0.
    pub end: u8,
}

// Contracts: `crates/lampfunnel/src/lib.rt`.
extern "C" {
    /// The fresh table.
    pub fn lampfunnel_fresh() -> Table;
    /// Whether a table is sound.
    pub fn lampfunnel_sound(table: Table) -> bool;
    /// The number that the namespace at a slot would give next; 0 where the slot is 48 or more.
    pub fn lampfunnel_next_pid(table: Table, namespace_slot: u32) -> u16;
    /// One call by the process at a slot. The table is valid and nobody else's for that time.
    pub fn lampfunnel_call(table: *mut Table, caller: u32, request: Request) -> Reply;
    /// A whole script. Both arrays are valid for their lengths and do not overlap.
    pub fn lampfunnel_run(script: *const u8, script_len: usize, out: *mut u8, out_len: usize) -> usize;
}

// The sizes and places that the header has: another layout does not compile.
const _: () = {
    assert!(offset_of!(Process, own) == 0 && offset_of!(Process, children) == 1 && offset_of!(Process, parent) == 2);
    assert!(offset_of!(Process, state) == 3 && offset_of!(Process, end) == 4 && offset_of!(Process, reserved) == 5);
    assert!(offset_of!(Process, pids) == 6 && offset_of!(Process, handled) == 72 && offset_of!(Process, pending) == 76);
    assert!(size_of::<Process>() == 80);
    assert!(
        offset_of!(Namespace, parent) == 0 && offset_of!(Namespace, level) == 1 && offset_of!(Namespace, life) == 2
    );
    assert!(offset_of!(Namespace, init) == 3 && offset_of!(Namespace, last) == 4 && size_of::<Namespace>() == 6);
    assert!(offset_of!(Table, processes) == 0 && offset_of!(Table, namespaces) == 5120 && size_of::<Table>() == 5408);
    assert!(offset_of!(Request, call) == 0 && offset_of!(Request, a) == 4 && offset_of!(Request, b) == 8);
    assert!(offset_of!(Request, c) == 12 && size_of::<Request>() == 16);
    assert!(offset_of!(Reply, answer) == 0 && offset_of!(Reply, child) == 4 && offset_of!(Reply, state) == 5);
    assert!(offset_of!(Reply, end) == 6 && size_of::<Reply>() == 8);
};
