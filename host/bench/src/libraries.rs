//! The proved library as it is now; and as it was, where `LAMPFUNNEL_BEFORE_DIR` named one as this was built.

use lampfunnel::raw;

pub type CallFromC = unsafe extern "C" fn(*mut raw::Table, u32, raw::Request) -> raw::Reply;

/// What is timed of a library. Any bytes are some table; that of a call is valid and nobody else's for that time.
#[derive(Clone, Copy)]
pub struct Library {
    pub call: CallFromC,
    pub next_pid: unsafe extern "C" fn(raw::Table, u32) -> u16,
    pub sound: unsafe extern "C" fn(raw::Table) -> bool,
}

pub const NOW: Library =
    Library { call: raw::lampfunnel_call, next_pid: raw::lampfunnel_next_pid, sound: raw::lampfunnel_sound };

#[cfg(before_linked)]
extern "C" {
    fn before_call(table: *mut raw::Table, caller: u32, request: raw::Request) -> raw::Reply;
    fn before_next_pid(table: raw::Table, namespace_slot: u32) -> u16;
    fn before_sound(table: raw::Table) -> bool;
}

#[cfg(before_linked)]
pub const BEFORE: Option<Library> = Some(Library { call: before_call, next_pid: before_next_pid, sound: before_sound });

#[cfg(not(before_linked))]
pub const BEFORE: Option<Library> = None;
