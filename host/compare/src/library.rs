//! The proved library, with a table as bytes.

use crate::playing::GUARD;
use lampfunnel::raw;
use reference::mirror::Bytes;
use reference::turns::{Reply, Request};
use std::mem::transmute;

// A table of the library has no padding, and any bytes are one; these would not compile with another size.

fn table(memory: &Bytes) -> raw::Table {
    unsafe { transmute::<Bytes, raw::Table>(*memory) }
}

fn bytes(table: raw::Table) -> Bytes {
    unsafe { transmute::<raw::Table, Bytes>(table) }
}

// The functions take any table.

pub fn fresh() -> Bytes {
    bytes(unsafe { raw::lampfunnel_fresh() })
}

pub fn is_sound(memory: &Bytes) -> bool {
    unsafe { raw::lampfunnel_sound(table(memory)) }
}

pub fn next_pid(memory: &Bytes, slot: u32) -> u16 {
    unsafe { raw::lampfunnel_next_pid(table(memory), slot) }
}

/// A table that is lent, between bytes that must stay.
#[repr(C)]
struct Lent {
    before: [u8; 64],
    table: raw::Table,
    after: [u8; 64],
}

pub fn turn(memory: &mut Bytes, caller: u32, request: Request) -> Reply {
    let Request { call, a, b, c } = request;
    let mut lent = Lent { before: [GUARD; 64], table: table(memory), after: [GUARD; 64] };
    let reply = unsafe { raw::lampfunnel_call(&mut lent.table, caller, raw::Request { call, a, b, c }) };
    assert!([lent.before, lent.after] == [[GUARD; 64]; 2], "the library writes past a table");
    *memory = bytes(lent.table);
    Reply { answer: reply.answer, child: reply.child, state: reply.state, end: reply.end }
}
