//! Full tables and almost full ones, and tables as the library has them.

use lampfunnel::raw;
use reference::mirror::{bytes, Bytes};
use reference::script::run;
use reference::table::{Table, PROCESSES};
use std::mem::transmute;

/// The lines of so many births: a chain of namespaces from the root to a level, and the rest of the processes in the
/// deepest. The init of each namespace has the slot of its level.
fn births(level: u8, count: usize) -> String {
    let line = |slot: u8| if slot < level { format!("{slot} clone new\n") } else { format!("{level} clone\n") };
    (0..count as u8).map(line).collect()
}

/// The lines that fill a table so.
pub fn filling(level: u8) -> String {
    births(level, PROCESSES - 1)
}

pub fn full_table(level: u8) -> Table {
    let mut t = Table::fresh();
    run(&mut t, filling(level).as_bytes());
    assert_eq!(t.each_process().count(), PROCESSES);
    t
}

/// A table with such a chain and one free slot. In the root the numbers come after a last one.
pub fn with_room(level: u8, last: u16) -> Table {
    let mut t = Table::fresh();
    t.namespaces[0].last = last;
    run(&mut t, births(level, PROCESSES - 2).as_bytes());
    assert_eq!(t.each_process().count(), PROCESSES - 1);
    t
}

/// The same table for the library.
pub fn kept(t: &Table) -> raw::Table {
    // Both have the same size, which the compiler sees, and any bytes are a table of the library's.
    unsafe { transmute::<Bytes, raw::Table>(bytes(t)) }
}
