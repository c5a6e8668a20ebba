//! Tables for the search for a number: 63 processes, the root init and 62 whose numbers are taken.

use crate::checks::damage;
use crate::full::{kept, with_room};
use lampfunnel::raw;
use reference::sound::is_sound;
use reference::table::{Process, Table, DEEPEST, LEVELS, MAX_PID, PROCESSES};

/// A table, and the number that its root gives next.
pub struct Case {
    pub name: &'static str,
    pub table: Table,
    pub kept: raw::Table,
    pub damaged: raw::Table,
    pub answer: u16,
}

impl Case {
    fn new(name: &'static str, table: Table, answer: u16) -> Case {
        assert!(is_sound(&table) && table.each_process().count() == PROCESSES - 1, "{name}");
        assert_eq!(table.next_number(0), answer, "{name}");
        let kept = kept(&table);
        let damaged = *damage(&lampfunnel::Table::from_raw(kept)).as_raw();
        Case { name, table, kept, damaged, answer }
    }
}

/// Where the first candidate is free, and then those that pass 62 numbers: above the last; from 300 on; 31 above the
/// last up to the greatest, and 31 from 300 on; and above the last, and both ways, where each of them is a climb away.
pub fn cases() -> [Case; 6] {
    let low = || 300..362;
    let both = || (MAX_PID - 30..=MAX_PID).chain(300..331);
    [
        Case::new("first free", members(low(), 361), 362),
        Case::new("62 above", members(low(), 299), 362),
        Case::new("62 from 300", members(low(), MAX_PID), 362),
        Case::new("31 and 31", members(both(), MAX_PID - 31), 331),
        Case::new("62, level 32", chain(low(), 299), 362),
        Case::new("31 and 31, level 32", chain(both(), MAX_PID - 31), 331),
    ]
}

/// All in the root's namespace.
fn members(pids: impl Iterator<Item = u16>, last: u16) -> Table {
    let mut t = Table::fresh();
    let slots = &mut t.processes[1..=62];
    for (slot, pid) in slots.iter_mut().zip(pids) {
        let mut pids = [0; LEVELS];
        pids[0] = pid;
        *slot = Process { pids, ..Process::EMPTY };
    }
    t.namespaces[0].last = last;
    t
}

/// In a chain of namespaces to the deepest level.
fn chain(pids: impl Iterator<Item = u16>, last: u16) -> Table {
    let mut t = with_room(DEEPEST, last);
    for (p, pid) in t.processes[1..=62].iter_mut().zip(pids) {
        p.pids[0] = pid;
    }
    t.namespaces[0].last = last;
    t
}
