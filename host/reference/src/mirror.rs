//! A table as a host keeps it: the bytes of `struct lampfunnel_table` (`host/include/lampfunnel.h`), with the place of
//! each field written out, so that the library's layout is held against them too. Numbers have their low byte first.

use crate::table::{End, Life, Namespace, Process, State, Table, LEVELS, NAMESPACES, PROCESSES};

pub const PROCESS_BYTES: usize = 80;
pub const NAMESPACE_BYTES: usize = 6;
pub const NAMESPACES_AT: usize = PROCESSES * PROCESS_BYTES;
pub const BYTES: usize = NAMESPACES_AT + NAMESPACES * NAMESPACE_BYTES;

pub type Bytes = [u8; BYTES];

/// Where the numbers of a process stand, two bytes each, and its signals after them.
const PIDS: usize = 6;
const HANDLED: usize = 72;
const PENDING: usize = 76;

/// The bytes of a table.
pub fn bytes(t: &Table) -> Bytes {
    let mut all = [0; BYTES];
    let (processes, namespaces) = all.split_at_mut(NAMESPACES_AT);
    processes.chunks_mut(PROCESS_BYTES).zip(&t.processes).for_each(|(b, p)| write_process(p, b));
    namespaces.chunks_mut(NAMESPACE_BYTES).zip(&t.namespaces).for_each(|(b, n)| write_namespace(n, b));
    all
}

/// The table of some bytes; `None` where a slot, an empty one too, has bytes that none are written as.
pub fn table(all: &Bytes) -> Option<Table> {
    let (processes, namespaces) = all.split_at(NAMESPACES_AT);
    let mut t = Table::EMPTY;
    t.processes.iter_mut().zip(processes.chunks(PROCESS_BYTES)).try_for_each(|(p, b)| read(p, process(b)))?;
    t.namespaces.iter_mut().zip(namespaces.chunks(NAMESPACE_BYTES)).try_for_each(|(n, b)| read(n, namespace(b)))?;
    Some(t)
}

fn read<T>(slot: &mut T, record: Option<T>) -> Option<()> {
    *slot = record?;
    Some(())
}

/// The two bytes of a state: which, and the number or the signal of an end.
pub fn state_bytes(state: State) -> [u8; 2] {
    match state {
        State::Running => [0, 0],
        State::Stopped => [1, 0],
        State::Ended(End::Exited(status)) => [2, status],
        State::Ended(End::Signaled(signal)) => [3, signal],
    }
}

fn write_process(p: &Process, b: &mut [u8]) {
    let [state, end] = state_bytes(p.state);
    b[..PIDS].copy_from_slice(&[p.own, p.children, p.parent, state, end, 0]);
    b[PIDS..HANDLED].copy_from_slice(p.pids.map(u16::to_le_bytes).as_flattened());
    b[HANDLED..PENDING].copy_from_slice(&p.handled.to_le_bytes());
    b[PENDING..].copy_from_slice(&p.pending.to_le_bytes());
}

fn write_namespace(n: &Namespace, b: &mut [u8]) {
    let (life, init) = match n.life {
        Life::Unborn => (0, 0),
        Life::Alive(init) => (1, init),
        Life::Dead => (2, 0),
    };
    b[..4].copy_from_slice(&[n.parent, n.level, life, init]);
    b[4..].copy_from_slice(&n.last.to_le_bytes());
}

fn process(b: &[u8]) -> Option<Process> {
    let state = match (b[3], b[4]) {
        (0, 0) => State::Running,
        (1, 0) => State::Stopped,
        (2, status) => State::Ended(End::Exited(status)),
        (3, signal) => State::Ended(End::Signaled(signal)),
        _ => return None,
    };
    if b[5] != 0 {
        return None;
    }
    let pids: [u16; LEVELS] = std::array::from_fn(|level| u16_at(b, PIDS + 2 * level));
    let (handled, pending) = (u32_at(b, HANDLED), u32_at(b, PENDING));
    Some(Process { own: b[0], children: b[1], parent: b[2], state, handled, pending, pids })
}

fn namespace(b: &[u8]) -> Option<Namespace> {
    let life = match (b[2], b[3]) {
        (0, 0) => Life::Unborn,
        (1, init) => Life::Alive(init),
        (2, 0) => Life::Dead,
        _ => return None,
    };
    Some(Namespace { parent: b[0], level: b[1], last: u16_at(b, 4), life })
}

fn u16_at(b: &[u8], at: usize) -> u16 {
    u16::from_le_bytes([b[at], b[at + 1]])
}

fn u32_at(b: &[u8], at: usize) -> u32 {
    u32::from(u16_at(b, at)) | u32::from(u16_at(b, at + 2)) << 16
}

#[cfg(test)]
mod tests {
    use super::*;
    use crate::script::run;

    /// A table with processes in every state, an unborn namespace, living ones and a dead one.
    fn many_kinds() -> Table {
        let mut t = Table::fresh();
        let births =
            b"0 clone new\n0 clone\n0 clone\n0 clone new\n0 unshare\n0 handle 30 1\n0 handle 31 1\n0 kill 1 31\n";
        let ends = b"0 kill 3 19\n3 exit 255\n0 kill 5 9\n";
        assert!(!run(&mut t, &[&births[..], ends].concat()).contains('-'));
        t
    }

    #[test]
    fn every_kind_is_there() {
        let t = many_kinds();
        let mut states: Vec<[u8; 2]> = t.each_process().map(|(_, p)| state_bytes(p.state)).collect();
        states.sort();
        assert_eq!(states, [[0, 0], [0, 0], [1, 0], [2, 255], [3, 9]]);
        let lives: Vec<Life> = t.each_namespace().map(|(_, n)| n.life).collect();
        assert_eq!(lives, [Life::Alive(0), Life::Alive(1), Life::Dead, Life::Unborn]);
    }

    #[test]
    fn reading_gives_back_what_was_written() {
        for t in [Table::fresh(), many_kinds(), Table::EMPTY] {
            assert_eq!(table(&bytes(&t)), Some(t));
        }
    }

    /// By the header: the root init's parent and first number, the root's parent, life and last number.
    #[test]
    fn the_fresh_table() {
        let mut fresh = [0; 5408];
        (fresh[2], fresh[6]) = (255, 1);
        (fresh[5120], fresh[5122], fresh[5124]) = (255, 1, 1);
        assert_eq!(bytes(&Table::fresh()), fresh);
    }

    /// Each byte of each record at each value: what is read is written as the same bytes, and what is not read are the
    /// states, ends, reserved bytes, lives and inits that the header names.
    #[test]
    fn what_is_read_is_written_the_same() {
        let all = bytes(&many_kinds());
        for (at, value) in (0..BYTES).flat_map(|at| (0..=255).map(move |value| (at, value))) {
            let mut changed = all;
            changed[at] = value;
            let read = table(&changed);
            assert_eq!(read.is_none(), is_foreign(&changed, at), "byte {at}, value {value}");
            assert!(read.is_none_or(|t| bytes(&t) == changed), "byte {at}, value {value}");
        }
    }

    /// Whether the record around a place has bytes that no writer makes, in the header's words.
    fn is_foreign(all: &Bytes, at: usize) -> bool {
        if at < NAMESPACES_AT {
            let b = &all[at - at % PROCESS_BYTES..];
            b[3] > 3 || b[3] < 2 && b[4] != 0 || b[5] != 0
        } else {
            let b = &all[at - (at - NAMESPACES_AT) % NAMESPACE_BYTES..];
            b[2] > 2 || b[2] != 1 && b[3] != 0
        }
    }
}
