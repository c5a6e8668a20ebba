//! What the readers give of a table that has something of everything.

use crate::scripts::busy_but;
use lampfunnel::{End, Life, Namespace, NamespaceSlot, Pid, Slot, State, Table};

fn states(table: &Table) -> Vec<(u8, State)> {
    table.processes().map(|(slot, process)| (slot.0, process.state)).collect()
}

fn lives(table: &Table) -> Vec<(u8, Life)> {
    table.namespaces().map(|(slot, namespace)| (slot.0, namespace.life)).collect()
}

#[test]
fn states_and_lives() {
    let table = busy_but(|_| ());
    assert!(table.is_sound());
    let [gave, signaled] = [End::Exited(7), End::Signaled(9)].map(State::Ended);
    let running = State::Running;
    let expected = [(0, running), (1, running), (2, running), (3, State::Stopped), (4, gave), (6, signaled)];
    assert_eq!(states(&table), expected);
    let alive = |slot| Life::Alive(Slot(slot));
    assert_eq!(lives(&table), [(0, alive(0)), (1, alive(1)), (2, Life::Unborn), (3, Life::Dead), (4, Life::Dead)]);
}

#[test]
fn a_process_and_its_namespaces() {
    let table = busy_but(|_| ());
    let root = table.process(Slot::ROOT).unwrap();
    assert_eq!((root.own, root.children, root.parent), (NamespaceSlot(0), Some(NamespaceSlot(4)), None));
    assert_eq!((root.handled, root.pending, root.pids), (1 << 10 | 1 << 15, 1 << 15, vec![Pid(1)]));
    let zombie = table.process(Slot(6)).unwrap();
    assert_eq!((zombie.own, zombie.children, zombie.parent), (NamespaceSlot(4), None, Some(Slot::ROOT)));
    assert_eq!(zombie.pids, [7, 3, 2].map(Pid));
    let Namespace { parent, level, last, .. } = table.namespace(NamespaceSlot(4)).unwrap();
    assert_eq!((parent, level, last), (Some(NamespaceSlot(3)), 2, Pid(2)));
    assert_eq!(table.next_pid(NamespaceSlot(4)), Some(Pid(3)));
}

#[test]
fn slots_that_are_empty_or_beyond() {
    let table = busy_but(|_| ());
    assert!([5, 7, 63, 64, 255].iter().all(|&slot| table.process(Slot(slot)).is_none()));
    assert!([5, 47, 48, 255].iter().all(|&slot| table.namespace(NamespaceSlot(slot)).is_none()));
}

#[test]
fn bytes_that_mean_nothing() {
    let table = busy_but(|table| (table.processes[1].state, table.namespaces[1].life) = (4, 3));
    assert_eq!(states(&table)[1], (1, State::Ended(End::Signaled(0))));
    assert_eq!(lives(&table)[1], (1, Life::Dead));
}
