//! Bytes that no call leaves behind, at taken and at empty slots: the table is not sound, and is left to the last bit.

use crate::requests::assert_all_refused;
use crate::scripts::busy_but;
use lampfunnel::{raw, NamespaceSlot, Pid, Table, NAMESPACES, PROCESSES};

fn assert_caught(damaged: &Table) {
    assert!(!damaged.is_sound(), "{damaged:?}");
    [0, 1, 256].iter().for_each(|&caller| assert_all_refused(damaged, caller, -1000));
    let next: Vec<Option<Pid>> = (0..=48).map(|slot| damaged.next_pid(NamespaceSlot(slot))).collect();
    assert_eq!(next, [vec![Some(Pid(1)); NAMESPACES], vec![None]].concat(), "it reads as all zero");
}

/// Each of these bytes is caught at each of these slots, one at a time.
fn caught(slots: impl Iterator<Item = usize>, bytes: [u8; 3], put: fn(&mut raw::Table, usize, u8)) {
    for (slot, byte) in slots.flat_map(|slot| bytes.map(|byte| (slot, byte))) {
        assert_caught(&busy_but(|table| put(table, slot, byte)));
    }
}

#[test]
fn a_state_above_3() {
    caught(0..PROCESSES, [4, 128, 255], |table, slot, byte| table.processes[slot].state = byte);
}

#[test]
fn an_end_beside_a_process_that_has_not_ended() {
    let slots = (0..PROCESSES).filter(|slot| ![4, 6].contains(slot));
    caught(slots, [1, 9, 255], |table, slot, byte| table.processes[slot].end = byte);
}

#[test]
fn a_reserved_byte() {
    caught(0..PROCESSES, [1, 128, 255], |table, slot, byte| table.processes[slot].reserved = byte);
}

#[test]
fn a_life_above_2() {
    caught(0..NAMESPACES, [3, 128, 255], |table, slot, byte| table.namespaces[slot].life = byte);
}

#[test]
fn an_init_beside_a_namespace_that_is_not_alive() {
    caught(2..NAMESPACES, [1, 128, 255], |table, slot, byte| table.namespaces[slot].init = byte);
}
