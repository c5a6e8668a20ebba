//! The text of a table: of a sound one, and of any other.

use crate::scripts::{busy_but, play};
use lampfunnel::raw::{self, Namespace, Process};
use lampfunnel::{Table, LEVELS, NAMESPACES, PROCESSES};
use std::collections::HashSet;

const BUSY_TREE: &str = "\
6 processes, 5 namespaces
1 slot 0, init of namespace 0 (level 0, last 8), children in namespace 4 (dead), handles 10 15, pending 15
├─2/1 slot 1, init of namespace 1 (level 1, last 4), handles 31
│ ├─3/2 slot 2, namespace 1, children in namespace 2 (unborn)
│ ├─4/3 slot 3, namespace 1, stopped
│ └─8/4 slot 4, namespace 1, ended (gave 7)
└─7/3/2 slot 6, namespace 4 (dead), ended (signal 9)
namespace 2 (level 2, last 0), unborn, below namespace 1
namespace 3 (level 1, last 3), dead, below namespace 0
namespace 4 (level 2, last 2), dead, below namespace 3";

#[test]
fn a_sound_table() {
    assert_eq!(format!("{:?}", busy_but(|_| ())), BUSY_TREE);
}

#[test]
fn siblings_stand_by_their_numbers() {
    let (_, table) = play("0 clone\n0 clone\n1 exit 0\n0 wait\n0 clone\n");
    assert!(format!("{table:?}").ends_with("\n├─3 slot 2, namespace 0\n└─4 slot 1, namespace 0"), "{table:?}");
}

#[test]
fn namespaces_that_are_not_as_they_should_be() {
    let shows = |line: &str, damage: fn(&mut raw::Table)| {
        let text = format!("{:?}", busy_but(damage));
        assert!(text.contains(&format!("{line}\n")), "{text}");
    };
    shows("├─3/2 slot 2, namespace 1, children in no namespace", |table| table.processes[2].children = 255);
    shows("├─3/2 slot 2, namespace 47 (empty), children in namespace 2 (unborn)", |table| {
        table.processes[2].own = 47
    });
    shows("└─8/4 slot 4, namespace 48 (no such slot), ended (gave 7)", |table| table.processes[4].own = 48);
    shows("└─8/4 slot 4, namespace 1, children in namespace 1, ended (gave 7)", |table| {
        table.processes[4].children = 1
    });
    shows("├─2/1 slot 1, namespace 1 (dead), handles 31", |table| table.namespaces[1].life = 2);
}

/// Fields of a table: those of the processes, then those of the namespaces.
const PROCESS_FIELDS: usize = 8 + LEVELS;
const FIELDS: usize = PROCESSES * PROCESS_FIELDS + NAMESPACES * 5;

fn flip_process(p: &mut Process, field: usize, bits: u32) {
    match field {
        0 => p.own ^= bits as u8,
        1 => p.children ^= bits as u8,
        2 => p.parent ^= bits as u8,
        3 => p.state ^= bits as u8,
        4 => p.end ^= bits as u8,
        5 => p.reserved ^= bits as u8,
        6 => p.handled ^= bits,
        7 => p.pending ^= bits,
        level => p.pids[level - 8] ^= bits as u16,
    }
}

fn flip_namespace(n: &mut Namespace, field: usize, bits: u32) {
    match field {
        0 => n.parent ^= bits as u8,
        1 => n.level ^= bits as u8,
        2 => n.life ^= bits as u8,
        3 => n.init ^= bits as u8,
        _ => n.last ^= bits as u16,
    }
}

fn flip(table: &mut raw::Table, field: usize, bits: u32) {
    match field.checked_sub(PROCESSES * PROCESS_FIELDS) {
        None => flip_process(&mut table.processes[field / PROCESS_FIELDS], field % PROCESS_FIELDS, bits),
        Some(field) => flip_namespace(&mut table.namespaces[field / 5], field % 5, bits),
    }
}

/// Damaged in any one field, no two tables have the same text.
#[test]
fn each_field_shows() {
    let busy = busy_but(|_| ());
    let bits = [1, 2, 1 << 7, 1 << 15, 1 << 31, u32::MAX];
    let changes = (0..FIELDS).flat_map(|field| bits.map(|bits| (field, bits)));
    // The high bits are none of a narrow field's.
    let damaged =
        changes.map(|(field, bits)| busy_but(|table| flip(table, field, bits))).filter(|table| *table != busy);
    let mut seen = HashSet::from([BUSY_TREE.to_string()]);
    damaged.for_each(|table| assert!(seen.insert(format!("{table:?}")), "seen before: {table:?}"));
}

/// Whatever the parents are, each process has its line.
fn assert_all_are_listed(parent: impl Fn(usize) -> u8) {
    let process = |slot| Process { parent: parent(slot), pids: [7; LEVELS], ..Process::EMPTY };
    let numbers = raw::Table { processes: std::array::from_fn(process), namespaces: [Namespace::EMPTY; NAMESPACES] };
    let text = format!("{:?}", Table::from_raw(numbers));
    assert!(text.starts_with("64 processes, 1 namespace, not sound\n"), "{text}");
    let lines = |slot: usize| text.lines().filter(|line| line.contains(&format!(" slot {slot}, "))).count();
    assert!((0..PROCESSES).all(|slot| lines(slot) == 1), "{text}");
}

#[test]
fn parents_that_lead_nowhere() {
    assert_all_are_listed(|slot| slot as u8);
    assert_all_are_listed(|slot| (slot as u8 + 1) % 64);
    assert_all_are_listed(|slot| slot as u8 ^ 1);
    assert_all_are_listed(|_| 63);
    assert_all_are_listed(|_| 64);
    assert_all_are_listed(|slot| (slot as u8).wrapping_sub(1));
    assert_all_are_listed(|_| 255);
}

#[test]
fn the_lost_are_listed_at_the_end() {
    let table = busy_but(|table| table.processes[2].parent = 3);
    let cycle = busy_but(|table| (table.processes[2].parent, table.processes[3].parent) = (3, 2));
    assert!(format!("{table:?}").contains("│ ├─4/3 slot 3, namespace 1, stopped\n│ │ └─3/2 slot 2, namespace 1"));
    assert!(format!("{cycle:?}").contains("\n4/3 slot 3, namespace 1, stopped, parent 2\n"));
}

/// The worst of all bytes, and none at all.
#[test]
fn all_ones_and_all_zero() {
    let ones = Process {
        own: 255,
        children: 255,
        parent: 255,
        state: 255,
        end: 255,
        reserved: 255,
        pids: [65_535; LEVELS],
        handled: u32::MAX,
        pending: u32::MAX,
    };
    let namespace = Namespace { parent: 255, level: 255, life: 255, init: 255, last: 65_535 };
    let ones = Table::from_raw(raw::Table { processes: [ones; PROCESSES], namespaces: [namespace; NAMESPACES] });
    assert_eq!(format!("{ones:?}").lines().count(), 1 + PROCESSES + NAMESPACES);
    let zero = raw::Table { processes: [Process::EMPTY; PROCESSES], namespaces: [Namespace::EMPTY; NAMESPACES] };
    let text = "0 processes, 1 namespace, not sound\nnamespace 0 (level 0, last 0), unborn, below namespace 0";
    assert_eq!(format!("{:?}", Table::from_raw(zero)), text);
}
