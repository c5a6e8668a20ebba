//! "When a table is sound", sentence by sentence.

use crate::table::{End, Life, Namespace, Process, State, Table, LEVELS, MAX_PID, NAMESPACES, NONE, PROCESSES};

/// A check of a table: this one, or that of `quick`.
pub type Check = fn(&Table) -> bool;

/// Signals 9 and 19 cannot be handled, and there is no signal 0.
const CATCHABLE: u32 = !(1 | 1 << 9 | 1 << 19);

pub fn is_sound(t: &Table) -> bool {
    root_is_sound(t)
        && empty_slots_are_zero(t)
        && t.each_namespace().all(|(n, s)| namespace_is_sound(t, n, s))
        && (0..NAMESPACES as u8).all(|n| t.namespace(n).is_some() == t.is_held(n))
        && t.each_process().all(|(i, p)| process_is_sound(t, i, p))
        && t.each_process().all(|(i, _)| reaches_root(t, i))
        && numbers_differ(t)
}

fn root_is_sound(t: &Table) -> bool {
    let (p, n) = (&t.processes[0], &t.namespaces[0]);
    p.is_taken()
        && !p.has_ended()
        && p.own == 0
        && p.pids[0] == 1
        && p.parent == NONE
        && n.life == Life::Alive(0)
        && n.level == 0
        && n.parent == NONE
}

fn empty_slots_are_zero(t: &Table) -> bool {
    t.processes.iter().all(|p| p.is_taken() || *p == Process::EMPTY)
        && t.namespaces.iter().skip(1).all(|n| n.level != 0 || *n == Namespace::EMPTY)
}

fn namespace_is_sound(t: &Table, n: u8, s: &Namespace) -> bool {
    let life = match s.life {
        Life::Dead => true,
        // Its init belongs to it, isn't ended and has number 1; that nobody else has 1 follows from `numbers_differ`.
        Life::Alive(init) => {
            t.process(init).is_some_and(|p| p.own == n && !p.has_ended() && p.pids.get(s.level as usize) == Some(&1))
        }
        Life::Unborn => unborn_is_sound(t, n, s),
    };
    s.last <= MAX_PID && life && (n == 0 || place_is_sound(t, s))
}

fn place_is_sound(t: &Table, s: &Namespace) -> bool {
    t.namespace(s.parent).is_some_and(|up| {
        s.level as usize == up.level as usize + 1
            && (s.level as usize) < LEVELS
            && (up.life != Life::Dead || s.life == Life::Dead)
    })
}

fn unborn_is_sound(t: &Table, n: u8, s: &Namespace) -> bool {
    let mut holders = t.each_process().filter(|(_, p)| p.children == n);
    let one_holder = holders.next().is_some_and(|(_, p)| p.own == s.parent) && holders.next().is_none();
    s.last == 0
        && one_holder
        && t.each_process().all(|(_, p)| p.own != n)
        && t.each_namespace().all(|(m, s)| m == 0 || s.parent != n)
}

fn process_is_sound(t: &Table, i: u8, p: &Process) -> bool {
    let Some(home) = t.namespace(p.own) else { return false };
    let numbers =
        p.pids
            .iter()
            .enumerate()
            .all(|(l, &pid)| if l <= home.level as usize { (1..=MAX_PID).contains(&pid) } else { pid == 0 });
    let signals = p.handled & !CATCHABLE == 0 && p.pending & !p.handled == 0;
    let state = match p.state {
        State::Ended(how) => {
            !matches!(how, End::Signaled(s) if s == 0 || s > 31)
                && p.children == NONE
                && p.handled == 0
                && p.pending == 0
        }
        State::Running | State::Stopped => {
            home.life != Life::Dead && t.namespace(p.children).is_some() && t.below(p.children, p.own)
        }
    };
    home.life != Life::Unborn && numbers && signals && state && (i == 0 || parent_is_sound(t, p, home))
}

fn parent_is_sound(t: &Table, p: &Process, home: &Namespace) -> bool {
    t.process(p.parent).is_some_and(|parent| {
        let is_first = p.pids.get(home.level as usize) == Some(&1);
        !parent.has_ended() && t.below(p.own, parent.own) && (!is_first || parent.own == home.parent)
    })
}

fn reaches_root(t: &Table, i: u8) -> bool {
    let mut at = i;
    for _ in 0..PROCESSES {
        if at == 0 {
            return true;
        }
        let Some(p) = t.process(at) else { return false };
        at = p.parent;
    }
    at == 0
}

/// No two processes share a number in a namespace that sees both. Levels and places are known to be sound by now.
fn numbers_differ(t: &Table) -> bool {
    t.each_process().all(|(i, p)| {
        t.each_process().take_while(|(j, _)| *j < i).all(|(_, q)| {
            let shared = t.namespaces[p.own as usize].level.min(t.namespaces[q.own as usize].level);
            (0..=shared).all(|l| p.pids[l as usize] != q.pids[l as usize] || above(t, p.own, l) != above(t, q.own, l))
        })
    })
}

/// The namespace at a level that is n or above it.
fn above(t: &Table, mut n: u8, level: u8) -> u8 {
    while t.namespaces[n as usize].level > level {
        n = t.namespaces[n as usize].parent;
    }
    n
}
