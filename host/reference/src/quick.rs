//! The check of a table by the algorithm of `crates/sound/src/lib.rt`, in ordinary Rust, for the benchmark: each
//! process once, each namespace once, marks for what is held, and a key for each process and level.

use crate::table::{End, Life, Namespace, Process, State, Table, LEVELS, MAX_PID, NAMESPACES, NONE, PROCESSES};

const CATCHABLE: u32 = 0xfff7_fdfe;

pub fn is_sound(t: &Table) -> bool {
    root_ok(t)
        && (0..PROCESSES).all(|i| process_ok(t, i))
        && namespaces_ok(t)
        && (0..PROCESSES).all(|i| reaches_root(t, i))
        && all_differ(&unborn_keys(t))
        && pids_differ(t)
}

/// What lies past the last slot reads as empty.
fn namespace_at(t: &Table, n: u8) -> &Namespace {
    t.namespaces.get(n as usize).unwrap_or(&Namespace::EMPTY)
}

fn process_at(t: &Table, i: u8) -> &Process {
    t.processes.get(i as usize).unwrap_or(&Process::EMPTY)
}

fn holds_namespace(n: u8, s: &Namespace) -> bool {
    n == 0 || s.level != 0
}

fn root_ok(t: &Table) -> bool {
    let (p, n) = (&t.processes[0], &t.namespaces[0]);
    n.life == Life::Alive(0)
        && p.is_taken()
        && !p.has_ended()
        && p.own == 0
        && p.pids[0] == 1
        && p.parent == NONE
        && n.level == 0
        && n.parent == NONE
}

// ---- processes

fn process_ok(t: &Table, i: usize) -> bool {
    let p = &t.processes[i];
    if !p.is_taken() {
        return *p == Process::EMPTY;
    }
    let home = namespace_at(t, p.own);
    member_ok(t, p, home) && (i == 0 || parent_ok(t, p, home))
}

fn member_ok(t: &Table, p: &Process, home: &Namespace) -> bool {
    holds_namespace(p.own, home)
        && home.life != Life::Unborn
        && !matches!(p.state, State::Ended(End::Signaled(s)) if s == 0 || s > 31)
        && p.handled & CATCHABLE == p.handled
        && p.pending & p.handled == p.pending
        && p.pids.iter().enumerate().all(|(l, &pid)| pid_ok(pid, l, home.level as usize))
        && if p.has_ended() { ended_ok(p) } else { living_ok(t, p, home) }
}

fn pid_ok(pid: u16, l: usize, level: usize) -> bool {
    if l > level {
        pid == 0
    } else {
        pid != 0 && pid <= MAX_PID
    }
}

fn ended_ok(p: &Process) -> bool {
    p.children == NONE && p.handled == 0 && p.pending == 0
}

fn living_ok(t: &Table, p: &Process, home: &Namespace) -> bool {
    let inner = namespace_at(t, p.children);
    home.life != Life::Dead
        && holds_namespace(p.children, inner)
        && t.below(p.children, p.own)
        && (inner.life != Life::Unborn || p.own == inner.parent)
}

fn parent_ok(t: &Table, p: &Process, home: &Namespace) -> bool {
    let parent = process_at(t, p.parent);
    let is_first = p.pids.get(home.level as usize) == Some(&1);
    parent.is_taken() && !parent.has_ended() && t.below(p.own, parent.own) && (!is_first || parent.own == home.parent)
}

/// Past the last slot stands an empty process, whose parent is slot 0.
fn reaches_root(t: &Table, i: usize) -> bool {
    let mut at = i;
    for _ in 0..=PROCESSES {
        if at == 0 || at >= PROCESSES {
            return true;
        }
        at = t.processes[at].parent as usize;
    }
    false
}

// ---- namespaces

fn namespaces_ok(t: &Table) -> bool {
    let held = held(t);
    (0..NAMESPACES).all(|n| namespace_ok(t, n as u8, held[n]))
}

/// The root, what the processes hold, and what the namespaces hold.
fn held(t: &Table) -> [bool; NAMESPACES] {
    let mut marks = [false; NAMESPACES];
    marks[0] = true;
    let mut mark = |n: u8| {
        if let Some(m) = marks.get_mut(n as usize) {
            *m = true;
        }
    };
    for p in t.processes.iter().filter(|p| p.is_taken()) {
        mark(p.own);
        mark(p.children);
    }
    for s in t.namespaces[1..].iter().filter(|s| s.level != 0) {
        mark(s.parent);
    }
    marks
}

fn namespace_ok(t: &Table, n: u8, held: bool) -> bool {
    let s = &t.namespaces[n as usize];
    if s.last > MAX_PID || holds_namespace(n, s) != held {
        return false;
    }
    if !holds_namespace(n, s) {
        return *s == Namespace::EMPTY;
    }
    life_ok(t, n, s) && (n == 0 || place_ok(t, s))
}

fn life_ok(t: &Table, n: u8, s: &Namespace) -> bool {
    match s.life {
        Life::Alive(init) => {
            let p = process_at(t, init);
            p.is_taken() && !p.has_ended() && p.own == n && p.pids.get(s.level as usize) == Some(&1)
        }
        Life::Unborn => s.last == 0,
        Life::Dead => true,
    }
}

fn place_ok(t: &Table, s: &Namespace) -> bool {
    let above = namespace_at(t, s.parent);
    holds_namespace(s.parent, above)
        && s.level as usize == above.level as usize + 1
        && (s.level as usize) < LEVELS
        && above.life != Life::Unborn
        && (above.life != Life::Dead || s.life == Life::Dead)
}

// ---- keys

/// Whether no two keys but 0 are equal.
fn all_differ(keys: &[u32; PROCESSES]) -> bool {
    (0..PROCESSES).all(|i| keys[i] == 0 || !keys[..i].contains(&keys[i]))
}

/// The unborn namespace that each process holds, or 0.
fn unborn_keys(t: &Table) -> [u32; PROCESSES] {
    std::array::from_fn(|i| {
        let p = &t.processes[i];
        let inner = namespace_at(t, p.children);
        let unborn = p.is_taken() && holds_namespace(p.children, inner) && inner.life == Life::Unborn;
        if unborn {
            p.children.into()
        } else {
            0
        }
    })
}

/// No two processes have the same number in the same namespace: a key for each process at each level, from the deepest.
fn pids_differ(t: &Table) -> bool {
    let mut tops: [u8; NAMESPACES] = std::array::from_fn(|n| n as u8);
    (0..LEVELS).rev().all(|level| {
        for (top, s) in tops.iter_mut().zip(&t.namespaces) {
            if level < s.level as usize {
                *top = namespace_at(t, *top).parent;
            }
        }
        all_differ(&std::array::from_fn(|i| pid_key(&tops, level, &t.processes[i])))
    })
}

/// The namespace of a process at a level and its number there, or 0 where it has none.
fn pid_key(tops: &[u8; NAMESPACES], level: usize, p: &Process) -> u32 {
    match p.pids[level] {
        0 => 0,
        pid => u32::from(*tops.get(p.own as usize).unwrap_or(&0)) << 16 | u32::from(pid),
    }
}
