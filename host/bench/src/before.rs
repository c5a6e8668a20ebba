//! The search for a number as the library made it before it marked the numbers that are taken: one candidate after the
//! other, with the same loops and the same tests in their order, as ordinary Rust. It stays as it is, so that today's
//! search can always be timed beside it.

use reference::table::{Namespace, Process, Table, MAX_PID, NAMESPACES};

const RESTART_PID: u16 = 300;

/// The parents and the levels of all namespaces.
struct Tree {
    up: [u8; NAMESPACES],
    levels: [u8; NAMESPACES],
}

impl Tree {
    fn of(namespaces: &[Namespace; NAMESPACES]) -> Tree {
        Tree { up: namespaces.map(|n| n.parent), levels: namespaces.map(|n| n.level) }
    }

    fn parent(&self, n: u8) -> u8 {
        self.up.get(usize::from(n)).copied().unwrap_or(0)
    }

    fn level(&self, n: u8) -> u8 {
        self.levels.get(usize::from(n)).copied().unwrap_or(0)
    }

    /// Whether the climb from a, which has this level, comes to b.
    fn below(&self, a: u8, b: u8, level: u8) -> bool {
        if a == b {
            return true;
        }
        if level == 0 {
            return false;
        }
        self.below(self.parent(a), b, level - 1)
    }

    fn seen(&self, n: u8, p: &Process) -> bool {
        p.is_taken() && self.below(p.own, n, self.level(p.own))
    }

    /// The number is compared first: few processes have it, and a climb takes longer.
    fn is_named(&self, n: u8, level: u8, pid: u16, p: &Process) -> bool {
        p.pid(usize::from(level)) == pid && self.seen(n, p)
    }
}

/// The lowest number from one on that nobody seen from n has there, or one past the greatest.
fn free_from(t: &Table, n: u8, from: u16) -> u16 {
    let tree = Tree::of(&t.namespaces);
    let level = tree.level(n);
    let mut candidate = from;
    'candidates: loop {
        if MAX_PID < candidate {
            return candidate;
        }
        for p in &t.processes {
            if tree.is_named(n, level, candidate, p) {
                candidate += 1;
                continue 'candidates;
            }
        }
        return candidate;
    }
}

/// The lowest free number above the last one of n, or else the lowest free from 300.
pub fn next_pid(t: &Table, n: u8) -> u16 {
    let last = t.namespaces.get(usize::from(n)).map_or(0, |s| s.last);
    // A last number past the greatest has none above it, and the sum could wrap.
    if last < MAX_PID {
        let above = free_from(t, n, last + 1);
        if above <= MAX_PID {
            return above;
        }
    }
    free_from(t, n, RESTART_PID)
}

#[cfg(test)]
mod tests {
    use super::*;
    use crate::taken::cases;

    const LASTS: [u16; 10] = [0, 1, 299, 300, 361, MAX_PID - 31, MAX_PID - 1, MAX_PID, MAX_PID + 1, u16::MAX];

    fn agrees(mut t: Table, n: u8, last: u16) {
        t.namespaces[usize::from(n)].last = last;
        assert_eq!(next_pid(&t, n), t.next_number(n), "namespace {n}, last number {last}");
    }

    fn agrees_in_each(t: &Table) {
        let namespaces = 0..NAMESPACES as u8;
        namespaces.for_each(|n| LASTS.iter().for_each(|&last| agrees(t.clone(), n, last)));
    }

    #[test]
    fn the_reference_finds_the_same() {
        cases().iter().for_each(|case| agrees_in_each(&case.table));
    }

    /// A slot that is empty, as it has no number in the root, and has others; two namespaces, each the other's parent.
    #[test]
    fn the_reference_finds_the_same_in_a_damaged_table() {
        let [.., chain] = cases();
        let mut t = chain.table;
        t.processes[40].pids[0] = 0;
        t.namespaces[3].parent = 4;
        agrees_in_each(&t);
    }
}
