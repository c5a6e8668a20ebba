//! A table as text: its processes as a tree by parents, as `pstree` shows one, each with its namespace, as `lsns` does.
//! Any table has its text, and in that of one that is not sound each byte shows.

use crate::{raw, Table, NAMESPACES, PROCESSES};
use std::fmt;

impl fmt::Debug for Table {
    fn fmt(&self, f: &mut fmt::Formatter) -> fmt::Result {
        f.write_str(&self.as_raw().lines(self.is_sound()).join("\n"))
    }
}

impl raw::Table {
    fn lines(&self, sound: bool) -> Vec<String> {
        let roots = self.children(raw::NONE).into_iter();
        let tree: Vec<(usize, String)> = roots.flat_map(|root| self.tree(root, "", "")).collect();
        // In a damaged table a parent may be nobody, or a descendant.
        let lost = self.taken().filter(|slot| tree.iter().all(|(shown, _)| shown != slot));
        // A sound table's living namespaces stand beside their inits.
        let listed = self.namespaces_taken().filter(|&slot| !sound || self.namespaces[slot].life != 1);
        let mut lines = vec![self.head(sound)];
        lines.extend(tree.iter().map(|(slot, strokes)| format!("{strokes}{}", self.process(*slot))));
        lines.extend(lost.map(|slot| format!("{}, parent {}", self.process(slot), self.processes[slot].parent)));
        lines.extend(listed.map(|slot| self.namespace(slot)));
        lines.extend(self.leftovers());
        lines
    }

    fn head(&self, sound: bool) -> String {
        let processes = counted(self.taken().count(), "process", "processes");
        let namespaces = counted(self.namespaces_taken().count(), "namespace", "namespaces");
        format!("{processes}, {namespaces}{}", if sound { "" } else { ", not sound" })
    }

    /// The slots that are taken.
    fn taken(&self) -> impl Iterator<Item = usize> + '_ {
        (0..PROCESSES).filter(|&slot| self.processes[slot].pids[0] != 0)
    }

    fn namespaces_taken(&self) -> impl Iterator<Item = usize> + '_ {
        (0..NAMESPACES).filter(|&slot| slot == 0 || self.namespaces[slot].level != 0)
    }

    /// The slots of a process's children, by their numbers.
    fn children(&self, parent: u8) -> Vec<usize> {
        let mut children: Vec<usize> = self.taken().filter(|&slot| self.processes[slot].parent == parent).collect();
        children.sort_by_key(|&slot| self.processes[slot].pids[0]);
        children
    }

    /// A process and all below it, each with the strokes before it. Each has one parent, so this ends if the first one
    /// has none.
    fn tree(&self, slot: usize, before: &str, below: &str) -> Vec<(usize, String)> {
        let children = self.children(slot as u8);
        let mut all = vec![(slot, before.to_string())];
        for &child in &children {
            let (branch, bar) = if Some(&child) == children.last() { ("└─", "  ") } else { ("├─", "│ ") };
            all.extend(self.tree(child, &format!("{below}{branch}"), &format!("{below}{bar}")));
        }
        all
    }

    /// Its numbers from the root's level on, its slot, its namespace, and what is not the common case.
    fn process(&self, slot: usize) -> String {
        let p = &self.processes[slot];
        let levels = p.pids.iter().rposition(|&pid| pid != 0).map_or(0, |deepest| deepest + 1);
        let pids: Vec<String> = p.pids[..levels].iter().map(u16::to_string).collect();
        let own = match self.namespaces.get(usize::from(p.own)) {
            Some(n) if n.life == 1 && usize::from(n.init) == slot => format!("init of namespace {}", of(p.own, n)),
            _ => self.named(p.own),
        };
        let usual = if p.state > 1 { raw::NONE } else { p.own };
        let children = Some(p.children).filter(|&children| children != usual);
        let children = children.map_or(String::new(), |children| format!(", children in {}", self.named(children)));
        let signals = signals("handles", p.handled) + &signals("pending", p.pending);
        format!("{} slot {slot}, {own}{children}{}{signals}", pids.join("/"), state(p))
    }

    /// A namespace by its slot, and what a child would find there.
    fn named(&self, slot: u8) -> String {
        let note = match self.namespaces.get(usize::from(slot)) {
            None if slot == raw::NONE => return "no namespace".to_string(),
            None => " (no such slot)",
            Some(n) if slot != 0 && n.level == 0 => " (empty)",
            Some(n) => [" (unborn)", "", " (dead)"].get(usize::from(n.life)).unwrap_or(&""),
        };
        format!("namespace {slot}{note}")
    }

    fn namespace(&self, slot: usize) -> String {
        let n = &self.namespaces[slot];
        let life = match (n.life, n.init) {
            (0, 0) => "unborn".to_string(),
            (1, init) => format!("alive, init at slot {init}"),
            (2, 0) => "dead".to_string(),
            (life, init) => format!("life {life} with init {init}"),
        };
        let above = if n.parent == raw::NONE { "none".to_string() } else { format!("namespace {}", n.parent) };
        format!("namespace {}, {life}, below {above}", of(slot as u8, n))
    }

    /// What is not zero in empty slots.
    fn leftovers(&self) -> impl Iterator<Item = String> + '_ {
        let processes = (0..PROCESSES).map(|slot| (slot, &self.processes[slot]));
        let namespaces = (1..NAMESPACES).map(|slot| (slot, &self.namespaces[slot]));
        processes
            .filter(|(_, p)| p.pids[0] == 0 && **p != raw::Process::EMPTY)
            .map(|(slot, p)| format!("slot {slot} is empty but not zero: {p:?}"))
            .chain(
                namespaces
                    .filter(|(_, n)| n.level == 0 && **n != raw::Namespace::EMPTY)
                    .map(|(slot, n)| format!("namespace {slot} is empty but not zero: {n:?}")),
            )
    }
}

fn of(slot: u8, n: &raw::Namespace) -> String {
    format!("{slot} (level {}, last {})", n.level, n.last)
}

fn counted(count: usize, one: &str, many: &str) -> String {
    format!("{count} {}", if count == 1 { one } else { many })
}

/// Nothing for a running process; bytes that mean nothing as they are.
fn state(p: &raw::Process) -> String {
    let state = match (p.state, p.end) {
        (0, 0) => String::new(),
        (1, 0) => ", stopped".to_string(),
        (2, end) => format!(", ended (gave {end})"),
        (3, end) => format!(", ended (signal {end})"),
        (state, end) => format!(", state {state} with end {end}"),
    };
    let reserved = if p.reserved == 0 { String::new() } else { format!(", reserved {}", p.reserved) };
    state + &reserved
}

/// The signals of a set, as numbers; nothing where there is none.
fn signals(name: &str, set: u32) -> String {
    let numbers: String = (0..32).filter(|signal| set >> signal & 1 == 1).map(|signal| format!(" {signal}")).collect();
    if set == 0 {
        numbers
    } else {
        format!(", {name}{numbers}")
    }
}
