//! What a step changed, process by process and namespace by namespace.

use crate::play::Step;
use crate::words::{ended, signals, Names};
use lampfunnel::{End, Life, Namespace, NamespaceSlot, Process, Slot, State, NAMESPACES, PROCESSES};

/// What a step did to a process.
#[derive(Clone, Copy, PartialEq, Eq, Debug)]
pub enum Change {
    Born,
    Gone,
    Ended(End),
    Stopped,
    Resumed,
    Handles(u32),
    Pending(u32),
    Parent(Slot),
    Children(NamespaceSlot),
}

impl Change {
    /// A word for a mark in a picture.
    pub fn mark(self) -> &'static str {
        match self {
            Change::Born => "new",
            Change::Gone => "removed",
            Change::Ended(_) => "ended now",
            Change::Stopped => "stopped now",
            Change::Resumed => "resumed",
            Change::Handles(_) | Change::Pending(_) => "signals changed",
            Change::Parent(_) => "new parent",
            Change::Children(_) => "children turned",
        }
    }

    /// After the name of the process.
    fn told(self, names: &Names) -> String {
        match self {
            Change::Born => "is new".to_string(),
            Change::Gone => "is removed".to_string(),
            Change::Ended(end) => ended(end),
            Change::Stopped => "is stopped".to_string(),
            Change::Resumed => "runs again".to_string(),
            Change::Handles(0) => "handles no signal".to_string(),
            Change::Handles(set) => format!("handles {}", signals(set)),
            Change::Pending(0) => "has no pending signal".to_string(),
            Change::Pending(set) => format!("has pending {}", signals(set)),
            Change::Parent(slot) => format!("is now a child of {}", names.who(slot)),
            Change::Children(namespace) => format!("has its next children in namespace {namespace}"),
        }
    }
}

/// What a step did to a namespace.
#[derive(Clone, Copy, PartialEq, Eq, Debug)]
pub enum Turn {
    Made,
    Lives,
    Died,
    Freed,
}

impl Turn {
    /// A word for a mark in a picture.
    pub fn mark(self) -> &'static str {
        match self {
            Turn::Made => "new",
            Turn::Lives => "lives now",
            Turn::Died => "dead now",
            Turn::Freed => "freed",
        }
    }

    fn told(self) -> &'static str {
        match self {
            Turn::Made => "is new",
            Turn::Lives => "lives",
            Turn::Died => "is dead",
            Turn::Freed => "is freed",
        }
    }
}

/// The changes of a process, which keeps its slot as long as it is in the table.
pub fn of_process(before: Option<&Process>, after: Option<&Process>) -> Vec<Change> {
    match (before, after) {
        (None, None) => Vec::new(),
        (None, Some(_)) => vec![Change::Born],
        (Some(_), None) => vec![Change::Gone],
        (Some(before), Some(after)) => fields(before, after),
    }
}

fn fields(before: &Process, after: &Process) -> Vec<Change> {
    let state = (before.state != after.state).then_some(match after.state {
        State::Running => Change::Resumed,
        State::Stopped => Change::Stopped,
        State::Ended(end) => Change::Ended(end),
    });
    let parent = after.parent.filter(|_| before.parent != after.parent).map(Change::Parent);
    // An end takes the signals and the children's namespace with it, and says so.
    let children = after.children.filter(|_| before.children != after.children).map(Change::Children);
    let lasts = after.children.is_some();
    let handles = (lasts && before.handled != after.handled).then_some(Change::Handles(after.handled));
    let pending = (lasts && before.pending != after.pending).then_some(Change::Pending(after.pending));
    [state, parent, children, handles, pending].into_iter().flatten().collect()
}

pub fn of_namespace(before: Option<&Namespace>, after: Option<&Namespace>) -> Option<Turn> {
    match (before, after) {
        (None, None) => None,
        (None, Some(_)) => Some(Turn::Made),
        (Some(_), None) => Some(Turn::Freed),
        (Some(before), Some(after)) if before.life == after.life => None,
        (Some(_), Some(after)) => Some(if after.life == Life::Dead { Turn::Died } else { Turn::Lives }),
    }
}

/// Where there are more changes, the others are counted.
const MOST: usize = 12;

/// What a step changed, in words.
pub fn told(step: &Step, names: &Names) -> Vec<String> {
    let processes = (0..PROCESSES as u8).map(Slot).flat_map(|slot| process_told(step, slot, names));
    let namespaces = (0..NAMESPACES as u8).map(NamespaceSlot).filter_map(|slot| namespace_told(step, slot));
    let mut all: Vec<String> = processes.chain(namespaces).collect();
    if all.is_empty() {
        return vec!["nothing changes".to_string()];
    }
    let more = all.len().saturating_sub(MOST);
    all.truncate(MOST);
    all.extend((more > 0).then(|| format!("{more} more changes")));
    all
}

fn process_told(step: &Step, slot: Slot, names: &Names) -> Vec<String> {
    let changes = of_process(step.before.process(slot).as_ref(), step.after.process(slot).as_ref());
    changes.into_iter().map(|change| format!("{} {}", names.who(slot), change.told(names))).collect()
}

fn namespace_told(step: &Step, slot: NamespaceSlot) -> Option<String> {
    let turn = of_namespace(step.before.namespace(slot).as_ref(), step.after.namespace(slot).as_ref())?;
    Some(format!("namespace {slot} {}", turn.told()))
}
