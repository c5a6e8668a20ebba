//! What a picture of one step has: a box for each namespace, a card for each process, and the marks of the step. What
//! the step took away is there for the last time.

use crate::changes::{of_namespace, of_process, Change, Turn};
use crate::play::Step;
use crate::words::{signals, Names};
use lampfunnel::{End, Life, Namespace, NamespaceSlot, Pid, Process, Slot, State, Table, NAMESPACES, PROCESSES};

pub struct Scene {
    pub spaces: Vec<Space>,
    pub cards: Vec<Card>,
}

/// A namespace.
pub struct Space {
    pub slot: NamespaceSlot,
    pub parent: Option<NamespaceSlot>,
    pub level: u8,
    pub look: SpaceLook,
    pub lines: [String; 2],
    pub marks: Vec<Mark>,
    /// The process that its init is a child of, or that holds it for its next child, if that stands in the box around.
    pub owner: Option<Slot>,
}

#[derive(Clone, Copy, PartialEq, Eq, Debug)]
pub enum SpaceLook {
    Unborn,
    Alive,
    Dead,
    Gone,
}

/// A process.
pub struct Card {
    pub slot: Slot,
    pub own: NamespaceSlot,
    pub parent: Option<Slot>,
    /// Its number in its own namespace.
    pub number: u16,
    pub init: bool,
    pub pending: bool,
    pub look: CardLook,
    pub lines: Vec<String>,
    pub marks: Vec<Mark>,
    /// All of its numbers, for who asks.
    pub numbers: String,
}

impl Card {
    /// The word below its number.
    pub fn role(&self) -> &'static str {
        match self.look {
            CardLook::Ended => "ended",
            CardLook::Gone => "gone",
            _ if self.init => "init",
            _ => "",
        }
    }
}

#[derive(Clone, Copy, PartialEq, Eq, Debug)]
pub enum CardLook {
    Running,
    Stopped,
    Ended,
    Gone,
}

/// A mark has its word; the kind gives its colour.
#[derive(Clone, PartialEq, Eq, Debug)]
pub struct Mark {
    pub kind: MarkKind,
    pub word: &'static str,
}

#[derive(Clone, Copy, PartialEq, Eq, Debug)]
pub enum MarkKind {
    Caller,
    Good,
    Bad,
    Other,
}

impl Scene {
    pub fn of(step: &Step, names: &Names) -> Scene {
        let caller = step.asked.map(|(slot, _)| slot).filter(|&slot| step.before.process(slot).is_some());
        let slots = (0..PROCESSES as u8).map(Slot);
        let cards: Vec<Card> = slots.filter_map(|slot| card(step, slot, caller == Some(slot), names)).collect();
        let view = caller.and_then(|slot| step.before.process(slot)).map(|process| process.own);
        let slots = (0..NAMESPACES as u8).map(NamespaceSlot);
        let mut spaces: Vec<Space> = slots.filter_map(|slot| space(step, slot, view == Some(slot))).collect();
        spaces.iter_mut().for_each(|space| space.owner = owner(space, &cards, [&step.after, &step.before]));
        Scene { spaces, cards }
    }

    pub fn card(&self, slot: Slot) -> Option<&Card> {
        self.cards.iter().find(|card| card.slot == slot)
    }
}

fn card(step: &Step, slot: Slot, caller: bool, names: &Names) -> Option<Card> {
    let (before, after) = (step.before.process(slot), step.after.process(slot));
    let marks = caller.then_some(Mark { kind: MarkKind::Caller, word: "caller" });
    let changes = of_process(before.as_ref(), after.as_ref()).into_iter().map(change_mark);
    let gone = after.is_none();
    let process = after.or(before)?;
    let number = process.pids.last()?.0;
    let look = match process.state {
        _ if gone => CardLook::Gone,
        State::Running => CardLook::Running,
        State::Stopped => CardLook::Stopped,
        State::Ended(_) => CardLook::Ended,
    };
    let mut lines = lines(slot, &process, gone, names);
    lines.extend(foreign_parent(step, &process).map(|parent| format!("child of slot {parent}")));
    Some(Card {
        slot,
        own: process.own,
        parent: process.parent,
        number,
        // Nobody else gets a namespace's first number.
        init: number == 1,
        pending: process.pending != 0,
        look,
        lines,
        marks: marks.into_iter().chain(changes).collect(),
        numbers: numbers(&process),
    })
}

/// The parent, where no line can lead to it: it stands in another box. An init's box hangs from its parent.
fn foreign_parent(step: &Step, process: &Process) -> Option<Slot> {
    let parent = process.parent.filter(|_| process.pids.last() != Some(&Pid(1)))?;
    let own = step.after.process(parent).or(step.before.process(parent))?.own;
    (own != process.own).then_some(parent)
}

fn change_mark(change: Change) -> Mark {
    let kind = match change {
        Change::Born | Change::Resumed => MarkKind::Good,
        Change::Gone | Change::Ended(_) | Change::Stopped => MarkKind::Bad,
        _ => MarkKind::Other,
    };
    Mark { kind, word: change.mark() }
}

fn numbers(process: &Process) -> String {
    let numbers: Vec<String> = process.pids.iter().map(|pid| pid.to_string()).collect();
    numbers.join("/")
}

/// The name, or the slot; the state; and what is not the common case.
fn lines(slot: Slot, process: &Process, gone: bool, names: &Names) -> Vec<String> {
    let (head, slot_line) = match names.get(slot) {
        Some(name) => (name.to_string(), format!("slot {slot}, ")),
        None => (format!("slot {slot}"), String::new()),
    };
    let state = match process.state {
        State::Running | State::Stopped if gone => format!("{slot_line}gone"),
        State::Running => format!("{slot_line}running"),
        State::Stopped => format!("{slot_line}stopped"),
        State::Ended(End::Exited(status)) => format!("{slot_line}gave {status}"),
        State::Ended(End::Signaled(signal)) => format!("{slot_line}signal {signal}"),
    };
    let elsewhere = process.children.filter(|&children| children != process.own);
    let lines = [
        Some(head),
        Some(state),
        outside(&process.pids),
        elsewhere.map(|children| format!("children in ns {children}")),
        (process.handled != 0).then(|| format!("handles {}", signals(process.handled))),
        (process.pending != 0).then(|| format!("pending {}", signals(process.pending))),
    ];
    lines.into_iter().flatten().collect()
}

/// Its numbers in the namespaces around its own, from the root inward; without the middle where there are many.
fn outside(pids: &[Pid]) -> Option<String> {
    match pids {
        [] | [_] => None,
        [root, _] => Some(format!("{root} in namespace 0")),
        [root, next, _] => Some(format!("outside {root}/{next}")),
        [root, .., last, _] => Some(format!("outside {root}/…/{last}")),
    }
}

fn space(step: &Step, slot: NamespaceSlot, view: bool) -> Option<Space> {
    let (before, after) = (step.before.namespace(slot), step.after.namespace(slot));
    let turn = of_namespace(before.as_ref(), after.as_ref());
    let namespace = after.or(before)?;
    let (look, condition) = match namespace.life {
        _ if after.is_none() => (SpaceLook::Gone, "freed"),
        Life::Unborn => (SpaceLook::Unborn, "unborn"),
        Life::Alive(_) => (SpaceLook::Alive, "alive"),
        Life::Dead => (SpaceLook::Dead, "dead"),
    };
    let word = if namespace.level == 0 { "the caller sees all" } else { "the caller sees this box only" };
    let marks = view.then_some(Mark { kind: MarkKind::Caller, word });
    Some(Space {
        slot,
        parent: namespace.parent,
        level: namespace.level,
        look,
        lines: [format!("namespace {slot}, {condition}"), second_line(&step.after, slot, &namespace, look)],
        marks: marks.into_iter().chain(turn.map(turn_mark)).collect(),
        owner: None,
    })
}

/// A dead namespace gives no more numbers.
fn second_line(table: &Table, slot: NamespaceSlot, namespace: &Namespace, look: SpaceLook) -> String {
    let gives = matches!(look, SpaceLook::Unborn | SpaceLook::Alive);
    let next = table.next_pid(slot).filter(|_| gives).map(|pid| format!(", next number {pid}"));
    format!("level {}{}", namespace.level, next.unwrap_or_default())
}

fn turn_mark(turn: Turn) -> Mark {
    let kind = if matches!(turn, Turn::Made | Turn::Lives) { MarkKind::Good } else { MarkKind::Bad };
    Mark { kind, word: turn.mark() }
}

/// The parent of the first process that has one in the box around, or else who holds the namespace for its children.
fn owner(space: &Space, cards: &[Card], tables: [&Table; 2]) -> Option<Slot> {
    let around = |slot: &Slot| cards.iter().any(|card| card.slot == *slot && Some(card.own) == space.parent);
    let mut members: Vec<&Card> = cards.iter().filter(|card| card.own == space.slot).collect();
    members.sort_by_key(|card| card.number);
    let parent = members.into_iter().filter_map(|card| card.parent).find(around);
    let mut holders = tables.into_iter().flat_map(Table::processes);
    parent.or_else(|| holders.find(|(slot, p)| p.children == Some(space.slot) && around(slot)).map(|(slot, _)| slot))
}
