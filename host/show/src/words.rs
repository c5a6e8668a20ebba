//! Questions, answers and records in plain words.

use crate::play::{Answer, Step};
use lampfunnel::{Call, End, Refusal, Reply, Slot};
use std::collections::BTreeMap;

/// Names for the processes at some slots.
#[derive(Clone, PartialEq, Eq, Default, Debug)]
pub struct Names(BTreeMap<Slot, String>);

impl Names {
    pub fn give(&mut self, slot: Slot, name: &str) {
        self.0.insert(slot, name.chars().map(|c| if c.is_control() { '?' } else { c }).collect());
    }

    pub fn get(&self, slot: Slot) -> Option<&str> {
        self.0.get(&slot).map(String::as_str)
    }

    /// As in `slot 4`, or `display (slot 4)`.
    pub fn who(&self, slot: Slot) -> String {
        self.get(slot).map_or(format!("slot {slot}"), |name| format!("{name} (slot {slot})"))
    }
}

/// Bytes as text that any terminal and any page can take, at most so many of them.
pub fn shown(bytes: &[u8], most: usize) -> String {
    let text: String = bytes.iter().take(most).map(|&b| one_shown(b)).collect();
    if bytes.len() <= most {
        return text;
    }
    format!("{text}… ({} bytes)", bytes.len())
}

fn one_shown(byte: u8) -> String {
    match byte {
        b'\\' => "\\\\".to_string(),
        b' '..=b'~' => char::from(byte).to_string(),
        _ => format!("\\x{byte:02x}"),
    }
}

/// A line of a script; one that is longer than a call can be is cut.
pub fn line(step: &Step) -> String {
    shown(step.line, 64)
}

/// What a step asks.
pub fn question(step: &Step, names: &Names) -> String {
    match step.asked {
        None => "this line is no call".to_string(),
        Some((slot, call)) => format!("{} {}", names.who(slot), asks(call)),
    }
}

fn asks(call: Call) -> String {
    match call {
        Call::Clone => "starts a child".to_string(),
        Call::CloneNew => "starts a child in a new namespace".to_string(),
        Call::Unshare => "wants its next child in a new namespace".to_string(),
        Call::Setns(pid) => format!("wants its next children in the namespace of number {pid}"),
        Call::Kill(-1, signal) => format!("sends signal {signal} to all that it sees, but itself and number 1"),
        Call::Kill(pid, 0) => format!("asks whether number {pid} is there"),
        Call::Kill(pid, signal) => format!("sends signal {signal} to number {pid}"),
        Call::Exit(status) => format!("ends and gives {status}"),
        Call::Wait => "asks for a child that has ended".to_string(),
        Call::Getpid => "asks for its number".to_string(),
        Call::Getppid => "asks for its parent's number".to_string(),
        Call::Handle(signal, true) => format!("handles signal {signal} from now on"),
        Call::Handle(signal, false) => format!("handles signal {signal} no more"),
        Call::Poll => "asks for a pending signal".to_string(),
        // Calls that are added later have their script's words until there are better ones here.
        call => format!("calls {call}"),
    }
}

/// What the answer of a step means.
pub fn meaning(step: &Step) -> String {
    match (step.answer, step.asked) {
        (Answer::Refused(refusal), asked) => refused(refusal) + &detail(refusal, asked.map(|(_, call)| call)),
        (Answer::Told(reply), Some((_, call))) => told(call, reply),
        _ => "nothing happens".to_string(),
    }
}

/// The crate's words without the number, which stands beside them.
fn refused(refusal: Refusal) -> String {
    let words = refusal.to_string();
    words.strip_suffix(&format!(" ({})", refusal.number())).unwrap_or(&words).to_string()
}

/// What a refusal means for this call, where the crate's words leave that open.
fn detail(refusal: Refusal, call: Option<Call>) -> String {
    match (refusal, call) {
        (Refusal::NoSuchProcess, Some(Call::Kill(-1, _))) => " (it sees nobody else)".to_string(),
        (Refusal::NoSuchProcess, Some(Call::Kill(pid, _))) => format!(" (it sees no number {pid})"),
        _ => String::new(),
    }
}

fn told(call: Call, reply: Reply) -> String {
    let number = reply.answer;
    match (call, reply.child, reply.end) {
        (_, Some(slot), _) => format!("the child is number {number} to the caller, at slot {slot}"),
        (_, _, Some(end)) => format!("number {number} {}, and is removed", ended(end)),
        (Call::Wait, ..) => "no child has ended yet".to_string(),
        (Call::Getpid, ..) => format!("it is number {number} in its namespace"),
        (Call::Getppid, ..) if number == 0 => "it sees no parent".to_string(),
        (Call::Getppid, ..) => format!("its parent is number {number}"),
        (Call::Poll, ..) if number == 0 => "none is pending".to_string(),
        (Call::Poll, ..) => format!("signal {number} was pending"),
        (Call::Kill(-1, 0), ..) => "somebody is there".to_string(),
        (Call::Kill(_, 0), ..) => "it is there".to_string(),
        (Call::Kill(..), ..) => "sent".to_string(),
        _ => "done".to_string(),
    }
}

/// How a process ended.
pub fn ended(end: End) -> String {
    match end {
        End::Exited(status) => format!("ended and gave {status}"),
        End::Signaled(signal) => format!("was ended by signal {signal}"),
    }
}

/// The signals of a set, as in `2, 15`.
pub fn signals(set: u32) -> String {
    let signals: Vec<String> = (0..32).filter(|s| set >> s & 1 == 1).map(|s| s.to_string()).collect();
    signals.join(", ")
}
