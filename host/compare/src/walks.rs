//! A walk: calls from the fresh table on, and bytes that are changed between them. The library and the reference go it
//! side by side, and all bytes of both tables are compared after each call.

use crate::fields::{field_at, name_of, value_at, Records};
use crate::library;
use crate::naming::{named, to_difference, Named};
use crate::shrinking::Shrinking;
use reference::mirror::{bytes, Bytes, BYTES};
use reference::script::call_text;
use reference::table::{Table, NONE};
use reference::turns::{turn, Reply, Request};

/// Of fields that differ so many are shown.
const SHOWN: usize = 12;

#[derive(Clone, Copy, PartialEq, Eq, Debug)]
pub enum Step {
    /// A call by the process at a slot.
    Ask(u32, Request),
    /// Another byte at a place.
    Put(usize, u8),
}

/// The steps that make some bytes of others.
pub fn changes(before: &Bytes, after: &Bytes) -> Vec<Step> {
    (0..BYTES).filter(|&at| before[at] != after[at]).map(|at| Step::Put(at, after[at])).collect()
}

/// What the library and the reference reply where they differ in that or in a table.
type Replies = [Reply; 2];

/// Both tables. They are the same up to the first difference.
#[derive(Clone)]
pub struct Pair {
    library: Bytes,
    reference: Bytes,
}

impl Pair {
    pub fn fresh() -> Pair {
        let fresh = bytes(&Table::fresh());
        Pair { library: fresh, reference: fresh }
    }

    pub fn bytes(&self) -> &Bytes {
        &self.reference
    }

    /// Goes a step. Gives the reply, if the step is a call.
    pub fn go(&mut self, step: Step) -> Result<Option<Reply>, Replies> {
        match step {
            Step::Ask(caller, request) => self.ask(caller, request).map(Some),
            Step::Put(at, byte) => {
                self.library[at] = byte;
                self.reference[at] = byte;
                Ok(None)
            }
        }
    }

    /// Goes steps that are no calls.
    pub fn put(&mut self, changes: &[Step]) {
        for &step in changes {
            self.go(step).expect("both get the same byte");
        }
    }

    /// What both reply where they differ, and the fields that differ then.
    pub fn difference(&self, [library, reference]: Replies) -> String {
        let replies = format!("the library:   {}\nthe reference: {}\n", reply_text(library), reply_text(reference));
        replies + &fields_text(&self.library, &self.reference)
    }

    /// Both must reply the same and have the same table then: after a refusal the one from before.
    fn ask(&mut self, caller: u32, request: Request) -> Result<Reply, Replies> {
        let before = self.reference;
        let library = library::turn(&mut self.library, caller, request);
        let reference = turn(&mut self.reference, caller, request);
        let is_left = reference.answer >= 0 || self.reference == before;
        if library == reference && self.library == self.reference && is_left {
            Ok(reference)
        } else {
            Err([library, reference])
        }
    }
}

// ---- a difference

/// A walk with fewer steps, and plainer ones, on which a difference still comes up.
pub fn shrunk(walk: &[Step]) -> Vec<Step> {
    let shrinking = Shrinking::by(|steps: &[Named]| to_difference(steps).is_some());
    let fewer = shrinking.shrink(named(walk));
    let mut walk = to_difference(&fewer).unwrap_or(walk.to_vec());
    for k in (0..walk.len()).take_while(|_| !shrinking.is_over()) {
        let step = walk[k];
        walk[k] = plain(step);
        if to_difference(&named(&walk)).is_none() {
            walk[k] = step;
        }
    }
    walk
}

/// The step with 0 for what its call does not take.
fn plain(step: Step) -> Step {
    match step {
        Step::Ask(caller, request) => Step::Ask(caller, request.call().map_or(request, Request::of)),
        put => put,
    }
}

/// A walk to its first difference, a line for each call and for each record that is changed, and the difference.
pub fn shown(walk: &[Step]) -> String {
    let mut pair = Pair::fresh();
    let mut text = "From the fresh table:\n".to_string();
    for steps in walk.chunk_by(|a, b| record_of(*a).is_some() && record_of(*a) == record_of(*b)) {
        let [step @ Step::Ask(caller, request)] = *steps else {
            pair.put(steps);
            text += &format!("    {}\n", record_text(pair.bytes(), steps));
            continue;
        };
        let asked = request_text(caller, request);
        match pair.go(step) {
            Ok(reply) => text += &format!("    {asked:28} -> {}\n", reply.map_or(String::new(), reply_text)),
            Err(replies) => return format!("{text}    {asked}\n{}", pair.difference(replies)),
        }
    }
    text + "no difference"
}

/// The record of which a step changes a byte.
fn record_of(step: Step) -> Option<(&'static str, usize)> {
    match step {
        Step::Ask(..) => None,
        Step::Put(at, _) => {
            let (of, slot, _) = Records::around(at);
            Some((of.name, slot))
        }
    }
}

/// The fields of a record that are changed, as they are then.
fn record_text(all: &Bytes, changes: &[Step]) -> String {
    let field = |step: &Step| match *step {
        Step::Put(at, _) => Some(format!("{} {}", field_at(at).name, value_at(all, at))),
        Step::Ask(..) => None,
    };
    let mut fields: Vec<String> = changes.iter().filter_map(field).collect();
    fields.dedup();
    let (name, slot) = changes.first().and_then(|&step| record_of(step)).expect("a record is changed");
    format!("{name} {slot}: {}", fields.join(", "))
}

fn request_text(caller: u32, request: Request) -> String {
    match request.call() {
        Some(call) if Request::of(call) == request => format!("{caller} {}", call_text(call)),
        _ => format!("{caller} request {}: {}, {}, {}", request.call, request.a, request.b, request.c),
    }
}

pub fn reply_text(reply: Reply) -> String {
    let child = if reply.child == NONE { String::new() } else { format!(", child {}", reply.child) };
    let how = if (reply.state, reply.end) == (0, 0) {
        String::new()
    } else {
        format!(", state {} end {}", reply.state, reply.end)
    };
    format!("{}{child}{how}", reply.answer)
}

/// The fields that differ, with both their values.
pub fn fields_text(a: &Bytes, b: &Bytes) -> String {
    let line = |at: usize| format!("{}: {} and {}\n", name_of(at), value_at(a, at), value_at(b, at));
    let mut lines: Vec<String> = (0..BYTES).filter(|&at| a[at] != b[at]).map(line).collect();
    lines.dedup();
    let more = lines.len().saturating_sub(SHOWN);
    lines.truncate(SHOWN);
    lines.concat() + &if more == 0 { String::new() } else { format!("and {more} fields more\n") }
}
