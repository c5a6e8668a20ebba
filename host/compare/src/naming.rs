//! The steps of a walk with what they name by its birth and not by its slot or number, so that they still mean it where
//! other steps are left out.

use crate::fields::{Records, OF_NAMESPACES, OF_PROCESSES};
use crate::walks::{Pair, Step};
use reference::calls::Call;
use reference::mirror::table;
use reference::table::{Table, PROCESSES};
use reference::turns::Request;

/// A step's place in the walk.
type Place = usize;

/// The step that bore something, then the one that bore the caller of that step, and so on. The root init and its
/// namespace have none.
type Line = Vec<Place>;

/// A step, its place, and the lines of the caller or the record, and of the process of a number.
#[derive(Clone)]
pub struct Named {
    step: Step,
    place: Place,
    slot: Line,
    number: Line,
}

/// The lines of what stands in each slot.
type Lines = Vec<Line>;

/// A walk so far.
struct Walked {
    pair: Pair,
    processes: Lines,
    namespaces: Lines,
}

/// The steps of a walk, each with what it names.
pub fn named(walk: &[Step]) -> Vec<Named> {
    let mut walked = Walked::nowhere();
    let name = |(place, &step)| {
        let named = walked.named(place, step);
        walked.go(&named);
        named
    };
    walk.iter().enumerate().map(name).collect()
}

/// The steps as they are where no others are gone, up to the first difference; `None` if there is none.
pub fn to_difference(walk: &[Named]) -> Option<Vec<Step>> {
    let mut walked = Walked::nowhere();
    let gone: Vec<(Step, bool)> = walk.iter().map(|named| walked.go(named)).collect();
    let end = gone.iter().position(|(_, differs)| *differs)?;
    Some(gone[..=end].iter().map(|(step, _)| *step).collect())
}

impl Walked {
    fn nowhere() -> Walked {
        let none = |of: Records| vec![Line::new(); of.number];
        Walked { pair: Pair::fresh(), processes: none(OF_PROCESSES), namespaces: none(OF_NAMESPACES) }
    }

    /// The table; bytes that are none have nobody.
    fn table(&self) -> Table {
        table(self.pair.bytes()).unwrap_or(Table::EMPTY)
    }

    fn lines(&self, of: Records) -> &Lines {
        if of == OF_PROCESSES {
            &self.processes
        } else {
            &self.namespaces
        }
    }

    fn named(&self, place: Place, step: Step) -> Named {
        let (slot, number) = match step {
            Step::Put(at, _) => {
                let (of, slot, _) = Records::around(at);
                (self.lines(of)[slot].clone(), Line::new())
            }
            Step::Ask(caller, request) => {
                let slot = caller as usize % PROCESSES;
                let seen = seen(&self.table(), slot);
                let meant = seen.iter().find(|(_, number)| Some(*number) == number_of(request));
                (self.processes[slot].clone(), meant.map_or(Line::new(), |(i, _)| self.processes[*i].clone()))
            }
        };
        Named { step, place, slot, number }
    }

    /// The step as it is here. Where one was not born here, who would have borne it stands for it; who was never born
    /// is named as before.
    fn resolved(&self, named: &Named) -> Step {
        match named.step {
            Step::Put(at, byte) => {
                let (of, slot, byte_of) = Records::around(at);
                let slot = find(self.lines(of), &named.slot).unwrap_or(slot);
                Step::Put(of.record(slot).start + byte_of, byte)
            }
            Step::Ask(caller, request) => {
                let slot = find(&self.processes, &named.slot).unwrap_or(caller as usize % PROCESSES);
                let meant = find(&self.processes, &named.number);
                let number = seen(&self.table(), slot).into_iter().find(|(i, _)| Some(*i) == meant);
                let request = number.map_or(request, |(_, number)| Request { a: number, ..request });
                Step::Ask(caller - caller % PROCESSES as u32 + slot as u32, request)
            }
        }
    }

    /// Goes a step and takes note of what is born. Gives the step as it is here, and whether it makes a difference.
    fn go(&mut self, named: &Named) -> (Step, bool) {
        let step = self.resolved(named);
        // Bytes alone bear nothing, and there may be many.
        let before = matches!(step, Step::Ask(..)).then(|| self.table());
        let differs = self.pair.go(step).is_err();
        if let Some(before) = before {
            let after = self.table();
            let line = [&[named.place], &named.slot[..]].concat();
            let is_born = |slot| before.process(slot).is_none() && after.process(slot).is_some();
            note(&mut self.processes, &line, is_born);
            let is_made = |slot| before.namespace(slot).is_none() && after.namespace(slot).is_some();
            note(&mut self.namespaces, &line, is_made);
        }
        (step, differs)
    }
}

/// Where the first of a line is that was born; the root where none was.
fn find(lines: &Lines, line: &Line) -> Option<usize> {
    let born = line.iter().find_map(|place| lines.iter().position(|line| line.first() == Some(place)));
    born.or((!line.is_empty()).then_some(0))
}

fn note(lines: &mut Lines, line: &Line, is_born: impl Fn(u8) -> bool) {
    let born = lines.iter_mut().enumerate().filter(|(slot, _)| is_born(*slot as u8));
    born.for_each(|(_, old)| old.clone_from(line));
}

/// The number of the process that a request is about, if it is about one.
fn number_of(request: Request) -> Option<i32> {
    match request.call() {
        Some(Call::Setns(n) | Call::Kill(n, _)) => Some(n),
        _ => None,
    }
}

/// Those whom the process at a slot sees, with their numbers.
fn seen(t: &Table, slot: usize) -> Vec<(usize, i32)> {
    let own = t.processes[slot].own;
    match t.namespace(own) {
        Some(_) => t.seen_from(own).map(|(i, number)| (i.into(), number.into())).collect(),
        None => Vec::new(),
    }
}

#[cfg(test)]
mod tests {
    use super::*;
    use reference::script::parse;

    fn walk(lines: &str) -> Vec<Step> {
        let step = |line: &str| {
            let (slot, call) = parse(line.as_bytes()).expect("it is a call");
            Step::Ask(slot.into(), Request::of(call))
        };
        lines.split(", ").map(step).collect()
    }

    /// Some of the steps by themselves, as the last of them are then.
    fn left(all: Vec<Step>, places: &[Place]) -> Vec<Step> {
        let named = named(&all);
        let mut walked = Walked::nowhere();
        places.iter().map(|&place| walked.go(&named[place]).0).collect()
    }

    #[test]
    fn callers_and_numbers_follow_their_births() {
        let all = walk("0 clone, 0 clone new, 2 clone, 0 kill 4 9, 2 kill 2 9, 3 getpid, 0 setns 1");
        let without_the_first = walk("0 clone new, 1 clone, 0 kill 3 9, 1 kill 2 9, 2 getpid, 0 setns 1");
        assert_eq!(left(all.clone(), &[0, 1, 2, 3, 4, 5, 6]), all);
        assert_eq!(left(all, &[1, 2, 3, 4, 5, 6]), without_the_first);
    }

    #[test]
    fn who_would_have_borne_one_stands_for_it() {
        let all = walk("0 clone, 1 clone, 2 clone new, 3 getpid, 1 kill 4 9");
        assert_eq!(left(all.clone(), &[0, 2, 3, 4]), walk("0 clone, 1 clone new, 2 getpid, 1 kill 3 9"));
        assert_eq!(left(all, &[3, 4]), walk("0 getpid, 0 kill 1 9"));
    }

    #[test]
    fn who_was_never_born_is_named_as_before() {
        let all = walk("0 clone, 7 exit 1, 0 kill 9 9");
        assert_eq!(left(all.clone(), &[1, 2]), all[1..]);
    }

    #[test]
    fn high_bits_and_records_follow_too() {
        let born = walk("0 clone, 0 clone new");
        let odd = Request { call: 256 + 5, a: 3, b: 4, c: 5 };
        let rest = [Step::Ask(256 + 2, odd), Step::Put(2 * 80 + 3, 9), Step::Put(5120 + 6 + 1, 8)];
        let moved = [Step::Ask(256 + 1, odd), Step::Put(80 + 3, 9), Step::Put(5120 + 6 + 1, 8)];
        let all = [&born[..], &rest].concat();
        assert_eq!(left(all, &[1, 2, 3, 4])[1..], moved);
    }
}
