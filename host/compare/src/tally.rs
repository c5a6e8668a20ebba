//! How often each call was granted and refused: a comparison that never brings a refusal about tells nothing of it.

use crate::walks::Step;
use reference::turns::Reply;
use std::collections::BTreeMap;
use std::fmt;

/// The calls from number 1 on, with the refusals of their own. Each may be told -1000 and -1001 beside.
const CALLS: [(&str, &[i32]); 12] = [
    ("clone", &[-12, -11]),
    ("clone new", &[-22, -28, -11]),
    ("unshare", &[-22, -28, -11]),
    ("setns", &[-3]),
    ("kill", &[-22, -38, -3]),
    ("exit", &[-16]),
    ("wait", &[-10]),
    ("getpid", &[]),
    ("getppid", &[]),
    ("handle on", &[-22]),
    ("handle off", &[-22]),
    ("poll", &[]),
];

/// How a call went: refused with a number, or granted, a wait's with the state of what it removed.
#[derive(Clone, Copy, PartialEq, Eq, PartialOrd, Ord)]
enum Outcome {
    Granted(u8),
    Refused(i32),
}

use Outcome::{Granted, Refused};

impl fmt::Display for Outcome {
    fn fmt(&self, f: &mut fmt::Formatter) -> fmt::Result {
        match self {
            Granted(0) => write!(f, "granted"),
            Granted(2) => write!(f, "gave"),
            Granted(_) => write!(f, "signal"),
            Refused(number) => write!(f, "{number}"),
        }
    }
}

/// The outcomes that a call, by its place in `CALLS`, must come to.
fn wanted(place: usize) -> impl Iterator<Item = Outcome> {
    let (name, own) = CALLS[place];
    let removed: &[u8] = if name == "wait" { &[0, 2, 3] } else { &[0] };
    let refused = [-1000, -1001].iter().chain(own);
    removed.iter().map(|&state| Granted(state)).chain(refused.map(|&number| Refused(number)))
}

fn all() -> impl Iterator<Item = (usize, Outcome)> {
    (0..CALLS.len()).flat_map(|place| wanted(place).map(move |outcome| (place, outcome)))
}

#[derive(Default)]
pub struct Tally {
    /// by a call's place and how it went
    outcomes: BTreeMap<(usize, Outcome), usize>,
    no_call: usize,
    /// on damaged tables, and granted there
    damaged: [usize; 2],
    /// births at which the root's numbers started again
    started_again: usize,
}

impl Tally {
    /// Counts a step that is a call.
    pub fn count(&mut self, step: Step, reply: Option<Reply>, is_damaged: bool) {
        let (Step::Ask(_, request), Some(reply)) = (step, reply) else { return };
        match request.call.checked_sub(1).map(|place| place as usize) {
            Some(place) if place < CALLS.len() => {
                let outcome = if reply.answer < 0 { Refused(reply.answer) } else { Granted(reply.state) };
                *self.outcomes.entry((place, outcome)).or_default() += 1;
            }
            _ => self.no_call += 1,
        }
        self.damaged[0] += usize::from(is_damaged);
        self.damaged[1] += usize::from(is_damaged && reply.answer >= 0);
    }

    pub fn count_start_again(&mut self, is_one: bool) {
        self.started_again += usize::from(is_one);
    }

    pub fn calls(&self) -> usize {
        self.no_call + self.outcomes.values().sum::<usize>()
    }

    fn times(&self, place: usize, outcome: Outcome) -> usize {
        self.outcomes.get(&(place, outcome)).copied().unwrap_or(0)
    }

    /// Whether each call came to each of its outcomes and to no other, and some request was no call.
    pub fn is_whole(&self) -> Result<(), String> {
        let text = |(place, outcome): (usize, Outcome)| format!("{}: {outcome}", CALLS[place].0);
        let unlisted = self.outcomes.keys().find(|(place, outcome)| wanted(*place).all(|listed| listed != *outcome));
        if let Some(&outcome) = unlisted {
            return Err(format!("what is not listed came up: {}", text(outcome)));
        }
        let mut never: Vec<String> = all().filter(|(place, how)| self.times(*place, *how) == 0).map(text).collect();
        never.extend((self.no_call == 0).then(|| "no call: -1002".into()));
        never.extend((self.damaged[1] == 0).then(|| "a damaged table: granted".into()));
        never.extend((self.started_again == 0).then(|| "numbers that start again".into()));
        if never.is_empty() {
            Ok(())
        } else {
            Err(format!("what never came up: {}", never.join("; ")))
        }
    }
}

impl fmt::Display for Tally {
    fn fmt(&self, f: &mut fmt::Formatter) -> fmt::Result {
        for (place, (name, _)) in CALLS.iter().enumerate() {
            let counts = wanted(place).map(|outcome| format!("{outcome}: {}", self.times(place, outcome)));
            writeln!(f, "{name:12} {}", counts.collect::<Vec<_>>().join(", "))?;
        }
        writeln!(f, "{:12} -1002: {}", "no call", self.no_call)?;
        let (damaged, granted) = (self.damaged[0], self.damaged[1]);
        write!(
            f,
            "on damaged tables: {damaged}, granted there: {granted}; started numbers again: {}",
            self.started_again
        )
    }
}

#[cfg(test)]
mod tests {
    use super::*;
    use reference::turns::Request;

    fn counted(outcomes: impl Iterator<Item = (usize, Outcome)>) -> Tally {
        let mut seen = Tally { started_again: 1, ..Tally::default() };
        for (place, outcome) in outcomes {
            let (answer, state) = match outcome {
                Granted(state) => (0, state),
                Refused(number) => (number, 0),
            };
            let request = Request { call: place as u32 + 1, a: 0, b: 0, c: 0 };
            seen.count(Step::Ask(0, request), Some(Reply { answer, child: 255, state, end: 0 }), true);
        }
        seen
    }

    #[test]
    fn each_outcome_is_missed() {
        let no_call = (12, Refused(-1002));
        assert_eq!(counted(all().chain([no_call])).is_whole(), Ok(()));
        assert_eq!(counted(all()).is_whole(), Err("what never came up: no call: -1002".into()));
        let never_again = Tally { started_again: 0, ..counted(all().chain([no_call])) };
        assert_eq!(never_again.is_whole(), Err("what never came up: numbers that start again".into()));
        for left_out in all() {
            let told = counted(all().chain([no_call]).filter(|one| *one != left_out)).is_whole();
            let text = format!("what never came up: {}: {}", CALLS[left_out.0].0, left_out.1);
            assert_eq!(told, Err(text));
        }
    }

    #[test]
    fn another_outcome_is_told() {
        let unlisted = "what is not listed came up: getpid: -3";
        assert_eq!(counted(all().chain([(7, Refused(-3))])).is_whole(), Err(unlisted.into()));
    }

    #[test]
    fn calls_are_counted() {
        let seen = counted(all().take(5).chain(all().take(5)).chain([(12, Refused(-1002))]));
        assert_eq!(seen.calls(), 11);
    }
}
