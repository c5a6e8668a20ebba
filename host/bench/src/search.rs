//! The search for a number, now and as it was before it marked the numbers that are taken: the library's, that of the
//! library before where it is linked, and the function that is kept of it.

use crate::before;
use crate::chart::Group;
use crate::libraries::{Library, BEFORE, NOW};
use crate::taken::{cases, Case};
use crate::timing::{best_each, nanoseconds, SHORT_ROUNDS};
use std::hint::black_box;

/// So many searches in a round.
const SEARCHES: usize = 5_000;

/// Nanoseconds of a search in one table.
struct Times {
    name: &'static str,
    now: f64,
    before: Option<f64>,
    in_rust: f64,
}

/// The first is that whose first candidate is free.
pub struct Searches(Vec<Times>);

fn search(library: &Library, case: &Case) {
    let next = || unsafe { (library.next_pid)(*black_box(&case.kept), 0) };
    assert!((0..SEARCHES).all(|_| next() == case.answer), "{}", case.name);
}

/// A library reads the table from the host's bytes first. That is timed as in `checks`, and taken off.
fn read(library: &Library, case: &Case) {
    let sound = || unsafe { (library.sound)(*black_box(&case.damaged)) };
    assert!((0..SEARCHES).all(|_| !sound()), "{}", case.name);
}

fn search_in_rust(case: &Case) {
    let next = || before::next_pid(black_box(&case.table), black_box(0));
    assert!((0..SEARCHES).all(|_| next() == case.answer), "{}", case.name);
}

/// What `Times` takes. Where no library from before is linked its runs do nothing.
fn runs(case: &Case) -> [Box<dyn FnMut() + '_>; 5] {
    [
        Box::new(|| search(&NOW, case)),
        Box::new(|| read(&NOW, case)),
        Box::new(|| BEFORE.iter().for_each(|library| search(library, case))),
        Box::new(|| BEFORE.iter().for_each(|library| read(library, case))),
        Box::new(|| search_in_rust(case)),
    ]
}

impl Times {
    fn new(name: &'static str, times: &[f64]) -> Times {
        let &[now, reading, before, reading_before, in_rust] = times else { panic!("one time for each run") };
        Times { name, now: now - reading, before: BEFORE.map(|_| before - reading_before), in_rust }
    }

    fn bars(&self) -> impl Iterator<Item = (String, f64)> + '_ {
        let times = [("now", Some(self.now)), ("before", self.before), ("in Rust", Some(self.in_rust))];
        times.into_iter().filter_map(|(whose, time)| Some((format!("{}: {whose}", self.name), time?)))
    }
}

/// Times all of them in turns.
pub fn run() -> Searches {
    let cases = cases();
    let mut runs: Vec<_> = cases.iter().flat_map(runs).collect();
    let times: Vec<f64> =
        best_each(SHORT_ROUNDS, &mut runs).into_iter().map(|time| nanoseconds(time, SEARCHES)).collect();
    let each = times.chunks(times.len() / cases.len());
    Searches(cases.iter().zip(each).map(|(case, times)| Times::new(case.name, times)).collect())
}

impl Searches {
    pub fn group(&self) -> Group {
        let title = "Search for a number, 63 processes (less is better)".into();
        Group { title, unit: "ns", bars: self.0.iter().flat_map(Times::bars).collect() }
    }

    pub fn ratio(&self) -> String {
        let (first, past) = self.0.split_first().expect("there are several");
        let slowest = past.iter().max_by(|a, b| a.now.total_cmp(&b.now)).expect("there are several");
        let (free, when) = match first.before {
            Some(time) => (time, "took in the library before"),
            None => (first.now, "takes"),
        };
        format!(
            "ratio: the slowest search past 62 taken numbers ({}) takes {:.2} times as long as one whose first candidate \
             is free {when}\n",
            slowest.name,
            slowest.now / free
        )
    }
}
