//! One clone from C that is granted: by a process at level 0, which takes one search for a number, and by one at level
//! 32, which takes 33. Each is made on a copy of the same table; the copy is timed too, for each library alike.

use crate::calls::number;
use crate::chart::Group;
use crate::full::{kept, with_room};
use crate::libraries::{CallFromC, Library, BEFORE, NOW};
use crate::timing::{best_each, nanoseconds, SHORT_ROUNDS};
use lampfunnel::{raw, Call};
use reference::calls;
use reference::table::{Table, DEEPEST};

/// So many clones in a round.
const CLONES: usize = 500;

// `calls.c`. The table is valid.
extern "C" {
    fn bench_copies(
        call: CallFromC,
        table: *const raw::Table,
        caller: u32,
        request: raw::Request,
        answer: i32,
        times: usize,
    ) -> usize;
}

/// A clone, its answer, and what it leaves.
struct Case {
    level: u8,
    table: raw::Table,
    answer: i32,
    after: raw::Table,
}

impl Case {
    /// In a chain of namespaces the init of each has the slot of its level.
    fn at(level: u8, t: &Table) -> Case {
        let mut after = t.clone();
        let answer = number(after.step(level, calls::Call::Clone)).filter(|&n| n > 0).expect("it is granted");
        Case { level, table: kept(t), answer, after: kept(&after) }
    }

    fn check(&self, library: &Library) {
        let mut table = self.table;
        let reply = unsafe { (library.call)(&mut table, self.level.into(), Call::Clone.request()) };
        assert!(reply.answer == self.answer && table == self.after, "a clone at level {}", self.level);
    }

    fn time(&self, library: &Library) {
        let (caller, request) = (self.level.into(), Call::Clone.request());
        let told = unsafe { bench_copies(library.call, &self.table, caller, request, self.answer, CLONES) };
        assert_eq!(told, CLONES);
    }
}

pub fn run() -> Group {
    let libraries = [("now", Some(NOW)), ("before", BEFORE)].into_iter();
    let libraries: Vec<(&str, Library)> = libraries.filter_map(|(name, library)| Some((name, library?))).collect();
    let t = with_room(DEEPEST, 1);
    let cases = [0, DEEPEST].map(|level| Case::at(level, &t));
    let pairs = || cases.iter().flat_map(|case| libraries.iter().map(move |library| (case, library)));
    pairs().for_each(|(case, (_, library))| case.check(library));
    let mut runs: Vec<_> = pairs().map(|(case, (_, library))| || case.time(library)).collect();
    let times = best_each(SHORT_ROUNDS, &mut runs);
    let bars = pairs()
        .zip(times)
        .map(|((case, (name, _)), time)| (format!("at level {}: {name}", case.level), nanoseconds(time, CLONES)));
    let title = format!("One clone from C, 63 processes, levels 0 to {DEEPEST} (less is better)");
    Group { title, unit: "ns", bars: bars.collect() }
}
