//! How often searches for a number went each way: a comparison in which none passes a long run tells nothing of it.

use crate::runs::AGAIN;
use reference::table::{Table, LEVELS, MAX_PID};
use std::fmt;

/// Each way must have been gone so often.
const OFTEN: usize = 100;

/// What a search passed.
struct Search {
    /// taken numbers above the last one
    above: u16,
    /// taken numbers from 300 on, if it came there
    again: Option<u16>,
    /// whether the number that it gave stands in the record of one who does not count
    is_written: bool,
}

impl Search {
    /// The search that gives a number of the namespace at a slot. Those before it are taken.
    fn of(t: &Table, slot: usize, given: u16) -> Search {
        let last = t.namespaces[slot].last.min(MAX_PID);
        let level = t.namespaces[slot].level as usize;
        let is_written = t.processes.iter().any(|p| p.pid(level) == given);
        if given > last {
            Search { above: given - last - 1, again: None, is_written }
        } else {
            Search { above: MAX_PID - last, again: Some(given - AGAIN), is_written }
        }
    }

    fn passed(&self) -> u16 {
        self.above + self.again.unwrap_or(0)
    }
}

type Way = (&'static str, fn(&Search) -> bool);

/// Searches that are counted, by the ways that they must go; and how many they must pass on each level.
pub struct Ways {
    name: &'static str,
    ways: &'static [Way],
    long: u16,
}

/// Of tables for the search. A namespace may see 64 processes there.
pub const OF_TABLES: Ways = Ways {
    name: "searches",
    ways: &[
        ("past 62 or more above the last", |s| s.above >= 62),
        ("past 64 and on", |s| s.above == 64 && s.again.is_none()),
        ("again from 300", |s| s.again.is_some()),
        ("past 62 or more from 300", |s| s.again >= Some(62)),
        ("past some to 32,767 and some from 300", |s| s.above > 0 && s.again > Some(0)),
        ("past some to one that does not count", |s| s.passed() > 0 && s.is_written),
    ],
    long: 62,
};

/// Of births. With room for one and an init on each level those on the deepest pass 30 at most.
pub const OF_BIRTHS: Ways = Ways {
    name: "births",
    ways: &[
        ("past 60 or more above the last", |s| s.above >= 60),
        ("past 24 or more above the last", |s| s.above >= 24),
        ("again from 300", |s| s.again.is_some()),
        ("past 24 or more from 300", |s| s.again >= Some(24)),
        ("past some to 32,767 and some from 300", |s| s.above > 0 && s.again > Some(0)),
    ],
    long: 24,
};

pub struct Searches {
    ways: &'static Ways,
    counts: Vec<usize>,
    /// long ones, by the level of the namespace
    levels: [usize; LEVELS],
}

impl Searches {
    pub fn none(ways: &'static Ways) -> Searches {
        Searches { ways, counts: vec![0; ways.ways.len()], levels: [0; LEVELS] }
    }

    /// Counts a search in a table, for the namespace at a slot, by the number that it gave.
    pub fn count(&mut self, t: &Table, slot: usize, given: u16) {
        let search = Search::of(t, slot, given);
        for (count, (_, is_way)) in self.counts.iter_mut().zip(self.ways.ways) {
            *count += usize::from(is_way(&search));
        }
        self.levels[t.namespaces[slot].level as usize] += usize::from(search.passed() >= self.ways.long);
    }

    /// Counts the searches of a birth, by the table before and after it.
    pub fn count_birth(&mut self, before: &Table, after: &Table) {
        for (n, s) in before.each_namespace() {
            let given = after.namespaces[n as usize].last;
            if given != s.last {
                self.count(before, n.into(), given);
            }
        }
    }

    /// Whether each way was gone often, and on each level long runs were passed.
    pub fn is_whole(&self) -> Result<(), String> {
        let ways = self.named().filter(|(_, count)| *count < OFTEN).map(|(name, _)| name.to_string());
        let levels =
            (0..LEVELS).filter(|&level| self.levels[level] == 0).map(|level| format!("long, on level {level}"));
        let seldom: Vec<String> = ways.chain(levels).collect();
        if seldom.is_empty() {
            Ok(())
        } else {
            Err(format!("{} that came up too seldom: {}", self.ways.name, seldom.join("; ")))
        }
    }

    fn named(&self) -> impl Iterator<Item = (&'static str, usize)> + '_ {
        self.ways.ways.iter().zip(&self.counts).map(|((name, _), &count)| (*name, count))
    }
}

impl fmt::Display for Searches {
    fn fmt(&self, f: &mut fmt::Formatter) -> fmt::Result {
        let counts: Vec<String> = self.named().map(|(name, count)| format!("{name}: {count}")).collect();
        let levels = self.levels.iter().filter(|&&count| count > 0).count();
        let Ways { name, long, .. } = self.ways;
        write!(f, "{name:12} {}; past {long} or more on {levels} levels", counts.join(", "))
    }
}

#[cfg(test)]
mod tests {
    use super::*;

    /// The ways of a search by the root, with a last number and what it gave, and a number in another's record.
    fn ways(last: u16, given: u16, written: u16) -> Vec<usize> {
        let mut t = Table::fresh();
        t.namespaces[0].last = last;
        t.processes[9].pids[0] = written;
        let mut seen = Searches::none(&OF_TABLES);
        seen.count(&t, 0, given);
        seen.counts
    }

    #[test]
    fn each_way_by_its_numbers() {
        assert_eq!(ways(5, 6, 6), [0, 0, 0, 0, 0, 0]);
        assert_eq!(ways(5, 67, 7), [0, 0, 0, 0, 0, 0]);
        assert_eq!(ways(5, 68, 0), [1, 0, 0, 0, 0, 0]);
        assert_eq!(ways(5, 69, 0), [1, 0, 0, 0, 0, 0]);
        assert_eq!(ways(5, 70, 70), [1, 1, 0, 0, 0, 1]);
        assert_eq!(ways(32_767, 300, 0), [0, 0, 1, 0, 0, 0]);
        assert_eq!(ways(65_535, 361, 0), [0, 0, 1, 0, 0, 0]);
        assert_eq!(ways(65_535, 362, 0), [0, 0, 1, 1, 0, 0]);
        assert_eq!(ways(32_766, 300, 0), [0, 0, 1, 0, 0, 0]);
        assert_eq!(ways(32_766, 301, 301), [0, 0, 1, 0, 1, 1]);
        assert_eq!(ways(32_703, 300, 0), [1, 0, 1, 0, 0, 0]);
    }

    #[test]
    fn each_way_and_level_is_missed() {
        for ways in [&OF_TABLES, &OF_BIRTHS] {
            let whole = || Searches { ways, counts: vec![OFTEN; ways.ways.len()], levels: [1; LEVELS] };
            let told = |name: &str| Err(format!("{} that came up too seldom: {name}", ways.name));
            assert_eq!(whole().is_whole(), Ok(()));
            for (k, (name, _)) in ways.ways.iter().enumerate() {
                let mut seldom = whole();
                seldom.counts[k] -= 1;
                assert_eq!(seldom.is_whole(), told(name));
            }
            for level in 0..LEVELS {
                let mut seldom = whole();
                seldom.levels[level] = 0;
                assert_eq!(seldom.is_whole(), told(&format!("long, on level {level}")));
            }
        }
    }
}
