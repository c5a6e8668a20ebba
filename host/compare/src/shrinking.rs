//! Fewer parts that still differ.

use std::time::{Duration, Instant};

/// Shrinking stops after so many seconds, or as many as the variable says.
const SECONDS: u64 = 5;
const VARIABLE: &str = "COMPARE_SHRINKING";

/// Of so few parts any two are tried to be taken out.
const FEW: usize = 40;

/// What tells whether some parts still differ, and how long it is asked.
pub struct Shrinking<F> {
    differs: F,
    end: Instant,
}

impl<F> Shrinking<F> {
    pub fn by(differs: F) -> Shrinking<F> {
        let seconds = std::env::var(VARIABLE).ok().and_then(|number| number.parse().ok()).unwrap_or(SECONDS);
        Shrinking { differs, end: Instant::now() + Duration::from_secs(seconds) }
    }

    pub fn is_over(&self) -> bool {
        Instant::now() > self.end
    }

    /// Takes runs of parts out, long ones first, as long as the rest still differs, until nothing more can go.
    pub fn shrink<T: Clone>(&self, mut parts: Vec<T>) -> Vec<T>
    where
        F: Fn(&[T]) -> bool,
    {
        let mut size = parts.len().div_ceil(2);
        while size > 0 && !self.is_over() {
            let before = parts.len();
            parts = self.without_runs(parts, size);
            // Single parts are tried again after one of them went, and then pairs.
            let again = size == 1 && (parts.len() < before || self.take_pair(&mut parts));
            size = if again { 1 } else { size / 2 };
        }
        parts
    }

    /// Takes runs of a size out.
    fn without_runs<T: Clone>(&self, mut parts: Vec<T>, size: usize) -> Vec<T>
    where
        F: Fn(&[T]) -> bool,
    {
        let mut at = 0;
        while at + size <= parts.len() && !self.is_over() {
            let rest = [&parts[..at], &parts[at + size..]].concat();
            if (self.differs)(&rest) {
                parts = rest;
            } else {
                at += size;
            }
        }
        parts
    }

    /// Takes two parts out of few that lie apart, if any two can go.
    fn take_pair<T: Clone>(&self, parts: &mut Vec<T>) -> bool
    where
        F: Fn(&[T]) -> bool,
    {
        let number = if parts.len() > FEW { 0 } else { parts.len() };
        let pairs = (0..number).flat_map(|i| (i + 1..number).map(move |j| (i, j)));
        let without = |(i, j): (usize, usize)| [&parts[..i], &parts[i + 1..j], &parts[j + 1..]].concat();
        let found = pairs.map(without).find(|rest| !self.is_over() && (self.differs)(rest));
        found.map(|rest| *parts = rest).is_some()
    }
}

#[cfg(test)]
mod tests {
    use super::*;

    /// What is left of the numbers below a hundred.
    fn left(differs: impl Fn(&[u32]) -> bool) -> Vec<u32> {
        Shrinking::by(differs).shrink((0..100).collect())
    }

    #[test]
    fn what_is_needed_is_left() {
        assert_eq!(left(|parts| [3, 41, 97].iter().all(|part| parts.contains(part))), [3, 41, 97]);
        assert_eq!(left(|_| true), []);
        assert_eq!(left(|parts| parts.len() > 98), Vec::from_iter(1..100));
    }

    /// 7 and 50 can only go together.
    #[test]
    fn pairs_go() {
        assert_eq!(left(|parts| parts.contains(&9) && parts.contains(&7) == parts.contains(&50)), [9]);
    }
}
