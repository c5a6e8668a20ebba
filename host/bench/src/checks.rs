//! The check of a table: its share of a line, and on a full table.
//!
//! The proved check is called through the library, which takes a copy of the host's bytes and reads the table from them
//! first. How long that takes is measured on the same tables with the root's parent damaged, which the check sees at
//! once, and is taken off.

use crate::chart::Group;
use crate::full::{full_table, kept};
use crate::group;
use crate::programs::Speeds;
use crate::timing::{best, nanoseconds, SHORT_ROUNDS};
use reference::table::Table;
use reference::{quick, sound};
use scripts::kept::{facts, Facts};
use std::hint::black_box;

/// Every so many lines a table is kept.
const EVERY: usize = 500;

/// So many checks in a round. Each table is checked several times in a row, since a recorder has its table at hand.
const CHECKS: usize = 4_000;

/// The tables that the script's lines meet.
pub struct Tables {
    pub facts: Facts,
    kept: Vec<Table>,
}

impl Tables {
    pub fn of(script: &[u8]) -> Tables {
        let mut kept = Vec::new();
        let mut line = 0;
        let facts = facts(script, |t| {
            if line % EVERY == 0 {
                kept.push(t.clone());
            }
            line += 1;
        });
        Tables { facts, kept }
    }
}

/// Nanoseconds of a check, over the same tables.
struct Times {
    proved: f64,
    quick: f64,
    plain: f64,
}

/// The checks of a full table, and how long reading it from the host's bytes takes.
pub struct Full {
    level: u8,
    times: Times,
    reading: f64,
}

/// The same table without a root: its check ends where it begins.
pub fn damage(table: &lampfunnel::Table) -> lampfunnel::Table {
    let mut damaged = *table.as_raw();
    damaged.processes[0].parent = 0;
    lampfunnel::Table::from_raw(damaged)
}

/// Times of the checks, each table as often as the others; and of reading.
fn time(tables: &[Table]) -> (Times, f64) {
    let each = CHECKS / tables.len();
    let whole: Vec<lampfunnel::Table> = tables.iter().map(|t| lampfunnel::Table::from_raw(kept(t))).collect();
    let damaged: Vec<lampfunnel::Table> = whole.iter().map(damage).collect();
    let proved = |tables: &[lampfunnel::Table], sound| {
        let agrees = |t: &lampfunnel::Table| (0..each).all(|_| black_box(t).is_sound() == sound);
        assert!(tables.iter().all(agrees));
    };
    let rust = |check: fn(&Table) -> bool| assert!(tables.iter().all(|t| (0..each).all(|_| check(black_box(t)))));
    let [proved, reading, quick, plain] = best(
        SHORT_ROUNDS,
        [&mut || proved(&whole, true), &mut || proved(&damaged, false), &mut || rust(quick::is_sound), &mut || {
            rust(sound::is_sound)
        }],
    )
    .map(|time| nanoseconds(time, each * tables.len()));
    (Times { proved: proved - reading, quick, plain }, reading)
}

impl Tables {
    pub fn shares(&self, speeds: &Speeds, script: &str) -> Group {
        let (times, _) = time(&self.kept);
        let share = |check: f64, time| 100.0 * check / Speeds::per_line(time);
        let bars = [
            ("recorder", share(times.proved, speeds.recorder)),
            ("reference, same check", share(times.quick, speeds.quick)),
            ("reference, plain check", share(times.plain, speeds.plain)),
        ];
        group(&format!("Share of the table check in a line, {script}"), "%", &bars)
    }
}

impl Full {
    pub fn to_level(level: u8) -> Full {
        let (times, reading) = time(&[full_table(level)]);
        Full { level, times, reading }
    }

    pub fn group(&self) -> Group {
        let bars = [
            ("is_sound, proved", self.times.proved),
            ("the same algorithm in Rust", self.times.quick),
            ("plain check in Rust", self.times.plain),
            ("(reading the host's bytes)", self.reading),
        ];
        group(&format!("Check of a full table, levels 0 to {} (less is better)", self.level), "ns", &bars)
    }

    pub fn ratio(&self) -> String {
        format!(
            "ratio: the proved check of a full table, levels 0 to {}, takes {:.2} times as long as the same algorithm in \
             Rust\n",
            self.level,
            self.times.proved / self.times.quick
        )
    }
}
