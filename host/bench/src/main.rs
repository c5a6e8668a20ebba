//! The recorder and the reference side by side, in one run.
//!
//! At the top of the repository `tools/build`, and then in `host/`
//!
//!     cargo run --release --offline -p bench
//!
//! With the name of a file, `-- ../docs/benchmark.svg`, it draws the figures there too. With `-- calls`, and a file or
//! none after it, it times single calls alone; with `-- search`, and a file or none, the search for a number alone.
//!
//! The search is timed beside a function that searches as the library did before. To time that library itself beside
//! the one of now, and a clone with it, build it from its commit, and name the folder that it is in as this is built:
//!
//!     git worktree add ../before COMMIT && (cd ../before && tools/build)
//!     (cd host && LAMPFUNNEL_BEFORE_DIR=$PWD/../../before/target/staticlib cargo run --release --offline -p bench)

mod before;
mod calls;
mod chart;
mod checks;
mod clones;
mod full;
mod libraries;
mod programs;
mod search;
mod taken;
mod timing;

use chart::Group;
use reference::table::DEEPEST;
use scripts::kept::{self, Kept, SCRIPTS};
use std::{env, fs, io};

fn main() -> io::Result<()> {
    println!("machine: {}", machine());
    let mut words = env::args().skip(1).peekable();
    let alone = words.next_if(|word| word == "calls" || word == "search");
    let mut figures = Figures::default();
    match alone.as_deref() {
        Some("calls") => figures.time_calls(),
        Some(_) => figures.time_search(),
        None => figures.time_all()?,
    }
    for group in &figures.groups {
        print!("\n{group}");
    }
    print!("\n{}", figures.ratios);
    match words.next() {
        Some(file) => fs::write(file, chart::svg(&machine(), &figures.groups)),
        None => Ok(()),
    }
}

/// What was timed, and a line for each ratio.
#[derive(Default)]
struct Figures {
    groups: Vec<Group>,
    ratios: String,
}

impl Figures {
    fn add(&mut self, group: Group, ratio: &str) {
        self.groups.push(group);
        self.ratios += ratio;
    }

    fn time_all(&mut self) -> io::Result<()> {
        self.time_scripts()?;
        self.time_checks();
        self.time_search();
        self.time_calls();
        Ok(())
    }

    fn time_scripts(&mut self) -> io::Result<()> {
        for kept in &SCRIPTS {
            let script = kept.script();
            let tables = checks::Tables::of(&script);
            describe(kept, &tables.facts);
            let speeds = programs::run(&script)?;
            self.add(speeds.lines_per_second(kept.name), &speeds.ratios(kept.name));
            self.add(tables.shares(&speeds, kept.name), "");
        }
        Ok(())
    }

    fn time_checks(&mut self) {
        for level in [7, DEEPEST] {
            let full = checks::Full::to_level(level);
            self.add(full.group(), &full.ratio());
        }
    }

    fn time_search(&mut self) {
        let searches = search::run();
        self.add(searches.group(), &searches.ratio());
    }

    fn time_calls(&mut self) {
        for level in [7, DEEPEST] {
            let calls = calls::Calls::to_level(level);
            self.add(calls.group(), &calls.ratio());
        }
        self.add(clones::run(), "");
    }
}

fn machine() -> String {
    let text = fs::read_to_string("/proc/cpuinfo").unwrap_or_default();
    let models: Vec<&str> =
        text.lines().filter(|l| l.starts_with("model name")).filter_map(|l| l.split(": ").nth(1)).collect();
    format!("{}, {} processors", models.first().unwrap_or(&"unknown"), models.len())
}

/// Says what the script has, and stops if it is not what the benchmark asks for.
fn describe(kept: &Kept, facts: &kept::Facts) {
    println!(
        "script, {}: {} lines, {} to fill the table, after these never below {} processes; up to {} namespaces, level {}, \
         a living one always on level {} or deeper",
        kept.name, facts.lines, facts.filling, facts.least, facts.most_namespaces, facts.deepest, facts.chain
    );
    let granted: Vec<String> = kept::CALLS.iter().zip(facts.granted).map(|(call, n)| format!("{call} {n}")).collect();
    println!("granted: {}; refused: {}", granted.join(", "), facts.refused);
    assert!(facts.hold(kept), "the script must be full, deep and mixed enough");
    println!(
        "checked: {} lines, at least {} processes, each call granted {} times or more",
        kept::LINES,
        kept::LEAST_PROCESSES,
        kept::LEAST_GRANTED
    );
}

/// Several bars under one heading.
fn group(title: &str, unit: &'static str, bars: &[(&str, f64)]) -> Group {
    Group { title: title.into(), unit, bars: bars.iter().map(|(name, value)| (name.to_string(), *value)).collect() }
}
