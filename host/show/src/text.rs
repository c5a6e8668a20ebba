//! For a terminal.

use crate::args::Options;
use crate::play::{steps, Step};
use crate::{changes, words};
use lampfunnel::Table;
use std::io::{self, Write};

/// All questions and answers, then the tree.
pub fn at_the_end(out: &mut dyn Write, script: &[u8], options: &Options) -> io::Result<()> {
    let width = 1 + longest(script, options);
    let mut table = Table::fresh();
    for step in steps(script) {
        if options.picked.has(step.number) {
            line(out, &step, width, options)?;
        }
        table = step.after;
    }
    write!(out, "\n{}", tree(&table))
}

/// The longest of the questions that are shown; long ones stand out.
fn longest(script: &[u8], options: &Options) -> usize {
    let shown = steps(script).filter(|step| options.picked.has(step.number));
    shown.map(|step| words::line(&step).chars().count()).filter(|&n| n <= 24).max().unwrap_or(0)
}

fn line(out: &mut dyn Write, step: &Step, width: usize, options: &Options) -> io::Result<()> {
    let (question, meaning) = (words::question(step, &options.names), words::meaning(step));
    let answer = step.answer.to_string();
    writeln!(out, "{:>4}  {:width$} {answer:12} {question}: {meaning}", step.number, words::line(step))
}

/// Question, answer and tree after each line.
pub fn each_step(out: &mut dyn Write, script: &[u8], options: &Options) -> io::Result<()> {
    steps(script).filter(|step| options.picked.has(step.number)).try_for_each(|step| whole(out, &step, options))
}

fn whole(out: &mut dyn Write, step: &Step, options: &Options) -> io::Result<()> {
    let changes = changes::told(step, &options.names);
    writeln!(out, "step {}: {}", step.number, words::line(step))?;
    writeln!(out, "  {}", words::question(step, &options.names))?;
    writeln!(out, "  {} {}", step.answer, words::meaning(step))?;
    writeln!(out, "  {}", changes.join(", "))?;
    writeln!(out, "{}", tree(&step.after))
}

/// The crate's tree, set in.
fn tree(table: &Table) -> String {
    format!("{table:?}\n").lines().filter(|line| !line.is_empty()).map(|line| format!("    {line}\n")).collect()
}
