//! Traces of calls with the answers of another model, and its whole table at the end (`host/vectors/README.md` has the
//! form): the library and the reference must both give the same.

use crate::walks::{changes, fields_text, reply_text, Pair, Step};
use reference::mirror::bytes;
use reference::script::parse;
use reference::table::{End, Life, Namespace, Process, State, Table, NONE};
use reference::turns::{Reply, Request};
use std::fs;
use std::path::{Path, PathBuf};

/// The root's last number at the start of a trace of this name.
const WRAP: (&str, u16) = ("wrap", 32_740);

/// Where the kept traces are.
pub fn kept() -> PathBuf {
    Path::new(env!("CARGO_MANIFEST_DIR")).join("../vectors")
}

/// Plays every trace of a folder, and prints how many calls each has; or tells the first difference.
pub fn hold(folder: &Path) -> Result<(), String> {
    let files = fs::read_dir(folder).map_err(|e| format!("{}: {e}", folder.display()))?;
    let mut traces: Vec<PathBuf> = files.filter_map(|file| Some(file.ok()?.path())).collect();
    traces.retain(|path| path.extension().is_some_and(|end| end == "trace"));
    traces.sort();
    let mut calls = 0;
    for path in &traces {
        let text = fs::read_to_string(path).map_err(|e| format!("{}: {e}", path.display()))?;
        let name = path.file_stem().unwrap_or_default().to_string_lossy();
        let played = hold_trace(start(&name), &text).map_err(|told| format!("{}, {told}", path.display()))?;
        println!("{name:40} {played:>7}");
        calls += played;
    }
    if calls == 0 {
        return Err(format!("{} has no trace", folder.display()));
    }
    println!("compare: {calls} calls of {} traces, no difference", traces.len());
    Ok(())
}

fn start(name: &str) -> Table {
    let mut t = Table::fresh();
    if name == WRAP.0 {
        t.namespaces[0].last = WRAP.1;
    }
    t
}

/// Plays a trace. Gives the number of its calls.
fn hold_trace(start: Table, text: &str) -> Result<usize, String> {
    let (calls, end) = text.split_once("---\n").ok_or("which has no table at its end")?;
    let mut pair = Pair::fresh();
    pair.put(&changes(pair.bytes(), &bytes(&start)));
    for (k, line) in calls.lines().enumerate() {
        hold_call(&mut pair, line).map_err(|told| format!("line {}: {line}\n{told}", k + 1))?;
    }
    let expected = bytes(&table(end)?);
    if *pair.bytes() == expected {
        Ok(calls.lines().count())
    } else {
        Err(format!("the tables at the end differ:\n{}", fields_text(pair.bytes(), &expected)))
    }
}

fn hold_call(pair: &mut Pair, line: &str) -> Result<(), String> {
    let (step, expected) = call(line).ok_or("no call and reply can be read here")?;
    match pair.go(step) {
        Ok(reply) if reply == Some(expected) => Ok(()),
        Ok(reply) => Err(format!("library and reference reply {}", reply.map_or(String::new(), reply_text))),
        Err(replies) => Err(pair.difference(replies)),
    }
}

/// The call of a line and its reply.
fn call(line: &str) -> Option<(Step, Reply)> {
    let (asked, told) = line.split_once(" -> ")?;
    let (slot, call) = parse(asked.replace('_', " ").as_bytes())?;
    let [answer, how, child] = words(told)[..] else { return None };
    let (state, end) = match how.split_once(':') {
        Some(("gave", status)) => (2, status.parse().ok()?),
        Some(("signal", signal)) => (3, signal.parse().ok()?),
        Some(_) => return None,
        None => (0, 0),
    };
    let child = if child == "-" { NONE } else { child.parse().ok()? };
    Some((Step::Ask(slot.into(), Request::of(call)), Reply { answer: answer.parse().ok()?, child, state, end }))
}

fn words(text: &str) -> Vec<&str> {
    text.split(' ').collect()
}

fn table(lines: &str) -> Result<Table, String> {
    let mut t = Table::EMPTY;
    for line in lines.lines() {
        put(&mut t, &words(line)).ok_or(format!("no record can be read here: {line}"))?;
    }
    Ok(t)
}

/// Puts the record of a line into its slot.
fn put(t: &mut Table, line: &[&str]) -> Option<()> {
    match line {
        ["ns", slot, rest @ ..] => *t.namespaces.get_mut(number(slot)?)? = namespace(rest)?,
        ["proc", slot, rest @ ..] => *t.processes.get_mut(number(slot)?)? = process(rest)?,
        _ => return None,
    }
    Some(())
}

fn number(word: &str) -> Option<usize> {
    word.parse().ok()
}

fn namespace(line: &[&str]) -> Option<Namespace> {
    let ["parent", parent, "level", level, "last", last, life @ ..] = line else { return None };
    let life = match life {
        ["unborn"] => Life::Unborn,
        ["alive", init] => Life::Alive(init.parse().ok()?),
        ["dead"] => Life::Dead,
        _ => return None,
    };
    Some(Namespace { parent: parent.parse().ok()?, level: level.parse().ok()?, last: last.parse().ok()?, life })
}

fn process(line: &[&str]) -> Option<Process> {
    let ["own", own, "kids", children, "nums", pids, "parent", parent, rest @ ..] = line else { return None };
    let [state @ .., "handled", handled, "pending", pending] = rest else { return None };
    let mut p = Process { own: own.parse().ok()?, children: children.parse().ok()?, ..Process::EMPTY };
    p.parent = parent.parse().ok()?;
    p.state = match state {
        ["running"] => State::Running,
        ["stopped"] => State::Stopped,
        ["ended", "gave", status] => State::Ended(End::Exited(status.parse().ok()?)),
        ["ended", "signal", signal] => State::Ended(End::Signaled(signal.parse().ok()?)),
        _ => return None,
    };
    (p.handled, p.pending) = (handled.parse().ok()?, pending.parse().ok()?);
    for (level, pid) in pids.split(',').enumerate() {
        *p.pids.get_mut(level)? = pid.parse().ok()?;
    }
    Some(p)
}

#[cfg(test)]
mod tests {
    use super::*;

    const TRACE: &str = "0 clone_new -> 2 - 1
1 clone -> 2 - 2
2 exit 7 -> 0 - -
1 wait -> 2 gave:7 -
0 kill 2 9 -> 0 - -
0 getpid -> 1 - -
---
ns 0 parent 255 level 0 last 3 alive 0
ns 1 parent 0 level 1 last 2 dead
proc 0 own 0 kids 0 nums 1 parent 255 running handled 0 pending 0
proc 1 own 1 kids 255 nums 2,1 parent 0 ended signal 9 handled 0 pending 0
";

    #[test]
    fn a_trace_is_played() {
        assert_eq!(hold_trace(Table::fresh(), TRACE), Ok(6));
    }

    #[test]
    fn a_change_in_any_number_is_told() {
        let digits = TRACE.match_indices(|c: char| c.is_ascii_digit());
        for (at, digit) in digits {
            let mut changed = TRACE.to_string();
            changed.replace_range(at..at + 1, if digit == "6" { "5" } else { "6" });
            assert!(hold_trace(Table::fresh(), &changed).is_err(), "{changed}");
        }
    }

    #[test]
    fn a_missing_record_is_told() {
        for line in TRACE.lines().skip_while(|line| *line != "---") {
            let fewer = TRACE.replacen(&format!("{line}\n"), "", 1);
            assert!(hold_trace(Table::fresh(), &fewer).is_err(), "{line}");
        }
    }
}
