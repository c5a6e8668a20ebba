//! compare tables [--seed N]: holds the proved check of a table, and the proved search for a number, against the
//! reference on damaged tables and on those with long runs of numbers.
//! compare scripts RECORDER [--seed N] [--kind KIND]: plays scripts of many kinds, or of one, to a recorder, to the
//! proved library and to the reference.
//! compare calls [--seed N] [--calls N]: makes calls one at a time by the proved library and by the reference, on
//! tables of many kinds, damaged ones too, and compares all bytes after each.
//! compare vectors [FOLDER]: plays traces of calls with another model's answers, those of `host/vectors` or others.
//! compare fresh RECORDER [--rounds N]: the first three of them, with a seed from the clock in each round.
//!
//! All that a run plays follows from its seed. Without one it is the same in every run. Each stops at the first
//! difference, shows it as small as it can make it in five seconds, or as many as COMPARE_SHRINKING says, and says how
//! to play it again.

mod calls;
mod damage;
mod difference;
mod fields;
mod forms;
mod library;
mod naming;
mod playing;
mod recorder;
mod runs;
mod searches;
mod shrinking;
mod tables;
mod tally;
mod vectors;
mod walks;

use std::num::{NonZeroU32, NonZeroUsize};
use std::path::{Path, PathBuf};
use std::process::exit;
use std::time::{SystemTime, UNIX_EPOCH};

const USAGE: &str = "usage: compare tables [--seed N]
       compare scripts RECORDER [--seed N] [--kind KIND]
       compare calls [--seed N] [--calls N]
       compare vectors [FOLDER]
       compare fresh RECORDER [--rounds N]";

enum Command<'a> {
    Tables(u64),
    Scripts(&'a str, Options<'a>),
    Calls(Options<'a>),
    Vectors(Option<&'a str>),
    Fresh(&'a str, u32),
}

/// The seed that all of a run follows from, the one kind of script to play, if not all, and how many calls to make.
#[derive(Default)]
struct Options<'a> {
    seed: u64,
    kind: Option<&'a str>,
    calls: Option<usize>,
}

fn main() {
    let arguments: Vec<String> = std::env::args().skip(1).collect();
    let words: Vec<&str> = arguments.iter().map(String::as_str).collect();
    let outcome = match command(&words) {
        Some(Command::Tables(seed)) => tables::hold(seed),
        Some(Command::Scripts(recorder, options)) => playing::hold(recorder, options),
        Some(Command::Calls(options)) => calls::hold(options.seed, options.calls.unwrap_or(calls::CALLS)),
        Some(Command::Vectors(folder)) => vectors::hold(&folder.map_or_else(vectors::kept, PathBuf::from)),
        Some(Command::Fresh(recorder, rounds)) => (0..rounds).try_for_each(|_| fresh(recorder)),
        None => stop_for("bad usage"),
    };
    if let Err(difference) = outcome {
        println!("compare: {difference}");
        exit(1);
    }
}

fn command<'a>(words: &[&'a str]) -> Option<Command<'a>> {
    match *words {
        ["tables", ref rest @ ..] => Some(Command::Tables(options(rest, &["--seed"])?.seed)),
        ["scripts", recorder, ref rest @ ..] => {
            Some(Command::Scripts(program(recorder), options(rest, &["--seed", "--kind"])?))
        }
        ["calls", ref rest @ ..] => Some(Command::Calls(options(rest, &["--seed", "--calls"])?)),
        ["vectors"] => Some(Command::Vectors(None)),
        ["vectors", folder] => Some(Command::Vectors(Some(folder))),
        ["fresh", recorder] => Some(Command::Fresh(program(recorder), 1)),
        ["fresh", recorder, "--rounds", rounds] => {
            Some(Command::Fresh(program(recorder), rounds.parse::<NonZeroU32>().ok()?.get()))
        }
        _ => None,
    }
}

/// The options of a command, which takes those that are listed.
fn options<'a>(words: &[&'a str], takes: &[&str]) -> Option<Options<'a>> {
    let mut options = Options::default();
    for pair in words.chunks(2) {
        match *pair {
            [option, _] if !takes.contains(&option) => return None,
            ["--seed", seed] => options.seed = seed.parse().ok()?,
            ["--kind", name] => options.kind = Some(kind(name)),
            ["--calls", number] => options.calls = Some(number.parse::<NonZeroUsize>().ok()?.get()),
            _ => return None,
        }
    }
    Some(options)
}

fn kind(name: &str) -> &str {
    let names = playing::names();
    if !names.contains(&name) {
        stop_for(&format!("there is no kind '{name}' but: {}", names.join("; ")));
    }
    name
}

fn program(path: &str) -> &str {
    if !Path::new(path).is_file() {
        stop_for(&format!("there is no program {path}"));
    }
    path
}

fn stop_for(what: &str) -> ! {
    eprintln!("compare: {what}\n{USAGE}");
    exit(2)
}

/// All of them, with a seed that no run had, and more calls.
fn fresh(recorder: &str) -> Result<(), String> {
    let now = SystemTime::now().duration_since(UNIX_EPOCH).expect("the clock is set");
    let seed = now.as_nanos() as u64;
    println!("compare: seed {seed}");
    tables::hold(seed)?;
    calls::hold(seed, 10 * calls::CALLS)?;
    playing::hold(recorder, Options { seed, ..Options::default() })
}
