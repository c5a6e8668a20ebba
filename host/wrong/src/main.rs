//! Wrong programs: puts each edit of `wrong/edits/` into a copy of the reference, and says what tells it:
//!
//! - the comparison of scripts, with its fixed seeds, where the wrong program is held against the reference as it is,
//!   in the recorder's place;
//! - the same where it is held against the recorder, in the reference's place, so that it plays along when scripts are
//!   made;
//! - the comparison by calls, or of damaged tables, where it is held against the library, in the reference's place;
//! - the recorder's kept script.
//!
//!     cargo run --release --offline -p wrong [NAME..]
//!
//! An edit says which comparisons are to tell it. It fails where one of them does not.

mod copy;
mod edit;
mod trial;

use edit::Edit;
use std::fs;
use std::path::{Path, PathBuf};
use std::process::exit;
use std::sync::mpsc::{channel, Sender};
use std::sync::Mutex;
use std::thread;
use trial::{Trial, Verdict, Verdicts, JUDGES};

/// A wrong program and what tells it, or why that is not known.
type Tried = Result<(String, Verdicts), String>;

fn main() {
    let host = Path::new(env!("CARGO_MANIFEST_DIR")).join("..").canonicalize().expect("this package lies in host/");
    let names: Vec<String> = std::env::args().skip(1).collect();
    match edits(&host, &names).and_then(|edits| try_all(&host, edits)) {
        Ok(true) => {}
        Ok(false) => exit(1),
        Err(fault) => {
            eprintln!("wrong: {fault}");
            exit(2);
        }
    }
}

/// The edits that are named, or all.
fn edits(host: &Path, names: &[String]) -> Result<Vec<Edit>, String> {
    let folder = host.join("wrong/edits");
    let files = fs::read_dir(&folder).map_err(|e| format!("{}: {e}", folder.display()))?;
    let mut paths: Vec<PathBuf> = files.filter_map(|file| Some(file.ok()?.path())).collect();
    if !names.is_empty() {
        paths = names.iter().map(|name| folder.join(name).with_extension("edit")).collect();
    }
    paths.sort();
    paths.iter().map(|path| Edit::read(path)).collect()
}

/// Tries the edits, on each processor one at a time. Whether the comparison tells all.
fn try_all(host: &Path, edits: Vec<Edit>) -> Result<bool, String> {
    let number = edits.len();
    let left = Mutex::new(edits.into_iter());
    let (sender, tried) = channel();
    print_row("wrong program", JUDGES);
    let asked = thread::scope(|scope| {
        for lane in 0..thread::available_parallelism().map_or(1, usize::from) {
            let (left, sender) = (&left, sender.clone());
            scope.spawn(move || try_some(host, lane, left, &sender));
        }
        drop(sender);
        print_all(tried)
    })?;
    println!("wrong: {number} wrong programs");
    for (judge, Asked { told, missed }) in JUDGES.iter().zip(&asked) {
        println!("wrong: {judge}: {told} of {} are told{}", told + missed.len(), but(missed));
    }
    // The kept script is short, and there to be read.
    Ok(asked[..JUDGES.len() - 1].iter().all(|asked| asked.missed.is_empty()))
}

/// Tries edits as long as there are any left.
fn try_some(host: &Path, lane: usize, left: &Mutex<impl Iterator<Item = Edit>>, tried: &Sender<Tried>) {
    let next = || left.lock().expect("no lane panics").next();
    let trial = Trial::at(host, lane);
    while let Some(edit) = next() {
        let told = trial.as_ref().map_err(String::clone).and_then(|trial| trial.tell(&edit));
        // Nobody listens after a fault.
        let _ = tried.send(told.map(|told| (edit.name, told)));
    }
}

/// What one judge was asked: how many it told, and which it did not.
#[derive(Default)]
struct Asked {
    told: usize,
    missed: Vec<String>,
}

/// Prints what is tried as it comes.
fn print_all(tried: impl IntoIterator<Item = Tried>) -> Result<[Asked; JUDGES.len()], String> {
    let mut all: [Asked; JUDGES.len()] = Default::default();
    for tried in tried {
        let (name, verdicts) = tried?;
        print_row(&name, verdicts.each_ref().map(Verdict::text));
        for (asked, verdict) in all.iter_mut().zip(&verdicts) {
            match verdict {
                Verdict::Told(_) => asked.told += 1,
                Verdict::Missed => asked.missed.push(name.clone()),
                Verdict::NotAsked => {}
            }
        }
    }
    Ok(all)
}

fn print_row(name: &str, verdicts: [&str; JUDGES.len()]) {
    println!("{name:42} {:24} {:24} {:40} {}", verdicts[0], verdicts[1], verdicts[2], verdicts[3]);
}

fn but(missed: &[String]) -> String {
    if missed.is_empty() {
        return String::new();
    }
    format!(", but not {}", missed.join(", "))
}
