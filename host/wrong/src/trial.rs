//! A place where wrong programs are tried, one after the other.

use crate::copy::Copy;
use crate::edit::Edit;
use std::fs;
use std::path::{Path, PathBuf};
use std::process::Command;

/// What may tell a wrong program.
pub const JUDGES: [&str; 4] = ["as the recorder", "as the reference", "as a host's table", "kept script"];

/// What one of them says.
#[derive(Default)]
pub enum Verdict {
    /// the script, the calls, the damage or the line by which it tells a wrong program
    Told(String),
    Missed,
    #[default]
    NotAsked,
}

impl Verdict {
    pub fn text(&self) -> &str {
        match self {
            Verdict::Told(by) => by,
            Verdict::Missed => "-",
            Verdict::NotAsked => "",
        }
    }
}

pub type Verdicts = [Verdict; JUDGES.len()];

pub struct Trial {
    host: PathBuf,
    copy: Copy,
    /// the comparison without an edit
    compare: PathBuf,
    recorder: PathBuf,
    script: PathBuf,
    answers: Vec<u8>,
}

impl Trial {
    /// Builds the programs without an edit. The kept script must tell nothing then; that the comparison tells nothing
    /// the gate shows.
    pub fn at(host: &Path, lane: usize) -> Result<Trial, String> {
        let top = host.join("..");
        let kept = top.join("crates/recorder");
        let copy = Copy::of(host, lane).map_err(|e| format!("the copy: {e}"))?;
        copy.build()?;
        let compare = copy.program("compare as it is");
        fs::copy(copy.program("compare"), &compare).map_err(|e| format!("the comparison: {e}"))?;
        let answers = fs::read(kept.join("stdout")).map_err(|e| format!("the kept answers: {e}"))?;
        let recorder = top.join("target/bin/recorder");
        let trial = Trial { host: host.into(), copy, compare, recorder, script: kept.join("stdin"), answers };
        match trial.by_kept_script()? {
            Verdict::Told(line) => Err(format!("the reference as it is does not give the kept answers: {line}")),
            _ => Ok(trial),
        }
    }

    /// Puts an edit in, and sees what tells it.
    pub fn tell(&self, edit: &Edit) -> Result<Verdicts, String> {
        let told = self.tell_edited(edit).map_err(|fault| format!("{}: {fault}", edit.name));
        edit.undo(&self.copy.folder, &self.host)?;
        told
    }

    fn tell_edited(&self, edit: &Edit) -> Result<Verdicts, String> {
        edit.apply(&self.copy.folder)?;
        self.copy.build()?;
        let (edited, mut verdicts) = (self.copy.program("compare"), Verdicts::default());
        if edit.is_for("scripts") {
            verdicts[0] = by_scripts(edit, &self.compare, &self.copy.program("reference"))?;
            verdicts[1] = by_scripts(edit, &edited, &self.recorder)?;
            verdicts[3] = self.by_kept_script()?;
        }
        if let Some(comparison) = ["calls", "tables"].into_iter().find(|comparison| edit.is_for(comparison)) {
            verdicts[2] = verdict(Command::new(edited).arg(comparison))?;
        }
        Ok(verdicts)
    }

    /// The line of the kept script whose answer is another.
    fn by_kept_script(&self) -> Result<Verdict, String> {
        let script = fs::File::open(&self.script).map_err(|e| format!("the kept script: {e}"))?;
        let mut reference = Command::new(self.copy.program("reference"));
        let output = reference.stdin(script).output().map_err(|e| format!("reference: {e}"))?;
        if output.status.success() && output.stdout == self.answers {
            return Ok(Verdict::Missed);
        }
        let (given, kept) = (output.stdout.split(|&b| b == b'\n'), self.answers.split(|&b| b == b'\n'));
        Ok(Verdict::Told(format!("line {}", given.zip(kept).take_while(|(a, b)| a == b).count() + 1)))
    }
}

/// The script at which the comparison stops.
fn by_scripts(edit: &Edit, compare: &Path, recorder: &Path) -> Result<Verdict, String> {
    let mut command = Command::new(compare);
    command.arg("scripts").arg(recorder);
    if let Some(kind) = &edit.kind {
        command.args(["--kind", kind]);
    }
    verdict(&mut command)
}

/// What a comparison stops at. It need not make that smaller.
fn verdict(compare: &mut Command) -> Result<Verdict, String> {
    let output = compare.env("COMPARE_SHRINKING", "0").output().map_err(|e| format!("compare: {e}"))?;
    let text = String::from_utf8_lossy(&output.stdout);
    let place = text.lines().find_map(|line| Some(line.strip_prefix("compare: ")?.split_once(", seed")?.0));
    match (output.status.code(), place) {
        (Some(0), _) => Ok(Verdict::Missed),
        (Some(1), Some(place)) => {
            Ok(Verdict::Told(place.trim_start_matches("kind ").replace('\'', "").replace(", script", "")))
        }
        _ => Err(format!("compare: {}\n{text}{}", output.status, String::from_utf8_lossy(&output.stderr))),
    }
}
