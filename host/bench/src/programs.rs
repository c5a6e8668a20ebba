//! The programs on a kept script: the recorder, and the reference with the recorder's check and with the plain one.

use crate::chart::Group;
use crate::group;
use crate::timing::{best, nanoseconds, LONG_ROUNDS};
use scripts::kept::LINES;
use std::fs::{self, File};
use std::io;
use std::path::{Path, PathBuf};
use std::process::Command;
use std::time::Duration;

pub struct Speeds {
    pub recorder: Duration,
    pub quick: Duration,
    pub plain: Duration,
    library: Duration,
}

/// A program, its arguments, and where its answers go.
struct Program {
    path: PathBuf,
    arguments: &'static [&'static str],
    answers: PathBuf,
}

impl Program {
    fn run(&self, script: &Path) -> io::Result<()> {
        let mut command = Command::new(&self.path);
        command.args(self.arguments).stdin(File::open(script)?).stdout(File::create(&self.answers)?);
        let status = command.status().map_err(|e| io::Error::other(format!("{}: {e}", self.path.display())))?;
        if status.success() {
            Ok(())
        } else {
            Err(io::Error::other(format!("{} fails", self.path.display())))
        }
    }
}

/// Times the programs, and sees that all give the same answers.
pub fn run(script: &[u8]) -> io::Result<Speeds> {
    let host = Path::new(env!("CARGO_MANIFEST_DIR")).join("..");
    build_reference(&host)?;
    let folder = host.join("target/bench");
    fs::create_dir_all(&folder)?;
    let input = folder.join("script");
    fs::write(&input, script)?;
    let recorder = host.join("../target/bin/recorder");
    let reference = host.join("target/release/reference");
    let program = |path, arguments, name| Program { path, arguments, answers: folder.join(name) };
    let programs = [
        program(recorder, &[][..], "recorder"),
        program(reference.clone(), &["quick"], "quick"),
        program(reference, &[], "plain"),
    ];
    hold(&programs, &input, &lampfunnel::run(script))?;
    let play = |program: &Program| program.run(&input).expect("it ran before");
    let [recorder, quick, plain, library] = best(
        LONG_ROUNDS,
        [&mut || play(&programs[0]), &mut || play(&programs[1]), &mut || play(&programs[2]), &mut || {
            drop(lampfunnel::run(script))
        }],
    );
    Ok(Speeds { recorder, quick, plain, library })
}

/// `cargo run -p bench` does not build the program of another package by itself.
fn build_reference(host: &Path) -> io::Result<()> {
    let cargo = std::env::var_os("CARGO").unwrap_or("cargo".into());
    let status = Command::new(cargo)
        .args(["build", "--release", "--offline", "--quiet", "-p", "reference"])
        .current_dir(host)
        .status()?;
    if status.success() {
        Ok(())
    } else {
        Err(io::Error::other("the reference was not built"))
    }
}

fn hold(programs: &[Program], input: &Path, answers: &[u8]) -> io::Result<()> {
    for program in programs {
        program.run(input)?;
        if fs::read(&program.answers)? != answers {
            return Err(io::Error::other(format!("{} answers otherwise", program.path.display())));
        }
    }
    Ok(())
}

fn per_second(time: Duration) -> f64 {
    LINES as f64 / time.as_secs_f64()
}

impl Speeds {
    /// Nanoseconds for each line.
    pub fn per_line(time: Duration) -> f64 {
        nanoseconds(time, LINES)
    }

    pub fn lines_per_second(&self, script: &str) -> Group {
        let bars = [
            ("recorder", per_second(self.recorder)),
            ("the same as a library", per_second(self.library)),
            ("reference, same check", per_second(self.quick)),
            ("reference, plain check", per_second(self.plain)),
        ];
        group(&format!("Lines per second, {script} (more is better)"), "lines/s", &bars)
    }

    pub fn ratios(&self, script: &str) -> String {
        let ratio = |other: Duration| self.recorder.as_secs_f64() / other.as_secs_f64();
        format!(
            "ratio, {script}: the recorder takes {:.2} times as long as the reference with the same check, {:.2} with the \
             plain\n",
            ratio(self.quick),
            ratio(self.plain)
        )
    }
}
