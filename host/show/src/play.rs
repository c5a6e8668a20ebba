//! A script, played line by line by the one-call interface.

use lampfunnel::{Call, Refusal, Reply, Slot, Table};
use std::fmt;

/// One line of a script, its answer, and the table before and after it.
pub struct Step<'a> {
    /// From 1.
    pub number: usize,
    pub line: &'a [u8],
    pub asked: Option<(Slot, Call)>,
    pub answer: Answer,
    pub before: Table,
    pub after: Table,
}

/// Its text is the answer's in a script.
#[derive(Clone, Copy, PartialEq, Eq, Debug)]
pub enum Answer {
    NoCall,
    Told(Reply),
    Refused(Refusal),
}

impl fmt::Display for Answer {
    fn fmt(&self, f: &mut fmt::Formatter) -> fmt::Result {
        match self {
            Answer::NoCall => write!(f, "?"),
            Answer::Told(reply) => reply.fmt(f),
            Answer::Refused(refusal) => write!(f, "{}", refusal.number()),
        }
    }
}

/// The lines of a script; the last line feed may be missing.
pub fn lines(script: &[u8]) -> impl Iterator<Item = &[u8]> {
    script.split_inclusive(|&b| b == b'\n').map(|line| line.strip_suffix(b"\n").unwrap_or(line))
}

/// The steps of a script from the fresh table.
pub fn steps(script: &[u8]) -> impl Iterator<Item = Step<'_>> {
    let mut table = Table::fresh();
    lines(script).zip(1..).map(move |(line, number)| {
        let before = table.clone();
        let asked = read(line);
        let answer = match asked {
            None => Answer::NoCall,
            Some((slot, call)) => table.call(slot, call).map_or_else(Answer::Refused, Answer::Told),
        };
        Step { number, line, asked, answer, before, after: table.clone() }
    })
}

fn read(line: &[u8]) -> Option<(Slot, Call)> {
    let (slot, call) = std::str::from_utf8(line).ok()?.split_once(' ')?;
    let number: u8 = slot.parse().ok()?;
    // Rust reads +1 and 01 too, which a script does not have.
    (number.to_string() == slot).then_some((Slot(number), call.parse().ok()?))
}

/// A line that is answered otherwise by the proved reader of scripts.
#[derive(PartialEq, Eq, Debug)]
pub struct Difference {
    pub line: usize,
    pub played: String,
    pub proved: String,
}

impl fmt::Display for Difference {
    fn fmt(&self, f: &mut fmt::Formatter) -> fmt::Result {
        let Difference { line, played, proved } = self;
        write!(f, "line {line} was answered {played}, and the proved reader of scripts answers {proved}")
    }
}

/// Holds the answers of the steps against those of `lampfunnel::run` on the whole script.
pub fn hold(script: &[u8]) -> Result<(), Difference> {
    same(steps(script).map(|step| step.answer.to_string()), &lampfunnel::run(script))
}

/// Whether answers are those of an output, line by line.
pub fn same(mut played: impl Iterator<Item = String>, proved: &[u8]) -> Result<(), Difference> {
    let none = || "nothing".to_string();
    let mut proved = lines(proved).map(|line| String::from_utf8_lossy(line).into_owned());
    let pairs = std::iter::from_fn(|| match (played.next(), proved.next()) {
        (None, None) => None,
        (played, proved) => Some((played.unwrap_or_else(none), proved.unwrap_or_else(none))),
    });
    match pairs.zip(1..).find(|((played, proved), _)| played != proved) {
        None => Ok(()),
        Some(((played, proved), line)) => Err(Difference { line, played, proved }),
    }
}
