//! A difference, cut off where it shows and shortened as far as a short time allows.

use crate::recorder::Answers;
use crate::shrinking::Shrinking;
use reference::script::run;
use reference::table::Table;

/// A script with more lines is not shortened.
const LONG: usize = 5000;

/// Of longer texts the last lines are shown.
const SHOWN: usize = 40;

/// A script to which the reference gives other answers.
pub struct Difference {
    pub script: Vec<u8>,
    given: Answers,
    expected: Vec<u8>,
}

impl Difference {
    /// Holds the answers to a script against those of the reference.
    pub fn find(script: &[u8], expected: &[u8], answers: impl Fn(&[u8]) -> Answers) -> Option<Difference> {
        let given = answers(script);
        if given.as_deref() == Ok(expected) {
            return None;
        }
        let end = given.as_ref().map_or(usize::MAX, |given| first_difference(given, expected));
        let first = |text: &[u8]| lines(text).into_iter().take(end).collect::<Vec<_>>().concat();
        let script = first(script);
        if lines(&script).len() > LONG {
            return Some(Difference { script, given: given.map(|given| first(&given)), expected: first(expected) });
        }
        let script = shortened(&script, &answers);
        Some(Difference { given: answers(&script), expected: by_reference(&script), script })
    }

    pub fn shown(&self, who: &str) -> String {
        let given = match &self.given {
            Ok(answers) => shown(answers),
            Err(fault) => format!("    {fault}\n"),
        };
        let (script, expected) = (shown(&self.script), shown(&self.expected));
        format!("{who} and the reference differ. A script:\n{script}{who}:\n{given}reference:\n{expected}")
    }
}

/// The command that plays a difference again.
pub fn again(words: &str) -> String {
    let compare = std::env::args().next().unwrap_or("compare".into());
    format!("to play it again: {compare} {words}")
}

pub fn by_reference(script: &[u8]) -> Vec<u8> {
    run(&mut Table::fresh(), script).into_bytes()
}

fn lines(text: &[u8]) -> Vec<&[u8]> {
    text.split_inclusive(|&b| b == b'\n').collect()
}

/// The number of lines to the first that differs, with that one.
fn first_difference(a: &[u8], b: &[u8]) -> usize {
    lines(a).iter().zip(lines(b)).take_while(|(a, b)| *a == b).count() + 1
}

/// A shorter script on which the answers still differ.
fn shortened(script: &[u8], answers: impl Fn(&[u8]) -> Answers) -> Vec<u8> {
    let shrinking = Shrinking::by(|parts: &[&[u8]]| {
        let script = parts.concat();
        answers(&script).as_ref() != Ok(&by_reference(&script))
    });
    let script = shrinking.shrink(lines(script)).concat();
    shrinking.shrink(script.chunks(1).collect()).concat()
}

/// The last lines, with bytes that are no plain text escaped.
fn shown(text: &[u8]) -> String {
    let lines = lines(text);
    let left_out = lines.len().saturating_sub(SHOWN);
    let before = if left_out == 0 { String::new() } else { format!("    ({left_out} lines before these)\n") };
    before + &lines[left_out..].iter().map(|line| shown_line(line)).collect::<String>()
}

fn shown_line(line: &[u8]) -> String {
    match line.strip_suffix(b"\n") {
        Some(line) => format!("    {}\n", line.escape_ascii()),
        None => format!("    {}    (without a line feed)\n", line.escape_ascii()),
    }
}
