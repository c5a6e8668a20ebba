//! The forms of answers: scripts that never bring one about would tell nothing of it.

use reference::calls::Call;
use reference::script::parse;

/// Answers that the scripts must bring about: all refusals but -1000, which no script can, those of the two calls that
/// make a namespace by themselves, and the other forms. (-11 of unshare comes with 48 namespaces alone.)
const FORMS: [&str; 18] = [
    "-1001",
    "-22",
    "-22 of clone new",
    "-22 of unshare",
    "-38",
    "-3",
    "-16",
    "-10",
    "-28 of clone new",
    "-28 of unshare",
    "-12",
    "-11",
    "-11 of clone new",
    "-11 of unshare",
    "gave",
    "signal",
    "?",
    "other numbers",
];

/// The place in `FORMS` of an answer to a line.
fn form_of(line: &[u8], answer: &str) -> usize {
    let word = answer.split(' ').nth(1).unwrap_or(answer);
    let form = match (word, parse(line)) {
        ("-22" | "-28" | "-11", Some((_, Call::CloneNew))) => format!("{word} of clone new"),
        ("-22" | "-28" | "-11", Some((_, Call::Unshare))) => format!("{word} of unshare"),
        _ => word.into(),
    };
    FORMS.iter().position(|known| *known == form).unwrap_or(FORMS.len() - 1)
}

/// How often each form of answer came.
#[derive(Default)]
pub struct Seen([usize; FORMS.len()]);

impl Seen {
    pub fn count(&mut self, script: &[u8], answers: &[u8]) {
        let lines = script.split(|&b| b == b'\n');
        for (line, answer) in lines.zip(String::from_utf8_lossy(answers).lines()) {
            self.0[form_of(line, answer)] += 1;
        }
    }

    pub fn report(&self) -> Result<(), String> {
        let counts: Vec<String> = FORMS.iter().zip(self.0).map(|(form, n)| format!("{form}: {n}")).collect();
        println!("answers    {}", counts.join(", "));
        match FORMS.iter().zip(self.0).find(|(_, n)| *n == 0) {
            Some((form, _)) => Err(format!("no script brought about the answer {form}")),
            None => Ok(()),
        }
    }
}
