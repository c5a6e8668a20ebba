//! The script: a line for each call, a line for each answer.

use crate::calls::{Answer, Call, Refusal};
use crate::sound::{is_sound, Check};
use crate::table::{End, Table};

const LONGEST: usize = 64;

/// A signed 32-bit decimal: no plus, no needless zeros, no `-0`.
fn number(word: &[u8]) -> Option<i32> {
    let digits = word.strip_prefix(b"-").unwrap_or(word);
    if digits.is_empty() || !digits.iter().all(u8::is_ascii_digit) || (digits[0] == b'0' && word != b"0") {
        return None;
    }
    std::str::from_utf8(word).ok()?.parse().ok()
}

/// The caller's slot and the call of a line without its line feed.
pub fn parse(line: &[u8]) -> Option<(u8, Call)> {
    if line.len() > LONGEST {
        return None;
    }
    let words: Vec<&[u8]> = line.split(|&b| b == b' ').collect();
    let slot = u8::try_from(number(words[0])?).ok()?;
    let call = match words[1..] {
        [b"clone"] => Call::Clone,
        [b"clone", b"new"] => Call::CloneNew,
        [b"unshare"] => Call::Unshare,
        [b"setns", n] => Call::Setns(number(n)?),
        [b"kill", n, s] => Call::Kill(number(n)?, number(s)?),
        [b"exit", s] => Call::Exit(number(s)?),
        [b"wait"] => Call::Wait,
        [b"getpid"] => Call::Getpid,
        [b"getppid"] => Call::Getppid,
        [b"handle", s, b"0"] => Call::Handle(number(s)?, false),
        [b"handle", s, b"1"] => Call::Handle(number(s)?, true),
        [b"poll"] => Call::Poll,
        _ => return None,
    };
    Some((slot, call))
}

/// The words of a call, which `parse` reads after a slot.
pub fn call_text(call: Call) -> String {
    match call {
        Call::Clone => "clone".into(),
        Call::CloneNew => "clone new".into(),
        Call::Unshare => "unshare".into(),
        Call::Setns(n) => format!("setns {n}"),
        Call::Kill(n, s) => format!("kill {n} {s}"),
        Call::Exit(s) => format!("exit {s}"),
        Call::Wait => "wait".into(),
        Call::Getpid => "getpid".into(),
        Call::Getppid => "getppid".into(),
        Call::Handle(s, on) => format!("handle {s} {}", u8::from(on)),
        Call::Poll => "poll".into(),
    }
}

/// The text of an answer, without its line feed.
pub fn answer_text(answer: Result<Answer, Refusal>) -> String {
    match answer {
        Ok(Answer::Number(k)) => k.to_string(),
        Ok(Answer::Reaped(pid, End::Exited(s))) => format!("{pid} gave {s}"),
        Ok(Answer::Reaped(pid, End::Signaled(s))) => format!("{pid} signal {s}"),
        Err(refusal) => refusal.to_string(),
    }
}

/// What one line gives, and does to the table.
pub fn run_line(table: &mut Table, line: &[u8]) -> String {
    run_line_after(is_sound, table, line)
}

/// The same, with the check of the table that is given.
pub fn run_line_after(check: Check, table: &mut Table, line: &[u8]) -> String {
    match parse(line) {
        Some((slot, call)) => answer_text(table.step_after(check, slot, call)),
        None => "?".to_string(),
    }
}

/// A whole script from a table: an output line for each input line; the last line feed may be missing.
pub fn run(table: &mut Table, script: &[u8]) -> String {
    script
        .split_inclusive(|&b| b == b'\n')
        .map(|line| run_line(table, line.strip_suffix(b"\n").unwrap_or(line)) + "\n")
        .collect()
}

#[cfg(test)]
mod tests {
    use super::*;
    use crate::turns::Request;

    #[test]
    fn ten_lines_of_document_01() {
        let script =
            b"0 clone new\n1 getpid\n1 getppid\n1 clone\n2 kill 1 9\n0 kill 2 9\n0 kill 3 0\n0 wait\n0 wait\n0 clone";
        let answers = "2\n1\n0\n2\n0\n0\n-3\n2 signal 9\n-10\n4\n";
        assert_eq!(run(&mut Table::fresh(), script), answers);
    }

    #[test]
    fn words_of_calls() {
        for call in (1..=12).filter_map(|call| Request { call, a: -7, b: 31, c: 0 }.call()) {
            assert_eq!(parse(format!("63 {}", call_text(call)).as_bytes()), Some((63, call)));
        }
    }

    #[test]
    fn bad_lines() {
        for line in [
            "",
            "0",
            " 0 wait",
            "0 wait ",
            "0  wait",
            "00 wait",
            "-0 wait",
            "+1 wait",
            "256 wait",
            "0 kill 1",
            "0 kill 1 -0",
            "0 exit 2147483648",
            "0 handle 15 2",
            "0 clone  new",
            "0\twait",
            "0 wait\r",
        ] {
            assert_eq!(run_line(&mut Table::fresh(), line.as_bytes()), "?", "{line:?}");
        }
    }
}
