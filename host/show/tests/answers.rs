//! The answers that are shown are those of the proved reader of scripts.

mod common;

use show::play::{hold, same, steps, Difference};

#[test]
fn answers_are_those_of_a_run() {
    let lines: usize = common::many(400).iter().map(|script| held(script)).sum();
    assert!(lines > 4000, "{lines} lines were played");
}

fn held(script: &[u8]) -> usize {
    assert_eq!(hold(script), Ok(()));
    steps(script).count()
}

#[test]
fn a_difference_is_told_with_its_line() {
    let told = |played: &[&str], proved: &[u8]| same(played.iter().map(|answer| answer.to_string()), proved);
    let differs = |line, played: &str, proved: &str| {
        Err(Difference { line, played: played.to_string(), proved: proved.to_string() })
    };
    assert_eq!(told(&["2", "?"], b"2\n?\n"), Ok(()));
    assert_eq!(told(&["2", "-3", "0"], b"2\n0\n0\n"), differs(2, "-3", "0"));
    assert_eq!(told(&["2"], b"2\n0\n"), differs(2, "nothing", "0"));
    assert_eq!(told(&["2", "0"], b"2\n"), differs(2, "0", "nothing"));
}
