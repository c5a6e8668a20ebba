//! The text of a call is what a script has after the slot: no more, no less.

use lampfunnel::{run, Call};

const GOOD: [&str; 15] = [
    "clone",
    "clone new",
    "unshare",
    "setns 10",
    "setns -2147483648",
    "getpid",
    "getppid",
    "exit 0",
    "exit 2147483647",
    "wait",
    "kill 10 9",
    "kill -1 31",
    "handle 15 0",
    "handle -15 1",
    "poll",
];

const WORDS: [&str; 16] = [
    "", "clone", "new", "unshare", "setns", "getpid", "getppid", "exit", "wait", "kill", "handle", "poll", "Clone",
    "clones", "wai", "0",
];

const ARGUMENTS: [&str; 24] = [
    "",
    "0",
    "1",
    "2",
    "9",
    "-1",
    "-0",
    "00",
    "01",
    "-01",
    "+1",
    "--1",
    "-",
    "new",
    "2147483647",
    "2147483648",
    "-2147483648",
    "-2147483649",
    "99999999999999999999",
    "1_0",
    "0x1",
    "1.0",
    "\u{663}",
    "\u{ff11}",
];

/// A script answers `?` to exactly those texts that do not parse; a call that was parsed writes the same text.
fn assert_as_in_a_script(texts: &[String]) {
    let script: String = texts.iter().map(|text| format!("0 {text}\n")).collect();
    let answers = String::from_utf8(run(script.as_bytes())).unwrap();
    assert_eq!(answers.lines().count(), texts.len());
    for (text, answer) in texts.iter().zip(answers.lines()) {
        let written = text.parse().ok().map(|call: Call| call.to_string());
        assert_eq!(written.as_ref(), (answer != "?").then_some(text), "{text:?} is answered {answer}");
    }
}

#[test]
fn each_call_has_its_text() {
    assert_as_in_a_script(&GOOD.map(String::from));
    assert!(GOOD.iter().all(|text| text.parse::<Call>().is_ok()));
}

#[test]
fn words_and_arguments() {
    let none = WORDS.iter().map(|word| word.to_string());
    let one = WORDS.iter().flat_map(|word| ARGUMENTS.map(|a| format!("{word} {a}")));
    let two = one.clone().flat_map(|text| ARGUMENTS.map(|b| format!("{text} {b}")));
    let three = ["0", "", "1"].into_iter().flat_map(|c| two.clone().map(move |text| format!("{text} {c}")));
    assert_as_in_a_script(&none.chain(one.clone()).chain(two.clone()).chain(three).collect::<Vec<_>>());
}

/// Any one character more, or another one, or one less.
#[test]
fn one_slip_of_the_pen() {
    let places = GOOD.iter().flat_map(|text| (0..=text.len()).map(|at| text.split_at(at)));
    let slips = places.flat_map(|(before, after)| {
        let rest = after.get(1..).unwrap_or("");
        let characters = (0..=255_u8).map(char::from).filter(|&character| character != '\n');
        let changed = characters.flat_map(move |c| [format!("{before}{c}{after}"), format!("{before}{c}{rest}")]);
        changed.chain([format!("{before}{rest}")])
    });
    assert_as_in_a_script(&slips.collect::<Vec<_>>());
}

#[test]
fn long_texts() {
    let zeros = |count| format!("exit {}1", "0".repeat(count));
    let spaces = |count| format!("wait{}", " ".repeat(count));
    let digits = |count| format!("exit {}", "1".repeat(count));
    let texts = (1..80).flat_map(|count| [zeros(count), spaces(count), digits(count)]);
    assert_as_in_a_script(&texts.collect::<Vec<_>>());
}
