//! What stands in a terminal.

mod common;

use common::{shown, STORY};
use lampfunnel::{Slot, Table};
use show::play::{steps, Step};
use show::words::Names;
use show::{changes, words};
use std::collections::BTreeSet;

/// The crate's tree, set in.
fn tree(table: &Table) -> String {
    format!("{table:?}").lines().map(|line| format!("    {line}\n")).collect()
}

#[test]
fn the_story_at_its_end() {
    let text = shown(&[], STORY);
    let (told, end) = text.split_once("\n\n").expect("an empty line before the tree");
    assert_eq!(end, tree(&steps(STORY).last().expect("the story has lines").after));
    let answers = String::from_utf8(lampfunnel::run(STORY)).expect("answers are ASCII");
    let script = std::str::from_utf8(STORY).expect("so is the story");
    let lines: Vec<&str> = told.lines().collect();
    assert_eq!(lines.len(), script.lines().count());
    for ((line, asked), answer) in lines.iter().zip(script.lines()).zip(answers.lines()) {
        assert_eq!(line.get(6..6 + asked.len()), Some(asked));
        assert!(line[6 + asked.len()..].trim_start().starts_with(&format!("{answer} ")), "{line}");
    }
    assert!(lines[7].ends_with("slot 4 sends signal 9 to number 2: no such process (it sees no number 2)"));
}

#[test]
fn the_story_step_by_step() {
    let text = shown(&["--steps", "--name", "4=display"], STORY);
    let parts: Vec<&str> = text.split("step ").skip(1).collect();
    assert_eq!(parts.len(), 15);
    let ends = |(part, step): (&&str, Step)| part.ends_with(&format!("\n{}\n", tree(&step.after)));
    assert!(parts.iter().zip(steps(STORY)).all(ends));
    let step = "step 8: 4 kill 2 9\n  display (slot 4) sends signal 9 to number 2\n  \
                -3 no such process (it sees no number 2)\n  nothing changes\n";
    assert!(text.contains(step));
    let picked = shown(&["--steps", "--at", "2,14-99"], STORY);
    let numbers: Vec<&str> = picked.lines().filter_map(|line| line.strip_prefix("step ")?.split(':').next()).collect();
    assert_eq!(numbers, ["2", "14", "15"]);
}

#[test]
fn a_line_that_is_no_call() {
    let text = shown(&[], b"# who is it\n\x1b[31m\xff\\\n0 getpid");
    let lines: Vec<&str> = text.lines().collect();
    assert_eq!(lines[0].split_whitespace().collect::<Vec<_>>()[..6], ["1", "#", "who", "is", "it", "?"]);
    assert!(lines[1].contains("\\x1b[31m\\xff\\\\") && lines[2].contains("0 getpid"));
    assert!(!text.contains('\x1b'));
    let long = shown(&[], &[b'x'; 1000]);
    assert!(long.contains(&format!("{}… (1000 bytes) ?", "x".repeat(64))));
}

#[test]
fn nothing_to_play() {
    assert_eq!(shown(&[], b""), format!("\n{}", tree(&Table::fresh())));
    assert_eq!(shown(&["--steps"], b""), "");
}

/// All that is said of the steps of many scripts.
fn said() -> BTreeSet<String> {
    let names = Names::default();
    let told = |step: Step| changes::told(&step, &names).into_iter().chain([words::question(&step, &names)]);
    let of_script = |script: &Vec<u8>| steps(script).flat_map(told).collect::<Vec<_>>();
    common::many(400).iter().flat_map(of_script).collect()
}

/// Every kind of change has its words, and no call lacks some.
#[test]
fn words_for_everything() {
    let said = said();
    let some = |words: &str| said.iter().any(|told| told.contains(words));
    let changes = ["is new", "is removed", "ended and gave", "was ended by signal", "is stopped", "runs again"];
    let more = ["handles", "has pending", "has no pending", "is now a child of", "has its next children in"];
    let namespaces = [" is dead", " is freed", " lives", "more changes", "nothing changes"];
    for words in changes.iter().chain(&more).chain(&namespaces) {
        assert!(some(words), "{words}");
    }
    assert!(!some(" calls "));
}

#[test]
fn a_name_stands_beside_its_slot() {
    let mut names = Names::default();
    names.give(Slot(3), "Wächter\u{1b}");
    assert_eq!((names.who(Slot(3)), names.who(Slot(2))), ("Wächter? (slot 3)".to_string(), "slot 2".to_string()));
}
