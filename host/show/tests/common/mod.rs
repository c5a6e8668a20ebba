//! What the tests share: the program itself, and scripts.
#![allow(dead_code)]

use scripts::generate::{arbitrary, bytes, script, KINDS};
use std::io::Write;
use std::process::{Command, Output, Stdio};

pub const STORY: &[u8] = include_bytes!("../../../../docs/story.txt");

/// Runs the program at the top of the repository.
pub fn show(words: &[&str], input: &[u8]) -> Output {
    let mut child = Command::new(env!("CARGO_BIN_EXE_show"))
        .args(words)
        .current_dir(concat!(env!("CARGO_MANIFEST_DIR"), "/../.."))
        .stdin(Stdio::piped())
        .stdout(Stdio::piped())
        .stderr(Stdio::piped())
        .spawn()
        .expect("the program starts");
    let mut stdin = child.stdin.take().expect("there is an input");
    // It may end without reading.
    let _ = stdin.write_all(input);
    drop(stdin);
    child.wait_with_output().expect("the program ends")
}

/// What the program writes for a script, where all goes well.
pub fn shown(words: &[&str], script: &[u8]) -> String {
    let output = show(&[words, &["-"]].concat(), script);
    assert!(output.status.success() && output.stderr.is_empty(), "{}", String::from_utf8_lossy(&output.stderr));
    String::from_utf8(output.stdout).expect("all output is UTF-8")
}

/// A chain of namespaces to the deepest level, one call more there, and the end of most of it.
pub fn deep() -> Vec<u8> {
    let chain: String = (0..32).map(|slot| format!("{slot} clone new\n")).collect();
    (chain + "32 clone new\n32 clone\n33 exit 7\n0 kill 3 9\n0 kill 2 9\n").into_bytes()
}

/// Tables with 64 processes and 48 namespaces: flat, as a tree, and down to the deepest level.
pub fn full_tables() -> [Vec<u8>; 3] {
    [full(|_| 0), full(|i| i / 3), full(|i| i.min(31))]
}

/// Each process is the child of one that `by` chooses, and has its own namespace as long as there is room.
fn full(by: fn(usize) -> usize) -> Vec<u8> {
    let born = |i: usize| format!("{} clone{}\n", by(i), if i < 47 { " new" } else { "" });
    (0..64).map(born).collect::<String>().into_bytes()
}

/// Scripts of all kinds.
pub fn many(lines: usize) -> Vec<Vec<u8>> {
    let kinds = KINDS.iter().zip(0..).map(|(kind, seed)| script(kind, seed, lines));
    let odd = [bytes(1, lines), arbitrary(true, 2, 4 * lines), arbitrary(false, 3, 4 * lines), Vec::new()];
    let fixed = [STORY.to_vec(), deep(), b"0 clone\n0 wait".to_vec()];
    kinds.chain(odd).chain(fixed).chain(full_tables()).collect()
}
