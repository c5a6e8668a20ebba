//! Several tables at once, in one thread and in several; none disturbs another.

use crate::scripts::{chain, play, play_line, BUSY};
use lampfunnel::{run, Slot, Table};
use std::sync::Barrier;
use std::thread;

/// Each call, granted, and some refused.
const EACH: &str = "\
0 clone
1 getppid
1 handle 10 1
0 kill 2 10
1 poll
1 poll
1 handle 10 0
1 exit -1
0 wait
0 wait
0 clone new
1 getpid
1 getppid
0 setns 2
0 clone
0 setns 1
0 unshare
0 kill 2 9
0 wait
64 wait
255 poll
";

/// Plays a script on a table of its own, again and again, for as long as another does.
fn again(script: &str, start: &Barrier) -> Vec<(String, Table)> {
    start.wait();
    (0..100).map(|_| play(script)).collect()
}

#[test]
fn calls_answer_as_a_script_does() {
    for script in [EACH, BUSY, &chain()] {
        assert_eq!(play(script).0.as_bytes(), run(script.as_bytes()));
    }
}

#[test]
fn two_tables_at_once() {
    let (mut one, mut other) = (Table::fresh(), Table::fresh());
    let mut answers = (String::new(), String::new());
    for (line, other_line) in BUSY.lines().zip(chain().lines()) {
        answers.0 += &play_line(&mut one, line);
        answers.1 += &play_line(&mut other, other_line);
    }
    assert_eq!((answers.0, one), play(BUSY));
    let half: String = chain().lines().take(BUSY.lines().count()).map(|line| format!("{line}\n")).collect();
    assert_eq!((answers.1, other), play(&half));
}

#[test]
fn a_copy_goes_its_own_way() {
    let (_, mut table) = play(BUSY);
    let copy = table.clone();
    table.by(Slot(1)).handle(10, true).unwrap();
    assert_ne!(table, copy);
    assert_eq!(copy, play(BUSY).1);
}

#[test]
fn two_threads_with_a_table_each() {
    let (chain, start) = (&chain(), &Barrier::new(2));
    let (one, other) = thread::scope(|threads| {
        let one = threads.spawn(|| again(BUSY, start));
        let other = threads.spawn(|| again(chain, start));
        (one.join().unwrap(), other.join().unwrap())
    });
    assert!(one.iter().all(|played| *played == play(BUSY)));
    assert!(other.iter().all(|played| *played == play(chain)));
}

#[test]
fn one_table_goes_from_thread_to_thread() {
    let mut table = Table::fresh();
    for line in BUSY.lines() {
        let work = move || {
            play_line(&mut table, line);
            table
        };
        table = thread::spawn(work).join().unwrap();
    }
    assert_eq!(table, play(BUSY).1);
}
