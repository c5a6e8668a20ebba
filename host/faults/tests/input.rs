//! The script as it comes in: each line is run once and whole, whatever the reads do, and none after a failed one.

use faults::{
    after_bytes, after_chunk, answered, assert_no_waits, assert_short_waits, assert_slept, end, end_and_use, next_line,
    recorder, stopped, sys, whole_lines, Ended, Plan, EAGAIN, EINTR, EIO, PAUSE, SCRIPT,
};
use std::fs::File;
use std::io::{pipe, Write};
use std::process::Stdio;
use std::thread::sleep;

fn run(script: &[u8], reads: Plan) -> Ended {
    recorder().script(script).reads(reads).run()
}

/// An error after each count of bytes, which come in one chunk or one by one, changes nothing.
fn is_gone_over(error: i64) {
    let right = answered(SCRIPT);
    for n in 0..=SCRIPT.len() {
        assert_eq!(run(SCRIPT, &after_chunk(n, error)), right, "after a chunk of {n}");
        assert_eq!(run(SCRIPT, &after_bytes(n, error)), right, "after {n} bytes one by one");
    }
}

#[test]
fn half_a_line_in_a_non_blocking_pipe_waits_for_its_rest() {
    let (reader, mut writer) = pipe().unwrap();
    sys::set_non_blocking(&reader);
    writer.write_all(b"0 clone\n1 exit 1").unwrap();
    let child = recorder().input(reader).start();
    sleep(PAUSE);
    _ = writer.write_all(b"5\n0 wait\n"); // This fails where nobody reads any more, and then answers are missing.
    drop(writer);
    let (ended, used) = end_and_use(child);
    assert_eq!(ended, answered(b"0 clone\n1 exit 15\n0 wait\n"));
    assert_slept(&used);
}

#[test]
fn the_input_may_end_anywhere() {
    for n in 0..=SCRIPT.len() {
        assert_eq!(recorder().script(&SCRIPT[..n]).run(), answered(&SCRIPT[..n]), "after {n} bytes");
    }
}

#[test]
fn nothing_is_read_after_the_end() {
    assert_eq!(run(SCRIPT, &[12, 0]), answered(&SCRIPT[..12]));
}

#[test]
fn an_interrupted_read_is_tried_again() {
    is_gone_over(EINTR);
}

#[test]
fn a_read_that_would_block_is_waited_for() {
    is_gone_over(EAGAIN);
}

#[test]
fn faults_come_between_all_bytes() {
    let long = format!("0 clone\n{}\n1 exit 15\n0 wait\n", "9".repeat(100));
    let plan: Vec<i64> = long.bytes().flat_map(|_| [EINTR, 1, EAGAIN]).collect();
    assert_eq!(run(long.as_bytes(), &plan), answered(long.as_bytes()));
}

#[test]
fn a_failed_read_is_the_end_and_no_open_line_is_run() {
    for n in 0..=SCRIPT.len() {
        let right = stopped(whole_lines(&SCRIPT[..n]), "standard input: Input/output error");
        assert_eq!(run(SCRIPT, &after_chunk(n, EIO)), right, "after a chunk of {n}");
        assert_eq!(run(SCRIPT, &after_bytes(n, EIO)), right, "after {n} bytes one by one");
    }
}

#[test]
fn a_failed_read_is_the_end_while_the_input_is_open() {
    let (reader, mut writer) = pipe().unwrap();
    writer.write_all(SCRIPT).unwrap();
    let ended = recorder().input(reader).reads(&[12, EIO]).run();
    assert_eq!(ended, stopped(whole_lines(&SCRIPT[..12]), "standard input: Input/output error"));
    drop(writer);
}

#[test]
fn interrupted_reads_are_tried_again_at_once() {
    assert_no_waits(recorder().script(SCRIPT).reads(&[EINTR; 1000]));
}

#[test]
fn reads_that_would_block_are_tried_again_each_millisecond() {
    assert_short_waits(recorder().script(SCRIPT).reads(&[EAGAIN; 100]), 100);
}

#[test]
fn a_directory_is_no_input() {
    let ended = recorder().input(File::open(".").unwrap()).run();
    assert_eq!(ended, stopped(b"", "standard input: Is a directory"));
}

#[test]
fn a_closed_descriptor_is_no_input() {
    assert_eq!(recorder().closed(0).run(), stopped(b"", "standard input: Bad file descriptor"));
}

#[test]
fn each_line_is_answered_before_the_next_comes() {
    let mut child = recorder().input(Stdio::piped()).start();
    let mut seen = String::new();
    for line in whole_lines(SCRIPT).split_inclusive(|&b| b == b'\n') {
        child.stdin.as_mut().unwrap().write_all(line).unwrap();
        seen += &next_line(child.stdout.as_mut().unwrap());
    }
    assert_eq!(seen, answered(whole_lines(SCRIPT)).output);
    assert_eq!(end(child), answered(b""));
}

#[test]
fn lines_are_answered_before_the_rest_of_a_half_one_comes() {
    let mut child = recorder().input(Stdio::piped()).start();
    child.stdin.as_mut().unwrap().write_all(b"0 clone\n0 getpid\n1 ex").unwrap();
    let seen = [(); 2].map(|()| next_line(child.stdout.as_mut().unwrap())).concat();
    child.stdin.as_mut().unwrap().write_all(b"it 15\n0 wait\n").unwrap();
    let rest = end(child);
    let all = Ended { output: seen + &rest.output, ..rest };
    assert_eq!(all, answered(b"0 clone\n0 getpid\n1 exit 15\n0 wait\n"));
}
