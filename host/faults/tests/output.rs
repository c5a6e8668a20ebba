//! The answers as they go out: each byte once and in order, whatever the writes do, and none after a failed one.

use faults::{
    after_bytes, answered, answers, assert_no_waits, assert_short_waits, assert_slept, end, end_and_use, next_line,
    recorder, stop_reading, stopped, sys, text, unread, whole_lines, Ended, Plan, EAGAIN, EINTR, EIO, PAUSE, SCRIPT,
};
use std::fs::OpenOptions;
use std::io::{pipe, PipeReader, PipeWriter, Read, Write};
use std::process::Stdio;
use std::thread::sleep;
use std::time::{Duration, Instant};

const FAILED: &str = "standard output: Input/output error";

fn run(reads: Plan, writes: Plan) -> Ended {
    recorder().script(SCRIPT).reads(reads).writes(writes).run()
}

/// A plan for reads and a count of bytes of the answers: each place in them where the script is read at once, and where
/// it is read byte by byte, so that there is a write for each line.
fn places() -> impl Iterator<Item = (Vec<i64>, usize)> {
    let ways_to_read = [vec![], vec![1; SCRIPT.len()]];
    ways_to_read.into_iter().flat_map(|reads| (0..answers(SCRIPT).len()).map(move |n| (reads.clone(), n)))
}

/// Ended by a write that nobody reads. (A program of this toolchain ignores SIGPIPE from its start on, so it is told.)
fn told_of_no_reader() -> Ended {
    stopped(b"", "standard output: Broken pipe")
}

/// A non-blocking pipe without room, and how many bytes stand in it.
fn full_pipe() -> (PipeReader, PipeWriter, usize) {
    let (reader, mut writer) = pipe().unwrap();
    sys::set_non_blocking(&writer);
    let mut before = 0;
    while let Ok(n) = writer.write(&[b'.'; 4096]) {
        before += n;
    }
    (reader, writer, before)
}

/// A script whose answers, more than a pipe holds, come faster than a slow reader takes them. The numbers of processes
/// between the empty lines tell one place from another.
fn long_script() -> String {
    let empty = "\n".repeat(40);
    (0..1000).map(|n| format!("0 clone\n1 exit {}\n0 wait\n{empty}", n % 256)).collect()
}

fn wait_until_full(pipe: &PipeWriter) {
    let start = Instant::now();
    while !sys::is_full(pipe) && start.elapsed() < Duration::from_secs(5) {
        sleep(Duration::from_millis(1));
    }
}

/// Reads to the end with pauses.
fn slowly(mut reader: impl Read) -> String {
    let mut all = Vec::new();
    let mut bytes = [0; 1000];
    loop {
        sleep(Duration::from_millis(1));
        match reader.read(&mut bytes).expect("a pipe can be read") {
            0 => return String::from_utf8_lossy(&all).into_owned(),
            n => all.extend_from_slice(&bytes[..n]),
        }
    }
}

/// The same text, or where the two first differ: whole they are too long to be shown.
fn assert_same(seen: &str, right: &str) {
    let same = seen.bytes().zip(right.bytes()).take_while(|(a, b)| a == b).count();
    let (seen, right) = (&seen[same..], &right[same..]);
    let shown = |text: &str| text.chars().take(60).collect::<String>();
    assert!(seen == right, "after {same} bytes {:?} for {:?}", shown(seen), shown(right));
}

#[test]
fn a_slow_reader_of_a_non_blocking_output_gets_all() {
    let script = long_script();
    let (reader, writer) = pipe().unwrap();
    sys::set_non_blocking(&writer);
    let full = writer.try_clone().unwrap();
    let child = recorder().script(script.as_bytes()).output(writer).start();
    wait_until_full(&full);
    drop(full);
    sleep(Duration::from_millis(20));
    let seen = slowly(reader);
    let right = answers(script.as_bytes());
    assert!(right.len() > 65_536, "more than a pipe holds");
    assert_same(&seen, &right);
    assert_eq!(end(child), answered(b""));
}

#[test]
fn a_slow_reader_of_a_small_non_blocking_pipe_gets_all() {
    let script = long_script();
    let (reader, writer) = pipe().unwrap();
    sys::set_non_blocking(&writer);
    sys::make_small(&writer);
    let child = recorder().script(script.as_bytes()).output(writer).start();
    let seen = slowly(reader);
    assert_same(&seen, &answers(script.as_bytes()));
    assert_eq!(end(child), answered(b""));
}

#[test]
fn waiting_for_room_takes_little_of_a_processor() {
    let (reader, writer, before) = full_pipe();
    let child = recorder().script(SCRIPT).output(writer).start();
    sleep(PAUSE);
    assert_eq!(text(reader)[before..], answers(SCRIPT));
    let (ended, used) = end_and_use(child);
    assert_eq!(ended, answered(b""));
    assert_slept(&used);
}

/// An error after each byte changes nothing.
fn is_gone_over(error: i64) {
    for (reads, n) in places() {
        assert_eq!(run(&reads, &after_bytes(n, error)), answered(SCRIPT), "after {n} bytes");
    }
}

#[test]
fn an_interrupted_write_is_tried_again() {
    is_gone_over(EINTR);
}

#[test]
fn a_write_that_would_block_is_waited_for() {
    is_gone_over(EAGAIN);
}

#[test]
fn faults_come_between_all_bytes() {
    let reads: Vec<i64> = SCRIPT.iter().flat_map(|_| [EINTR, 1, EAGAIN]).collect();
    let writes: Vec<i64> = answers(SCRIPT).bytes().flat_map(|_| [EAGAIN, 0, EINTR, 1]).collect();
    assert_eq!(run(&reads, &writes), answered(SCRIPT));
}

#[test]
fn interrupted_writes_are_tried_again_at_once() {
    assert_no_waits(recorder().script(SCRIPT).writes(&[EINTR; 1000]));
}

#[test]
fn writes_that_would_block_are_tried_again_each_millisecond() {
    assert_short_waits(recorder().script(SCRIPT).writes(&[EAGAIN; 100]), 100);
}

#[test]
fn nothing_is_written_after_a_failed_write() {
    for (reads, n) in places() {
        let right = Ended { output: answers(SCRIPT)[..n].into(), ..stopped(b"", FAILED) };
        assert_eq!(run(&reads, &after_bytes(n, EIO)), right, "after {n} bytes");
    }
}

#[test]
fn a_failed_write_is_the_end_while_the_input_is_open() {
    let (reader, mut writer) = pipe().unwrap();
    writer.write_all(SCRIPT).unwrap();
    assert_eq!(recorder().input(reader).writes(&[EIO]).run(), stopped(b"", FAILED));
    drop(writer);
}

#[test]
fn a_full_device_takes_no_answer() {
    let full = || OpenOptions::new().write(true).open("/dev/full").unwrap();
    let ended = recorder().script(SCRIPT).output(full()).run();
    assert_eq!(ended, stopped(b"", "standard output: No space left on device"));
    assert_eq!(recorder().script(b"").output(full()).run(), answered(b""), "there is none");
}

#[test]
fn a_closed_descriptor_takes_no_answer() {
    assert_eq!(recorder().script(SCRIPT).closed(1).run(), stopped(b"", "standard output: Bad file descriptor"));
}

#[test]
fn a_message_is_whole_where_its_writes_are_short() {
    let ended = recorder().reads(&[EIO]).tells(&[1, 3, 20]).run();
    assert_eq!(ended, stopped(b"", "standard input: Input/output error"));
}

/// Part of it may be missing then: the toolchain writes it, and does not try again.
#[test]
fn a_message_tells_the_right_reason_where_writing_it_fails_too() {
    for error in [EINTR, EAGAIN] {
        let ended = recorder().reads(&[EIO]).tells(&[error]).run();
        assert!(ended.errors.ends_with(": Input/output error\n"), "{ended:?}");
    }
}

#[test]
fn a_message_that_nobody_takes_changes_nothing() {
    let ended = recorder().script(SCRIPT).closed(2).reads(&[12, EIO]).run();
    assert_eq!(ended, answered(whole_lines(&SCRIPT[..12])));
}

#[test]
fn it_says_so_when_the_reader_is_gone() {
    assert_eq!(recorder().script(SCRIPT).output(unread()).run(), told_of_no_reader());
}

#[test]
fn it_says_so_when_the_reader_goes() {
    let mut child = recorder().input(Stdio::piped()).start();
    let mut input = child.stdin.take().unwrap();
    let mut output = child.stdout.take().unwrap();
    input.write_all(b"0 getpid\n").unwrap();
    assert_eq!(next_line(&mut output), answers(b"0 getpid\n"));
    stop_reading(output);
    input.write_all(b"0 getpid\n").unwrap();
    assert_eq!(end(child), told_of_no_reader());
}

#[test]
fn it_says_so_when_the_reader_goes_while_it_waits() {
    let (reader, writer, _) = full_pipe();
    let child = recorder().script(SCRIPT).output(writer).start();
    sleep(Duration::from_millis(20));
    stop_reading(reader);
    assert_eq!(end(child), told_of_no_reader());
}

#[test]
fn it_says_so_when_the_reader_is_gone_and_sigpipe_is_ignored() {
    let ended = recorder().script(SCRIPT).output(unread()).ignoring_sigpipe().run();
    assert_eq!(ended, told_of_no_reader());
}
