//! The recorder as a program of its own: a script goes in, at one go or in pieces, and the answers come out. Whatever
//! else it does is a fault: another exit status than 0, a word on standard error, silence.

use scripts::random::Random;
use std::io::{Read, Write};
use std::os::fd::AsRawFd;
use std::process::{Child, ChildStdin, Command, Stdio};
use std::sync::mpsc::{channel, Receiver, RecvTimeoutError};
use std::thread::{self, JoinHandle};
use std::time::{Duration, Instant};

/// What a script gives, or why it gives nothing.
pub type Answers = Result<Vec<u8>, String>;

/// Far longer than a recorder takes to read or to answer.
const PATIENCE: Duration = Duration::from_secs(30);

/// How often it is asked whether the recorder has read.
const MOMENT: Duration = Duration::from_micros(50);

/// Plays a script that is cut into pieces. The next piece goes once the recorder has read all before it and has
/// answered the lines that ended there, so a piece's end is an end for the recorder too.
pub fn play(recorder: &mut Command, pieces: &[&[u8]]) -> Answers {
    let recorder = recorder.stdin(Stdio::piped()).stdout(Stdio::piped()).stderr(Stdio::piped());
    let mut child = recorder.spawn().map_err(|e| format!("it does not start: {e}"))?;
    let input = child.stdin.take().expect("the pipe was asked for");
    let mut output = Output::of(child.stdout.take().expect("the pipe was asked for"));
    let errors = all_of(child.stderr.take().expect("the pipe was asked for"));
    let fed = feed(input, pieces, &mut output).and_then(|()| output.wait_for(usize::MAX));
    if fed.is_err() {
        // It may have ended already.
        let _ = child.kill();
    }
    let ended = end_of(child, errors);
    fed.and(ended).map(|()| output.answers)
}

/// Ends the input when all is sent, or when the recorder reads no more: then what it wrote, or its status, tells.
fn feed(mut input: ChildStdin, pieces: &[&[u8]], output: &mut Output) -> Result<(), String> {
    let mut lines = 0;
    for piece in pieces {
        if input.write_all(piece).is_err() {
            break;
        }
        lines += line_feeds(piece);
        output.wait_for(lines)?;
        wait_until_read(&input, output)?;
    }
    Ok(())
}

/// Waits until all that was sent is read, or the recorder has ended.
fn wait_until_read(input: &ChildStdin, output: &mut Output) -> Result<(), String> {
    let start = Instant::now();
    while unread(input) > 0 && output.take(MOMENT) != Taken::End {
        if start.elapsed() > PATIENCE {
            return Err(format!("it does not read for {PATIENCE:?}"));
        }
    }
    Ok(())
}

extern "C" {
    fn ioctl(file: i32, request: u64, ...) -> i32;
}

/// Linux's request for the number of bytes in a pipe.
const FIONREAD: u64 = 0x541b;

fn unread(pipe: &ChildStdin) -> i32 {
    let mut bytes = 0i32;
    // The file is open, and the call writes one number.
    let failed = unsafe { ioctl(pipe.as_raw_fd(), FIONREAD, &mut bytes) };
    assert_eq!(failed, 0, "a pipe tells how many bytes it has");
    bytes
}

/// How the recorder ended, and what it wrote to standard error.
fn end_of(mut child: Child, errors: JoinHandle<Vec<u8>>) -> Result<(), String> {
    let status = child.wait().map_err(|e| format!("its end is not known: {e}"))?;
    let errors = errors.join().expect("reading does not panic");
    if !errors.is_empty() {
        return Err(format!("it writes to standard error: {}", errors.escape_ascii()));
    }
    if !status.success() {
        return Err(format!("it ends with {status}"));
    }
    Ok(())
}

fn line_feeds(text: &[u8]) -> usize {
    text.iter().filter(|&&b| b == b'\n').count()
}

fn all_of(mut pipe: impl Read + Send + 'static) -> JoinHandle<Vec<u8>> {
    thread::spawn(move || {
        let mut text = Vec::new();
        // What came before an error is all there is.
        let _ = pipe.read_to_end(&mut text);
        text
    })
}

#[derive(PartialEq, Eq)]
enum Taken {
    Some,
    Nothing,
    End,
}

/// What a recorder writes, as it comes.
struct Output {
    parts: Receiver<Vec<u8>>,
    answers: Vec<u8>,
    lines: usize,
}

impl Output {
    fn of(mut pipe: impl Read + Send + 'static) -> Output {
        let (sender, parts) = channel();
        thread::spawn(move || {
            let mut part = vec![0; 1 << 16];
            while let Ok(n @ 1..) = pipe.read(&mut part) {
                if sender.send(part[..n].to_vec()).is_err() {
                    break;
                }
            }
        });
        Output { parts, answers: Vec::new(), lines: 0 }
    }

    /// Takes what comes within a time.
    fn take(&mut self, within: Duration) -> Taken {
        match self.parts.recv_timeout(within) {
            Ok(part) => {
                self.lines += line_feeds(&part);
                self.answers.extend(part);
                Taken::Some
            }
            Err(RecvTimeoutError::Timeout) => Taken::Nothing,
            Err(RecvTimeoutError::Disconnected) => Taken::End,
        }
    }

    /// Takes so many lines in all, or what there is to the end.
    fn wait_for(&mut self, lines: usize) -> Result<(), String> {
        while self.lines < lines {
            match self.take(PATIENCE) {
                Taken::Some => {}
                Taken::Nothing => return Err(format!("it is silent for {PATIENCE:?} after {} answers", self.lines)),
                Taken::End => break,
            }
        }
        Ok(())
    }
}

/// A script at one go or, of every other seed, cut at random places: tiny pieces, some of a few lines, and some longer
/// than what the recorder reads at once.
pub fn pieces(script: &[u8], seed: u64) -> Vec<&[u8]> {
    let mut random = Random::from_seed(seed);
    if random.one_in(2) {
        return vec![script];
    }
    let mut pieces = Vec::new();
    let mut rest = script;
    while !rest.is_empty() {
        let longest = random.pick(&[8, 8, 40, 40, 200, 3000]);
        let (piece, after) = rest.split_at(rest.len().min(1 + random.below(longest)));
        pieces.push(piece);
        rest = after;
    }
    pieces
}

#[cfg(test)]
mod tests {
    use super::*;

    /// What a program of the shell makes of some pieces.
    fn played(program: &str, pieces: &[&[u8]]) -> Answers {
        play(Command::new("sh").args(["-c", program]), pieces)
    }

    #[test]
    fn all_comes_back() {
        let script = b"one\ntwo\n\nthree".repeat(10_000);
        assert_eq!(played("cat", &[&script]), Ok(script.clone()));
        for seed in 1..=8 {
            assert_eq!(played("cat", &pieces(&script[..9_000], seed)), Ok(script[..9_000].to_vec()));
        }
        assert_eq!(played("cat", &[]), Ok(vec![]));
    }

    /// `dd` tells at its end how many times it has read less than it asked for.
    #[test]
    fn each_piece_is_read_by_itself() {
        let told = played("dd bs=2048", &[b"o", b"ne\ntw", b"o\n", b"three\nfour\n", b"five"]);
        assert!(told.as_ref().is_err_and(|told| told.contains("0+5 records in")), "{told:?}");
    }

    #[test]
    fn faults_are_told() {
        let fault = |program| played(program, &[b"line\n", b"line\n"]).expect_err(program);
        assert!(fault("cat; exit 3").contains("exit status: 3"));
        assert!(fault("cat; kill -9 $$").contains("signal: 9"));
        assert!(fault("cat; echo beware >&2").contains("beware"));
        assert!(fault("exit 1").contains("exit status: 1"));
    }

    #[test]
    fn a_recorder_that_stops_reading_gives_less() {
        assert_eq!(played("exec head -n 1", &[b"a\n", b"b\n", b"c\n"]), Ok(b"a\n".to_vec()));
    }
}
