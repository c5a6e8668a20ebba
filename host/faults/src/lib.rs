//! Starts the recorder, with faults in its input and output where they are asked for, and tells what it did. The tests
//! are in `tests/`. The right answers are the reference's.

pub mod sys;

use reference::script;
use reference::table::Table;
use std::ffi::OsStr;
use std::io::{pipe, PipeReader, PipeWriter, Read, Write};
use std::path::PathBuf;
use std::process::{Child, Command, ExitStatus, Stdio};
use std::sync::{Mutex, MutexGuard, PoisonError};
use std::thread;
use std::time::{Duration, Instant};

/// A recorder that still runs after so many seconds is ended, so that no test waits for ever.
const LONGEST_SECONDS: u32 = 20;

/// What a plan has for each call in turn: the most bytes that it moves, or, below 0, the error that it gives.
pub type Plan<'a> = &'a [i64];

pub const EINTR: i64 = -4;
pub const EIO: i64 = -5;
pub const EAGAIN: i64 = -11;

/// Calls that move a byte each, and then one that fails.
pub fn after_bytes(n: usize, error: i64) -> Vec<i64> {
    let mut plan = vec![1; n];
    plan.push(error);
    plan
}

/// One call that moves so many bytes, and then one that fails. (A read of no bytes would be the end of the input.)
pub fn after_chunk(n: usize, error: i64) -> Vec<i64> {
    if n == 0 {
        vec![error]
    } else {
        vec![n as i64, error]
    }
}

/// A script that ends without a line feed. Cut in two anywhere within a line, it gives other answers.
pub const SCRIPT: &[u8] = b"0 clone\n1 exit 15\n0 wait\n\n0 clone new\n0 getpid";

/// The right answers to a script.
pub fn answers(script: &[u8]) -> String {
    script::run(&mut Table::fresh(), script)
}

/// The lines of a script that have their line feed.
pub fn whole_lines(script: &[u8]) -> &[u8] {
    let end = script.iter().rposition(|&b| b == b'\n').map_or(0, |at| at + 1);
    &script[..end]
}

// ---- starting the recorder

/// Held from fork to exec. Until its exec a new process has all that is open here, also the reader of another test's
/// pipe; so whoever must be the last to close something holds it too.
static FORK: Mutex<()> = Mutex::new(());

fn no_fork() -> MutexGuard<'static, ()> {
    FORK.lock().unwrap_or_else(PoisonError::into_inner)
}

/// Closes a pipe's last reader.
pub fn stop_reading(reader: impl Read) {
    let _held = no_fork();
    drop(reader);
}

/// The writer of a pipe that has no reader.
pub fn unread() -> PipeWriter {
    let _held = no_fork();
    pipe().expect("a pipe can be made").1
}

/// A pipe that gives these bytes and then ends. (A short text is there in one piece.)
pub fn giving(bytes: &[u8]) -> PipeReader {
    let (reader, mut writer) = pipe().expect("a pipe can be made");
    let bytes = bytes.to_vec();
    // It fails where the recorder stops before the end, as some tests want.
    thread::spawn(move || writer.write_all(&bytes));
    reader
}

/// The recorder before its start. By itself it has no input, and what it writes is kept.
pub struct Recorder(Command);

/// The recorder at RECORDER, or else the one that `tools/build` made.
pub fn recorder() -> Recorder {
    let made = concat!(env!("CARGO_MANIFEST_DIR"), "/../../target/bin/recorder");
    let program = std::env::var_os("RECORDER").map_or(made.into(), PathBuf::from);
    let program = program.canonicalize().unwrap_or_else(|e| panic!("{}: {e}", program.display()));
    let mut command = Command::new(program);
    command.stdin(Stdio::null()).stdout(Stdio::piped()).stderr(Stdio::piped());
    sys::limit(&mut command, LONGEST_SECONDS);
    Recorder(command)
}

impl Recorder {
    fn set(mut self, what: impl FnOnce(&mut Command)) -> Self {
        what(&mut self.0);
        self
    }

    pub fn argument(self, argument: impl AsRef<OsStr>) -> Self {
        self.set(|c| _ = c.arg(argument))
    }

    pub fn input(self, from: impl Into<Stdio>) -> Self {
        self.set(|c| _ = c.stdin(from))
    }

    pub fn script(self, script: &[u8]) -> Self {
        self.input(giving(script))
    }

    pub fn output(self, to: impl Into<Stdio>) -> Self {
        self.set(|c| _ = c.stdout(to))
    }

    pub fn closed(self, descriptor: i32) -> Self {
        self.set(|c| sys::start_without(c, descriptor))
    }

    pub fn ignoring_sigpipe(self) -> Self {
        self.set(sys::ignore_sigpipe)
    }

    pub fn heeding_permissions(self) -> Self {
        self.set(sys::heed_permissions)
    }

    pub fn reads(self, plan: Plan) -> Self {
        self.follows("FAULTS_READ", plan)
    }

    pub fn writes(self, plan: Plan) -> Self {
        self.follows("FAULTS_WRITE", plan)
    }

    /// For writes to standard error.
    pub fn tells(self, plan: Plan) -> Self {
        self.follows("FAULTS_TELL", plan)
    }

    fn follows(self, variable: &str, plan: Plan) -> Self {
        let plan = plan.iter().map(i64::to_string).collect::<Vec<_>>().join(",");
        self.set(|c| _ = c.env("LD_PRELOAD", env!("SHIM")).env(variable, plan))
    }

    pub fn start(mut self) -> Child {
        let _held = no_fork();
        self.0.spawn().expect("the recorder can be started")
    }

    pub fn run(self) -> Ended {
        end(self.start())
    }
}

// ---- how it ended

/// What a recorder wrote, as far as it is kept, and its end.
#[derive(Debug, PartialEq)]
pub struct Ended {
    pub output: String,
    pub errors: String,
    pub status: ExitStatus,
}

/// Right answers, and no more.
pub fn answered(script: &[u8]) -> Ended {
    Ended { output: answers(script), errors: String::new(), status: ExitStatus::default() }
}

/// The answers to these lines, then one line on standard error.
pub fn stopped(script: &[u8], why: &str) -> Ended {
    Ended { errors: format!("recorder: {why}\n"), ..answered(script) }
}

/// Lets a recorder come to its end.
pub fn end(child: Child) -> Ended {
    end_and_use(child).0
}

/// The same, and what it took.
pub fn end_and_use(mut child: Child) -> (Ended, sys::Used) {
    drop(child.stdin.take());
    let output = child.stdout.take().map(text).unwrap_or_default();
    let errors = child.stderr.take().map(text).unwrap_or_default();
    let (status, used) = sys::wait(&child);
    (Ended { output, errors, status }, used)
}

/// A recorder that follows SCRIPT, with some interrupted calls, tries them again without a wait.
pub fn assert_no_waits(recorder: Recorder) {
    let (ended, used) = end_and_use(recorder.start());
    assert_eq!(ended, answered(SCRIPT));
    assert!(used.waits < 100, "{} waits", used.waits);
}

/// A recorder that follows SCRIPT, with so many calls that would block, waits about a millisecond for each.
pub fn assert_short_waits(recorder: Recorder, calls: u32) {
    let start = Instant::now();
    assert_eq!(recorder.run(), answered(SCRIPT));
    let each = start.elapsed() / calls;
    assert!(each > Duration::from_micros(500) && each < Duration::from_millis(20), "each {each:?}");
}

/// For so long a recorder waits for its input or its output.
pub const PAUSE: Duration = Duration::from_millis(300);

/// A recorder that waited so long slept meanwhile.
pub fn assert_slept(used: &sys::Used) {
    assert!(used.processor < PAUSE / 3, "waiting took {:?} of a processor", used.processor);
}

/// All that is still to be read.
pub fn text(mut from: impl Read) -> String {
    let mut bytes = Vec::new();
    from.read_to_end(&mut bytes).expect("a pipe can be read");
    String::from_utf8_lossy(&bytes).into_owned()
}

/// The next line, with its line feed, or what there is of it before the end.
pub fn next_line(from: &mut impl Read) -> String {
    let mut line = String::new();
    let mut byte = [0];
    while !line.ends_with('\n') && from.read(&mut byte).expect("a pipe can be read") == 1 {
        line.push(byte[0].into());
    }
    line
}
