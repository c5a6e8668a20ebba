//! A call as data, and its text in a script.

use crate::raw;
use std::error::Error;
use std::fmt;
use std::str::FromStr;

/// A call with its arguments, as data: for a program that records calls, or reads them. Later calls are added.
///
/// Its text is that of a script, after the caller's slot. Each call has one text: no plus, no needless zeros, single
/// spaces.
///
/// ```
/// use lampfunnel::Call;
/// assert_eq!("kill -1 9".parse(), Ok(Call::Kill(-1, 9)));
/// assert_eq!(Call::Handle(15, true).to_string(), "handle 15 1");
/// assert!("kill 01 9".parse::<Call>().is_err());
/// ```
#[derive(Clone, Copy, PartialEq, Eq, Hash, Debug)]
#[non_exhaustive]
pub enum Call {
    /// A child in the caller's children's namespace.
    Clone,
    /// A child that is the init of a new namespace.
    CloneNew,
    /// The next child is the init of a new namespace.
    Unshare,
    /// Children are born into the namespace of the process with this number.
    Setns(i32),
    /// The process with this number, or all where it is -1, get this signal.
    Kill(i32, i32),
    /// The caller ends, and gives this number.
    Exit(i32),
    /// The ended child with the lowest number is removed.
    Wait,
    /// The caller's number.
    Getpid,
    /// Its parent's number.
    Getppid,
    /// This signal becomes pending from now on, or no more.
    Handle(i32, bool),
    /// The lowest pending signal is taken.
    Poll,
}

impl Call {
    /// The call as numbers.
    #[must_use]
    pub fn request(self) -> raw::Request {
        let (call, a, b) = match self {
            Call::Clone => (1, 0, 0),
            Call::CloneNew => (2, 0, 0),
            Call::Unshare => (3, 0, 0),
            Call::Setns(pid) => (4, pid, 0),
            Call::Kill(pid, signal) => (5, pid, signal),
            Call::Exit(status) => (6, status, 0),
            Call::Wait => (7, 0, 0),
            Call::Getpid => (8, 0, 0),
            Call::Getppid => (9, 0, 0),
            Call::Handle(signal, true) => (10, signal, 0),
            Call::Handle(signal, false) => (11, signal, 0),
            Call::Poll => (12, 0, 0),
        };
        raw::Request { call, a, b, c: 0 }
    }
}

impl fmt::Display for Call {
    fn fmt(&self, f: &mut fmt::Formatter) -> fmt::Result {
        match *self {
            Call::Clone => write!(f, "clone"),
            Call::CloneNew => write!(f, "clone new"),
            Call::Unshare => write!(f, "unshare"),
            Call::Setns(pid) => write!(f, "setns {pid}"),
            Call::Kill(pid, signal) => write!(f, "kill {pid} {signal}"),
            Call::Exit(status) => write!(f, "exit {status}"),
            Call::Wait => write!(f, "wait"),
            Call::Getpid => write!(f, "getpid"),
            Call::Getppid => write!(f, "getppid"),
            Call::Handle(signal, on) => write!(f, "handle {signal} {}", u8::from(on)),
            Call::Poll => write!(f, "poll"),
        }
    }
}

/// A text that is no call: a script answers `?`.
#[derive(Clone, Copy, PartialEq, Eq, Debug)]
pub struct ParseCallError;

impl fmt::Display for ParseCallError {
    fn fmt(&self, f: &mut fmt::Formatter) -> fmt::Result {
        let calls =
            "clone, clone new, unshare, setns N, kill N S, exit S, wait, getpid, getppid, handle S 0 or 1, poll";
        write!(f, "this is no call; the calls are {calls}")
    }
}

impl Error for ParseCallError {}

fn number(word: &str) -> Result<i32, ParseCallError> {
    word.parse().map_err(|_| ParseCallError)
}

impl FromStr for Call {
    type Err = ParseCallError;

    fn from_str(text: &str) -> Result<Call, ParseCallError> {
        let words: Vec<&str> = text.split(' ').collect();
        let call = match words[..] {
            ["clone"] => Call::Clone,
            ["clone", "new"] => Call::CloneNew,
            ["unshare"] => Call::Unshare,
            ["setns", pid] => Call::Setns(number(pid)?),
            ["kill", pid, signal] => Call::Kill(number(pid)?, number(signal)?),
            ["exit", status] => Call::Exit(number(status)?),
            ["wait"] => Call::Wait,
            ["getpid"] => Call::Getpid,
            ["getppid"] => Call::Getppid,
            ["handle", signal, on] => Call::Handle(number(signal)?, on == "1"),
            ["poll"] => Call::Poll,
            _ => return Err(ParseCallError),
        };
        // Rust reads +1, 01 and -0 too, and `on` may be any word: a script has one text for each call.
        (call.to_string() == text).then_some(call).ok_or(ParseCallError)
    }
}
