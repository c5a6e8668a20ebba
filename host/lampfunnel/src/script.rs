//! A whole script at once.

use crate::raw;
use std::error::Error;
use std::fmt;

/// An answer has at most so many bytes, its line feed counted.
pub const ANSWER_BYTES: usize = 32;

/// A buffer that is shorter than the answers of a script may be. It was left as it was.
#[derive(Clone, Copy, PartialEq, Eq, Debug)]
pub struct ShortBuffer {
    /// Bytes that are enough for the script: [`room_for`] it.
    pub needed: usize,
}

impl fmt::Display for ShortBuffer {
    fn fmt(&self, f: &mut fmt::Formatter) -> fmt::Result {
        write!(f, "the buffer is too short for the answers: {} bytes are enough", self.needed)
    }
}

impl Error for ShortBuffer {}

/// Bytes that are enough for the answers of a script: [`ANSWER_BYTES`] for each line. The last line feed may be
/// missing.
///
/// ```
/// assert_eq!(lampfunnel::room_for(b"0 clone\n0 wait"), 64);
/// assert_eq!(lampfunnel::room_for(b""), 0);
/// ```
pub fn room_for(script: &[u8]) -> usize {
    ANSWER_BYTES * script.split_inclusive(|&b| b == b'\n').count()
}

/// The answers of a whole script, from the fresh table.
///
/// ```
/// assert_eq!(lampfunnel::run(b"0 clone\n1 exit -1\n0 wait\nhello"), b"2\n0\n2 gave 255\n?\n");
/// ```
pub fn run(script: &[u8]) -> Vec<u8> {
    let mut out = vec![0; room_for(script)];
    let used = run_into(script, &mut out).expect("there is room for every answer");
    out.truncate(used);
    out
}

/// Writes the answers of a whole script, from the fresh table, to the start of a buffer, and tells how many bytes they
/// are. The bytes after them stay as they were.
///
/// ```
/// let mut out = [b'.'; 40];
/// assert_eq!(lampfunnel::run_into(b"0 getpid\n", &mut out), Ok(2));
/// assert_eq!(&out[..4], b"1\n..");
/// ```
///
/// A buffer shorter than [`room_for`] the script is refused and left alone:
///
/// ```
/// # use lampfunnel::ShortBuffer;
/// let mut out = [b'.'; 31];
/// assert_eq!(lampfunnel::run_into(b"0 getpid\n", &mut out), Err(ShortBuffer { needed: 32 }));
/// assert_eq!(out, [b'.'; 31]);
/// ```
pub fn run_into(script: &[u8], out: &mut [u8]) -> Result<usize, ShortBuffer> {
    // Both slices are valid for their lengths and do not overlap; the function keeps neither.
    let used = unsafe { raw::lampfunnel_run(script.as_ptr(), script.len(), out.as_mut_ptr(), out.len()) };
    if used == raw::SHORT {
        return Err(ShortBuffer { needed: room_for(script) });
    }
    Ok(used)
}
