//! The functions of the C library that the standard library has no safe ones for, on Linux.

use std::ffi::{c_int, c_long, c_short, c_uint, c_ulong};
use std::io;
use std::os::fd::{AsFd, AsRawFd};
use std::os::unix::process::{CommandExt, ExitStatusExt};
use std::process::{Child, Command, ExitStatus};
use std::time::Duration;

const F_GETFL: c_int = 3;
const F_SETFL: c_int = 4;
const F_SETPIPE_SZ: c_int = 1031;
const O_NONBLOCK: c_int = 0o4000;
const POLLOUT: c_short = 4;
const SIGPIPE: c_int = 13;
const SIG_IGN: usize = 1;
const PR_CAPBSET_DROP: c_int = 24;
/// The two capabilities by which root may read any file.
const READ_ANYTHING: [c_ulong; 2] = [1, 2];

#[repr(C)]
struct Pollfd {
    descriptor: c_int,
    events: c_short,
    found: c_short,
}

/// `struct rusage`: seconds and microseconds, then counts, the one at index 12 of voluntary waits.
#[repr(C)]
#[derive(Default)]
struct Rusage {
    user: [c_long; 2],
    system: [c_long; 2],
    counts: [c_long; 14],
}

const VOLUNTARY: usize = 12;

extern "C" {
    fn alarm(seconds: c_uint) -> c_uint;
    fn close(descriptor: c_int) -> c_int;
    fn fcntl(descriptor: c_int, command: c_int, ...) -> c_int;
    fn poll(descriptors: *mut Pollfd, n: c_ulong, milliseconds: c_int) -> c_int;
    fn prctl(option: c_int, ...) -> c_int;
    fn signal(number: c_int, handler: usize) -> usize;
    fn wait4(pid: c_int, status: *mut c_int, options: c_int, used: *mut Rusage) -> c_int;
}

/// What a process took till its end.
pub struct Used {
    pub processor: Duration,
    /// How often it waited for something, as in a sleep.
    pub waits: i64,
}

/// Waits for a process to end.
pub fn wait(child: &Child) -> (ExitStatus, Used) {
    let pid = child.id() as c_int;
    let mut status = 0;
    let mut used = Rusage::default();
    // SAFETY: both pointers are to memory of ours, of the types that wait4 writes.
    let ended = unsafe { wait4(pid, &mut status, 0, &mut used) };
    assert_eq!(ended, pid, "{}", io::Error::last_os_error());
    let micros = |[seconds, micros]: [c_long; 2]| Duration::from_micros((seconds * 1_000_000 + micros) as u64);
    let processor = micros(used.user) + micros(used.system);
    (ExitStatus::from_raw(status), Used { processor, waits: used.counts[VOLUNTARY] })
}

/// Makes reads and writes of what is open here fail with EAGAIN instead of waiting, also in a process that inherits it.
pub fn set_non_blocking(open: impl AsFd) {
    let descriptor = open.as_fd().as_raw_fd();
    // SAFETY: fcntl with these commands touches no memory of ours.
    let set = unsafe { fcntl(descriptor, F_SETFL, fcntl(descriptor, F_GETFL) | O_NONBLOCK) };
    assert_eq!(set, 0, "{}", io::Error::last_os_error());
}

/// Makes a pipe hold as little as it can, a page.
pub fn make_small(pipe: impl AsFd) {
    // SAFETY: fcntl with this command touches no memory of ours.
    let size = unsafe { fcntl(pipe.as_fd().as_raw_fd(), F_SETPIPE_SZ, 1 as c_int) };
    assert!(size > 0, "{}", io::Error::last_os_error());
}

/// Whether a pipe has no room.
pub fn is_full(pipe: impl AsFd) -> bool {
    let mut asked = Pollfd { descriptor: pipe.as_fd().as_raw_fd(), events: POLLOUT, found: 0 };
    // SAFETY: the pointer is to one Pollfd of ours.
    unsafe { poll(&mut asked, 1, 0) == 0 }
}

/// What a started process does before it becomes the program. Such a step allocates nothing and takes no lock.
fn first(command: &mut Command, step: impl Fn() + Send + Sync + 'static) {
    let step = move || {
        step();
        Ok(())
    };
    // SAFETY: each step here is a plain call of the C library that may be made between fork and exec.
    unsafe { command.pre_exec(step) };
}

/// Ends the program by SIGALRM if it still runs after so many seconds.
pub fn limit(command: &mut Command, seconds: c_uint) {
    // SAFETY: alarm touches no memory of ours.
    first(command, move || _ = unsafe { alarm(seconds) });
}

/// Starts the program with a descriptor closed.
pub fn start_without(command: &mut Command, descriptor: c_int) {
    // SAFETY: nothing of ours uses the descriptor in the new process.
    first(command, move || _ = unsafe { close(descriptor) });
}

/// Starts the program with SIGPIPE ignored, as it then ignores it itself.
pub fn ignore_sigpipe(command: &mut Command) {
    // SAFETY: no handler of ours is set.
    first(command, || _ = unsafe { signal(SIGPIPE, SIG_IGN) });
}

/// Starts the program without root's right to read any file. Whoever is not root has no such right to lose.
pub fn heed_permissions(command: &mut Command) {
    for capability in READ_ANYTHING {
        // SAFETY: prctl with this option touches no memory of ours.
        first(command, move || _ = unsafe { prctl(PR_CAPBSET_DROP, capability, 0, 0, 0) });
    }
}
