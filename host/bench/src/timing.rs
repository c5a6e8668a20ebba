//! Times: the best of several rounds, in which all that are compared take turns.

use std::time::Duration;

/// So many rounds of runs of about a second, and of runs of a few hundredths of one.
pub const LONG_ROUNDS: usize = 7;
pub const SHORT_ROUNDS: usize = 40;

/// C's `struct timeval`, and the start of its `struct rusage`.
#[repr(C)]
#[derive(Clone, Copy, Default)]
struct Usage {
    user: [i64; 2],
    system: [i64; 2],
    rest: [i64; 14],
}

extern "C" {
    fn getrusage(who: i32, usage: *mut Usage) -> i32;
}

const OWN: i32 = 0;
const ENDED_CHILDREN: i32 = -1;

/// The processor time, not counting waits, that this program and the programs that it ran have taken. On a machine that
/// is busy with other work it says more than the clock.
fn processor_time() -> Duration {
    let time = |who| {
        let mut usage = Usage::default();
        // The structure is as long as C's, and the call fills it.
        let failed = unsafe { getrusage(who, &mut usage) };
        assert_eq!(failed, 0);
        Duration::from_secs((usage.user[0] + usage.system[0]) as u64)
            + Duration::from_micros((usage.user[1] + usage.system[1]) as u64)
    };
    time(OWN) + time(ENDED_CHILDREN)
}

/// The least processor time of each run over all rounds.
pub fn best<const N: usize>(rounds: usize, mut runs: [&mut dyn FnMut(); N]) -> [Duration; N] {
    best_each(rounds, &mut runs).try_into().expect("a time for each run")
}

/// The same for any number of runs.
pub fn best_each(rounds: usize, runs: &mut [impl FnMut()]) -> Vec<Duration> {
    let mut least = vec![Duration::MAX; runs.len()];
    for _ in 0..rounds {
        for (run, least) in runs.iter_mut().zip(&mut least) {
            let start = processor_time();
            run();
            *least = (processor_time() - start).min(*least);
        }
    }
    least
}

/// Nanoseconds for each of so many.
pub fn nanoseconds(time: Duration, count: usize) -> f64 {
    time.as_secs_f64() * 1e9 / count as f64
}
