//! One call on a full table: from C, by the library's one entry, which reads the host's bytes and writes them back; the
//! proved `step` by itself; and the reference's.
//!
//! No exported function is `step` alone. Its time is that of a line in a script, for `lampfunnel_run`, less that of a
//! line as long that is no call; what is not taken off is to tell the call from the line's words, and to write its
//! answer.

use crate::chart::Group;
use crate::full::{filling, full_table, kept};
use crate::timing::{best, nanoseconds, SHORT_ROUNDS};
use lampfunnel::raw;
use reference::calls::{Answer, Call, Refusal};
use reference::quick;
use reference::script::parse;
use reference::table::Table;
use reference::turns;
use std::hint::black_box;

/// So many calls in a round.
const CALLS: usize = 1_000;

// `calls.c`. The table is valid and nobody else's for that time.
extern "C" {
    fn bench_calls(table: *mut raw::Table, caller: u32, request: raw::Request, answer: i32, times: usize) -> usize;
    fn bench_fresh(table: *mut raw::Table, times: usize) -> usize;
}

/// Nanoseconds of a call.
struct Times {
    name: &'static str,
    from_c: f64,
    step: f64,
    reference: f64,
}

/// The calls on the full table to a level, and what takes no step: a request that is no call, and the fresh table.
pub struct Calls {
    level: u8,
    times: Vec<Times>,
    no_call: f64,
    fresh: f64,
}

/// A name for the chart, the line of a script, and its answer.
fn lines(level: u8) -> [(&'static str, String, i32); 4] {
    [
        ("getpid", format!("{level} getpid"), 1),
        ("getpid by nobody", "64 getpid".into(), -1001),
        ("kill -1 0", "0 kill -1 0".into(), 0),
        ("clone, no room", "0 clone".into(), -11),
    ]
}

/// A full table, and a line many times; and that the line is answered so.
fn script(level: u8, line: &str, answer: &str) -> Vec<u8> {
    let script = filling(level) + &format!("{line}\n").repeat(CALLS);
    let answers = lampfunnel::run(script.as_bytes());
    assert!(answers.ends_with(format!("{answer}\n").repeat(CALLS).as_bytes()), "{line} is answered otherwise");
    script.into_bytes()
}

/// A line as long that is no call.
fn spoilt(line: &str) -> String {
    format!("{}?", &line[..line.len() - 1])
}

fn request(call: Call) -> raw::Request {
    let turns::Request { call, a, b, c } = turns::Request::of(call);
    raw::Request { call, a, b, c }
}

fn call_from_c(table: &mut raw::Table, caller: u32, request: raw::Request, answer: i32) {
    let told = unsafe { bench_calls(table, caller, request, answer, CALLS) };
    assert_eq!(told, CALLS);
}

/// What a call that removes nobody is told.
pub fn number(answer: Result<Answer, Refusal>) -> Option<i32> {
    match answer {
        Ok(Answer::Number(n)) => Some(n.into()),
        Ok(Answer::Reaped(..)) => None,
        Err(refusal) => Some(refusal),
    }
}

/// Times a call that leaves the table as it is.
fn time(t: &Table, level: u8, (name, line, answer): (&'static str, String, i32)) -> Times {
    let (caller, call) = parse(line.as_bytes()).expect("the line is a call");
    let (mut table, mut own) = (kept(t), t.clone());
    let makes = script(level, &line, &answer.to_string());
    let reads = script(level, &spoilt(&line), "?");
    let mut reference = || {
        let step = |own: &mut Table| number(black_box(own).step_after(quick::is_sound, caller, call));
        assert!((0..CALLS).all(|_| step(&mut own) == Some(answer)));
    };
    let [from_c, line, reading, reference] = best(
        SHORT_ROUNDS,
        [
            &mut || call_from_c(&mut table, caller.into(), request(call), answer),
            &mut || drop(lampfunnel::run(&makes)),
            &mut || drop(lampfunnel::run(&reads)),
            &mut reference,
        ],
    )
    .map(|time| nanoseconds(time, CALLS));
    assert!(table == kept(t) && own == *t, "{name} changes the table");
    Times { name, from_c, step: line - reading, reference }
}

impl Calls {
    pub fn to_level(level: u8) -> Calls {
        let t = full_table(level);
        let times = lines(level).map(|line| time(&t, level, line)).into();
        let (mut full, mut fresh) = (kept(&t), kept(&t));
        let [no_call, fresh] = best(
            SHORT_ROUNDS,
            [&mut || call_from_c(&mut full, 0, raw::Request::default(), -1002), &mut || {
                assert_eq!(unsafe { bench_fresh(&mut fresh, CALLS) }, CALLS)
            }],
        )
        .map(|time| nanoseconds(time, CALLS));
        Calls { level, times, no_call, fresh }
    }

    pub fn group(&self) -> Group {
        let of = |t: &Times| {
            let bar = |what: &str, value| (format!("{}: {what}", t.name), value);
            [bar("from C", t.from_c), bar("step", t.step), bar("reference", t.reference)]
        };
        let mut bars: Vec<(String, f64)> = self.times.iter().flat_map(of).collect();
        bars.extend([("no call: from C".into(), self.no_call), ("the fresh table: from C".into(), self.fresh)]);
        let title = format!("One call on a full table, levels 0 to {} (less is better)", self.level);
        Group { title, unit: "ns", bars }
    }

    pub fn ratio(&self) -> String {
        let getpid = &self.times[0];
        format!(
            "ratio: getpid from C on a full table, levels 0 to {}, takes {:.2} times as long as step, {:.2} times the \
             reference's\n",
            self.level,
            getpid.from_c / getpid.step,
            getpid.from_c / getpid.reference
        )
    }
}
