//! Calls as numbers: callers that nobody is, numbers that no call has, arguments that a call does not take.

use crate::scripts::busy_but;
use lampfunnel::raw::{Reply, Request};
use lampfunnel::Table;

/// The number of each call, and how many arguments it takes.
const CALLS: [(u32, usize); 12] =
    [(1, 0), (2, 0), (3, 0), (4, 1), (5, 2), (6, 1), (7, 0), (8, 0), (9, 0), (10, 1), (11, 1), (12, 0)];

const NO_CALLS: [u32; 8] = [0, 13, 14, 255, 256 + 5, 65_536 + 1, (1 << 31) + 6, u32::MAX];

/// Beyond the table; the last bits of most are those of slot 0.
const BEYOND: [u32; 8] = [64, 128, 255, 256, 65_536, 1 << 24, 1 << 31, u32::MAX];

fn request(call: u32) -> Request {
    Request { call, a: 2, b: 9, c: 0 }
}

fn assert_refused(table: &Table, caller: u32, request: Request, answer: i32) {
    let mut after = table.clone();
    let reply = after.request(caller, request);
    assert_eq!(reply, Reply { answer, child: 255, state: 0, end: 0 }, "{request:?} by {caller} on {table:?}");
    assert_eq!(after, *table, "{request:?} by {caller}");
}

/// Each call is refused with a number, tells nothing else, and leaves the table to the last bit.
pub fn assert_all_refused(table: &Table, caller: u32, answer: i32) {
    CALLS.iter().for_each(|&(call, _)| assert_refused(table, caller, request(call), answer));
}

#[test]
fn callers_beyond_the_table_are_nobody() {
    BEYOND.iter().for_each(|&caller| assert_all_refused(&busy_but(|_| ()), caller, -1001));
}

#[test]
fn callers_that_are_stopped_ended_or_empty_do_not_run() {
    [3, 4, 5, 6, 63].iter().for_each(|&caller| assert_all_refused(&busy_but(|_| ()), caller, -1001));
}

#[test]
fn an_unsound_table_comes_before_the_caller() {
    let damaged = busy_but(|table| table.processes[63].reserved = 1);
    BEYOND.iter().chain(&[0, 3]).for_each(|&caller| assert_all_refused(&damaged, caller, -1000));
}

#[test]
fn a_number_that_no_call_has_comes_first() {
    for table in [busy_but(|_| ()), busy_but(|table| table.processes[63].reserved = 1)] {
        let by = |caller: &u32| NO_CALLS.iter().for_each(|&call| assert_refused(&table, *caller, request(call), -1002));
        BEYOND.iter().chain(&[0, 3]).for_each(by);
    }
}

#[test]
fn arguments_that_a_call_does_not_take_make_no_difference() {
    let all = [i32::MIN, -1, 1, 9, i32::MAX];
    for (caller, (call, takes)) in [0, 1, 2].into_iter().flat_map(|caller| CALLS.map(|call| (caller, call))) {
        let answer = |other: i32| {
            let [a, b, c] = [(0, 2), (1, 9), (2, 0)].map(|(at, value)| if at < takes { value } else { other });
            let mut table = busy_but(|_| ());
            (table.request(caller, Request { call, a, b, c }), table)
        };
        assert!(all.iter().all(|&other| answer(other) == answer(0)), "call {call} by {caller}");
    }
}
