//! Each refusal, where a host meets it.

use crate::scripts::{busy_but, chain, play};
use lampfunnel::{raw, Refusal, Slot, Table};

/// What a call is refused with, after a script.
fn refused<T: std::fmt::Debug>(script: &str, call: impl FnOnce(&mut Table) -> Result<T, Refusal>) -> Refusal {
    call(&mut play(script).1).unwrap_err()
}

#[test]
fn each_has_its_call() {
    let root = Slot::ROOT;
    let births: String = chain().lines().take(32).map(|line| format!("{line}\n")).collect();
    let no_call = Table::fresh().request(0, raw::Request::default()).answer;
    let met = [
        Refusal::with_number(no_call).unwrap(),
        busy_but(|table| table.processes[9].end = 1).by(root).getpid().unwrap_err(),
        refused("", |table| table.by(Slot(1)).getpid()),
        refused("", |table| table.by(root).kill(1, 32)),
        refused("", |table| table.by(root).kill(0, 9)),
        refused("", |table| table.by(root).setns(7)),
        refused("", |table| table.by(root).exit(0)),
        refused("", |table| table.by(root).wait()),
        refused(&births, |table| table.by(Slot(32)).clone_new()),
        refused("0 unshare\n0 clone\n1 exit 0\n", |table| table.by(root).clone()),
        refused(&"0 clone\n".repeat(63), |table| table.by(root).clone()),
    ];
    assert_eq!(met, Refusal::ALL);
}

#[test]
fn their_numbers() {
    let numbers = [-1002, -1000, -1001, -22, -38, -3, -16, -10, -28, -12, -11];
    assert_eq!(Refusal::ALL.iter().map(|refusal| refusal.number()).collect::<Vec<_>>(), numbers);
    let errnos: Vec<i32> = Refusal::ALL.iter().filter_map(|refusal| refusal.errno()).collect();
    assert_eq!(errnos, [22, 38, 3, 16, 10, 28, 12, 11]);
}
