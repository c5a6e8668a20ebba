//! What the tests share: scripts, played one call at a time.

use lampfunnel::{raw, Slot, Table};
use std::sync::LazyLock;

/// It leaves processes that run, are stopped and have ended both ways, handled and pending signals, and namespaces that
/// are alive, unborn, dead, and dead without a process; slot 5 is empty between taken ones.
pub const BUSY: &str = "\
0 clone new
1 clone
1 clone
2 unshare
1 kill 3 19
0 clone new
4 clone new
0 setns 6
0 clone
0 kill 5 9
0 wait
1 clone
4 exit 7
0 handle 10 1
0 handle 15 1
0 kill 1 15
1 handle 31 1
";

/// A chain of namespaces to the deepest level, which then ends at once.
pub fn chain() -> String {
    let births: String = (0..lampfunnel::LEVELS - 1).map(|slot| format!("{slot} clone new\n")).collect();
    births + "0 kill 2 9\n0 wait\n"
}

static BUSY_TABLE: LazyLock<Table> = LazyLock::new(|| play(BUSY).1);

/// The table that [`BUSY`] leaves, with something changed by hand.
pub fn busy_but(change: impl FnOnce(&mut raw::Table)) -> Table {
    let mut numbers = *BUSY_TABLE.as_raw();
    change(&mut numbers);
    Table::from_raw(numbers)
}

/// Makes the call of one line; the answer as a script has it, with its line feed.
pub fn play_line(table: &mut Table, line: &str) -> String {
    let (slot, call) = line.split_once(' ').expect("a line has a slot and a call");
    let slot = Slot(slot.parse().expect("a slot is a number"));
    let reply = table.call(slot, call.parse().expect("these are calls"));
    reply.map_or_else(|refusal| refusal.number().to_string(), |reply| reply.to_string()) + "\n"
}

/// The answers of a script, and the table that it leaves.
pub fn play(script: &str) -> (String, Table) {
    let mut table = Table::fresh();
    let answers = script.lines().map(|line| play_line(&mut table, line)).collect();
    (answers, table)
}
