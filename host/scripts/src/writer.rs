//! A script that is being written, line by line.

use crate::random::Random;
use reference::script::run_line_after;
use reference::table::Table;

/// The lines so far, the table that they lead to, and what the next ones are drawn from.
pub struct Writer {
    pub table: Table,
    pub random: Random,
    script: Vec<u8>,
}

impl Writer {
    pub fn from_seed(seed: u64) -> Writer {
        Writer { table: Table::fresh(), random: Random::from_seed(seed), script: Vec::new() }
    }

    /// Adds a line. The table is not checked: calls leave a sound one sound, and the comparison plays every line again
    /// with the check.
    pub fn line(&mut self, line: &str) {
        run_line_after(|_| true, &mut self.table, line.as_bytes());
        self.script.extend_from_slice(line.as_bytes());
        self.script.push(b'\n');
    }

    pub fn script(self) -> Vec<u8> {
        self.script
    }
}
