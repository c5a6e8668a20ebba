//! Reads a script from standard input and writes the answers to standard output.
//!
//! reference: with the check of document 01's sentences, one after the other.
//! reference quick: with the check decided as the Rattle code decides it.

use reference::script::run_line_after;
use reference::sound::Check;
use reference::table::Table;
use reference::{quick, sound};
use std::io::{self, BufRead, BufReader, BufWriter, Write};

fn main() -> io::Result<()> {
    let quickly = std::env::args().nth(1).is_some_and(|word| word == "quick");
    let check: Check = if quickly { quick::is_sound } else { sound::is_sound };
    let mut table = Table::fresh();
    let mut input = BufReader::new(io::stdin().lock());
    let mut out = BufWriter::new(io::stdout().lock());
    let mut line = Vec::new();
    while input.read_until(b'\n', &mut line)? > 0 {
        writeln!(out, "{}", run_line_after(check, &mut table, line.strip_suffix(b"\n").unwrap_or(&line)))?;
        line.clear();
        // All lines that were read are answered before more is waited for, as the recorder does it.
        if !input.buffer().contains(&b'\n') {
            out.flush()?;
        }
    }
    out.flush()
}
