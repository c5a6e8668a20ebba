//! The recorder in ordinary Rust: the same calls, the same check of the table, the same output. It is written from
//! document 01, with document 02's requests as they land, and shares nothing with the Rattle code, so that the two can
//! be held against each other. `quick` alone follows the Rattle code: it is there for the benchmark.

pub mod calls;
pub mod mirror;
pub mod quick;
pub mod script;
pub mod sound;
pub mod table;
pub mod turns;
