//! The table of processes and PID namespaces, as Linux has them: the proved library for Rust programs.
//!
//! A host keeps a [`Table`] and makes one call at a time. A call is made by the process at a [`Slot`], and answers a
//! number or a [`Refusal`]; a refused call leaves the table as it was, to the last bit.
//!
//! ```
//! use lampfunnel::{End, Pid, Refusal, Slot, Table};
//!
//! # fn main() -> Result<(), Refusal> {
//! let mut table = Table::fresh(); // the root init alone, at slot 0
//! let init = table.by(Slot::ROOT).clone_new()?; // the init of a new namespace
//! let judge = table.by(init.slot).clone()?;
//! assert_eq!(table.by(init.slot).getpid(), Ok(Pid(1))); // its number inside
//! assert_eq!(table.by(judge.slot).getppid(), Ok(Some(Pid(1))));
//! assert_eq!(table.by(init.slot).kill(7, 9), Err(Refusal::NoSuchProcess));
//!
//! table.by(judge.slot).exit(-1)?;
//! let reaped = table.by(init.slot).wait()?.expect("the judge has ended");
//! assert_eq!((reaped.pid, reaped.end), (judge.pid, End::Exited(255)));
//! # Ok(())
//! # }
//! ```
//!
//! For a program that records calls or reads them there are calls as data, [`Call`] and [`Table::call`]; and a whole
//! script goes in at once, and its answers come out:
//!
//! ```
//! let answers = lampfunnel::run(b"0 clone new\n1 getpid\n1 getppid\n1 kill 7 9\n");
//! assert_eq!(answers, b"2\n1\n0\n-3\n");
//! ```
//!
//! Nothing is decided here: the functions that this crate calls are written in Rattle and proved
//! (`crates/lampfunnel/src/lib.rt` states what each answers, for all inputs). They allocate nothing and keep nothing
//! between calls, and any table, any caller and any call have an answer. Tables may be used from several threads, each
//! by one at a time, as the borrow checker has it; a thread should have [`STACK_BYTES`] of stack.
//!
//! To build, run `tools/build` at the top of the repository first. Where the library stands elsewhere, set
//! `LAMPFUNNEL_LIB_DIR` to the folder of `liblampfunnel.a`.

#![deny(missing_docs)]

mod call;
mod caller;
mod kinds;
pub mod raw;
mod record;
mod refusal;
mod reply;
mod script;
mod table;
mod tree;

pub use call::{Call, ParseCallError};
pub use caller::Caller;
pub use kinds::{NamespaceSlot, Pid, Slot};
pub use record::{End, Life, Namespace, Process, State};
pub use refusal::Refusal;
pub use reply::{Child, Reaped, Reply};
pub use script::{room_for, run, run_into, ShortBuffer, ANSWER_BYTES};
pub use table::Table;

/// A table has so many process slots.
pub const PROCESSES: usize = 64;

/// And so many namespace slots.
pub const NAMESPACES: usize = 48;

/// A process has a number for each level from the root's on: at most so many.
pub const LEVELS: usize = 33;

/// Bytes of stack that are enough for each function, also where a chain of namespaces to the deepest level ends at
/// once. A thread of Rust's standard library has twice as many where nothing else is said.
pub const STACK_BYTES: usize = 1 << 20;
