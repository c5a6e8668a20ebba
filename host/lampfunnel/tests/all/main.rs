//! A host in Rust that keeps its tables.

mod damage;
mod header;
mod reading;
mod refusals;
mod requests;
mod scripts;
mod stack;
mod tables;
mod tree;
mod words;
