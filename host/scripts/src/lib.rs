//! Scripts for the comparison and the benchmark. Each is made from a seed: the same seed gives the same script.

pub mod crowds;
pub mod generate;
pub mod kept;
pub mod random;
pub mod rounds;
mod writer;
