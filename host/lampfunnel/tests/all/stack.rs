//! The stack that a thread is asked to have is enough where the most is needed: an end that goes down to the deepest
//! level.

use crate::scripts::{chain, play};
use lampfunnel::{run, STACK_BYTES};
use std::thread;

fn with_the_least_stack(work: fn() -> String) -> String {
    thread::Builder::new().stack_size(STACK_BYTES).spawn(work).unwrap().join().unwrap()
}

#[test]
fn a_chain_of_namespaces_ends_in_a_script() {
    let answers = with_the_least_stack(|| String::from_utf8(run(chain().as_bytes())).unwrap());
    assert!(answers.ends_with("\n2\n0\n2 signal 9\n"), "{answers}");
}

#[test]
fn a_chain_of_namespaces_ends_by_calls() {
    let answers = with_the_least_stack(|| play(&chain()).0);
    assert!(answers.ends_with("\n2\n0\n2 signal 9\n"), "{answers}");
}
