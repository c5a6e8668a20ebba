//! The crate has the numbers of the C header.

use lampfunnel::{Call, Refusal, ANSWER_BYTES, LEVELS, NAMESPACES, PROCESSES, STACK_BYTES};

const HEADER: &str = include_str!("../../../include/lampfunnel.h");

/// The number that follows a text.
fn after(text: &str) -> i64 {
    let (_, rest) = HEADER.split_once(text).unwrap_or_else(|| panic!("the header has no {text}"));
    let end = rest.find(|c: char| !c.is_ascii_digit() && c != '-').expect("more follows");
    rest[..end].parse().unwrap_or_else(|_| panic!("no number follows {text}"))
}

#[test]
fn sizes() {
    let defined = |name: &str| after(&format!("#define LAMPFUNNEL_{name}")) as usize;
    assert_eq!([PROCESSES, NAMESPACES, LEVELS], ["PROCESSES ", "NAMESPACES ", "LEVELS "].map(defined));
    assert_eq!(
        [STACK_BYTES, ANSWER_BYTES],
        [1 << defined("STACK_BYTES ((size_t)1 << "), defined("ANSWER_BYTES ((size_t)")]
    );
    assert_eq!(env!("CARGO_PKG_VERSION_MAJOR"), defined("VERSION_MAJOR ").to_string());
    assert_eq!(env!("CARGO_PKG_VERSION_MINOR"), defined("VERSION_MINOR ").to_string());
}

#[test]
fn calls() {
    let calls = [
        (Call::Clone, "CLONE"),
        (Call::CloneNew, "CLONE_NEW"),
        (Call::Unshare, "UNSHARE"),
        (Call::Setns(0), "SETNS"),
        (Call::Kill(0, 0), "KILL"),
        (Call::Exit(0), "EXIT"),
        (Call::Wait, "WAIT"),
        (Call::Getpid, "GETPID"),
        (Call::Getppid, "GETPPID"),
        (Call::Handle(0, true), "HANDLE"),
        (Call::Handle(0, false), "UNHANDLE"),
        (Call::Poll, "POLL"),
    ];
    for (call, name) in calls {
        assert_eq!(i64::from(call.request().call), after(&format!(" LAMPFUNNEL_{name} = ")), "{call}");
    }
}

#[test]
fn refusals() {
    let errnos = ["EINVAL", "ENOSYS", "ESRCH", "EBUSY", "ECHILD", "ENOSPC", "ENOMEM", "EAGAIN"];
    let names = ["NO_CALL", "UNSOUND", "NOT_RUNNING"].into_iter().chain(errnos);
    let header: Vec<i64> = names.map(|name| after(&format!(" LAMPFUNNEL_{name} = "))).collect();
    assert_eq!(Refusal::ALL.iter().map(|refusal| i64::from(refusal.number())).collect::<Vec<_>>(), header);
}
