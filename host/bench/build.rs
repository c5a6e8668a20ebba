//! Compiles the calls that are timed from C; and where `LAMPFUNNEL_BEFORE_DIR` names a folder with the library as an
//! older commit has it (a relative path starts at this package), links that one beside the one of now.

use std::env::{var, var_os};
use std::path::Path;
use std::process::Command;

const BEFORE: &str = "LAMPFUNNEL_BEFORE_DIR";

/// What is timed of the older library. `lampfunnel_call` becomes `before_call`, and so on.
const TIMED: [&str; 3] = ["call", "next_pid", "sound"];

fn main() {
    let folder = var("OUT_DIR").expect("cargo says where");
    println!("cargo::rustc-link-search=native={folder}");
    link_calls(&folder);
    println!("cargo::rerun-if-env-changed={BEFORE}");
    println!("cargo::rustc-check-cfg=cfg(before_linked)");
    if let Some(place) = var_os(BEFORE).filter(|place| !place.is_empty()) {
        link_before(&folder, &Path::new(env!("CARGO_MANIFEST_DIR")).join(place).join("liblampfunnel.a"));
    }
}

fn link_calls(folder: &str) {
    let object = format!("{folder}/calls.o");
    run("cc", &["-std=c99", "-O2", "-Wall", "-Wextra", "-Werror", "-I../include", "-c", "calls.c", "-o", &object]);
    run("ar", &["crs", &format!("{folder}/libbench_calls.a"), &object]);
    println!("cargo::rerun-if-changed=calls.c");
    println!("cargo::rerun-if-changed=../include/lampfunnel.h");
    println!("cargo::rustc-link-lib=static=bench_calls");
}

/// The older library as one object, in which what is timed has its own name and all else is hidden: both libraries have
/// the same names.
fn link_before(folder: &str, library: &Path) {
    println!("cargo::rerun-if-changed={}", library.display());
    if !library.is_file() {
        let advice = format!("set {BEFORE} to a folder where `tools/build` wrote it, or to nothing");
        println!("cargo::error=there is no {}: {advice}", library.display());
        return;
    }
    let library = library.to_str().expect("a path in UTF-8");
    let object = format!("{folder}/before.o");
    let shown = TIMED.map(|name| format!("--keep-global-symbol=lampfunnel_{name}"));
    let named = TIMED.map(|name| format!("--redefine-sym=lampfunnel_{name}=before_{name}"));
    run("ld", &["-r", "--whole-archive", library, "-o", &object]);
    // Two runs: whether one that hides looks at the old names or at the new ones is not the same for each objcopy.
    for [call, next_pid, sound] in [&shown, &named] {
        run("objcopy", &[call, next_pid, sound, &object]);
    }
    run("ar", &["crs", &format!("{folder}/libbench_before.a"), &object]);
    println!("cargo::rustc-link-lib=static=bench_before");
    println!("cargo::rustc-cfg=before_linked");
}

fn run(program: &str, words: &[&str]) {
    let ended = Command::new(program).args(words).status();
    assert!(ended.is_ok_and(|status| status.success()), "`{program} {}` fails", words.join(" "));
}
