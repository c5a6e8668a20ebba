//! Compiles the shim that the tests preload.

use std::env::var;
use std::process::Command;

fn main() {
    let shim = format!("{}/shim.so", var("OUT_DIR").expect("cargo says where"));
    let compiled = Command::new("cc")
        .args(["-shared", "-fPIC", "-O1", "-Wall", "-Wextra", "-Werror", "-o", &shim, "shim.c"])
        .status();
    assert!(compiled.is_ok_and(|status| status.success()), "`cc` does not compile shim.c");
    println!("cargo:rerun-if-changed=shim.c");
    println!("cargo:rustc-env=SHIM={shim}");
}
