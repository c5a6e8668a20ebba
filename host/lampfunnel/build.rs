//! Links the proved library. It is looked for in the folder that `LAMPFUNNEL_LIB_DIR` names (a relative path starts at
//! this package), or else where `tools/build` writes it.

use std::env;
use std::path::{absolute, Path, PathBuf};

const PLACE: &str = "LAMPFUNNEL_LIB_DIR";

fn main() {
    println!("cargo::rerun-if-env-changed={PLACE}");
    let folder = env::var_os(PLACE).map_or_else(|| PathBuf::from("../../target/staticlib"), PathBuf::from);
    // The linker starts elsewhere.
    let folder = absolute(Path::new(env!("CARGO_MANIFEST_DIR")).join(folder)).expect("the path is not empty");
    let library = folder.join("liblampfunnel.a");
    println!("cargo::rerun-if-changed={}", library.display());
    if !library.is_file() {
        let advice =
            format!("run `tools/build` at the top of the repository, or set {PLACE} to the folder that has it");
        println!("cargo::error=there is no {}: {advice}", library.display());
    }
    println!("cargo::rustc-link-search=native={}", folder.display());
    println!("cargo::rustc-link-lib=static=lampfunnel");
}
