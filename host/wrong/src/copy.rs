//! A copy of `host/` to be edited and built.

use std::fs;
use std::io;
use std::os::unix::fs::symlink;
use std::path::{Path, PathBuf};
use std::process::Command;

pub struct Copy {
    /// the copy of `host/`
    pub folder: PathBuf,
    build: PathBuf,
}

impl Copy {
    /// Makes a copy below `host/target/`. What `lampfunnel` links is found from it as from `host/`.
    pub fn of(host: &Path, lane: usize) -> io::Result<Copy> {
        let place = host.join(format!("target/wrong/{lane}"));
        let copy = Copy { folder: place.join("host"), build: place.join("build") };
        if copy.folder.exists() {
            fs::remove_dir_all(&copy.folder)?;
        }
        copy_folder(host, &copy.folder)?;
        let link = place.join("target");
        if fs::symlink_metadata(&link).is_err() {
            symlink("../../../../target", link)?;
        }
        Ok(copy)
    }

    /// Builds the comparison and the reference; or gives what the compiler says.
    pub fn build(&self) -> Result<(), String> {
        let cargo = std::env::var_os("CARGO").unwrap_or("cargo".into());
        let output = Command::new(cargo)
            .args(["build", "--quiet", "--release", "--offline", "-p", "compare", "-p", "reference"])
            .current_dir(&self.folder)
            .env("CARGO_TARGET_DIR", &self.build)
            .env("CARGO_INCREMENTAL", "1")
            .env("CARGO_PROFILE_RELEASE_OPT_LEVEL", "2")
            .env("RUSTFLAGS", "--allow warnings")
            .output()
            .map_err(|e| format!("cargo: {e}"))?;
        if output.status.success() {
            Ok(())
        } else {
            Err(String::from_utf8_lossy(&output.stderr).into_owned())
        }
    }

    /// A program that was built.
    pub fn program(&self, name: &str) -> PathBuf {
        self.build.join("release").join(name)
    }
}

/// Copies all but `target`.
fn copy_folder(from: &Path, to: &Path) -> io::Result<()> {
    fs::create_dir_all(to)?;
    for entry in fs::read_dir(from)? {
        let entry = entry?;
        let name = entry.file_name();
        if entry.file_type()?.is_file() {
            fs::copy(entry.path(), to.join(name))?;
        } else if name != "target" {
            copy_folder(&entry.path(), &to.join(name))?;
        }
    }
    Ok(())
}
