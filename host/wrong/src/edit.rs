//! An edit, in the form of `crates/*/must-fail/*.edit`: `file:` names a file, from `host/` on, for the pairs of `old:`
//! and `new:` after it, and an old text stands there once. `by:` may say which comparison alone is to tell it, that of
//! `scripts`, `calls` or `tables`; without it scripts and calls are. `kind:` may name the one kind of script. Other
//! lines are remarks.

use std::fs;
use std::path::Path;

struct Pair {
    file: String,
    old: String,
    new: String,
}

pub struct Edit {
    pub name: String,
    pub by: Option<String>,
    pub kind: Option<String>,
    pairs: Vec<Pair>,
}

impl Edit {
    pub fn read(path: &Path) -> Result<Edit, String> {
        let name = path.file_stem().unwrap_or_default().to_string_lossy().into_owned();
        let text = fs::read_to_string(path).map_err(|e| format!("{name}: {e}"))?;
        let (mut by, mut kind, mut file, mut old, mut pairs) = (None, None, "", "", Vec::new());
        for line in text.lines() {
            if let Some(after) = line.strip_prefix("by: ") {
                by = Some(after.into());
            } else if let Some(after) = line.strip_prefix("kind: ") {
                kind = Some(after.into());
            } else if let Some(after) = line.strip_prefix("file: ") {
                file = after;
            } else if let Some(after) = line.strip_prefix("old: ") {
                old = after;
            } else if let Some(new) = line.strip_prefix("new:") {
                let new = new.strip_prefix(' ').unwrap_or(new);
                pairs.push(Pair { file: file.into(), old: old.into(), new: new.into() });
            }
        }
        if pairs.is_empty() {
            return Err(format!("{name}: it changes nothing"));
        }
        Ok(Edit { name, by, kind, pairs })
    }

    /// Whether a comparison is to tell it.
    pub fn is_for(&self, comparison: &str) -> bool {
        self.by.as_deref().map_or(comparison != "tables", |by| by == comparison)
    }

    /// Changes the files below a folder.
    pub fn apply(&self, folder: &Path) -> Result<(), String> {
        for pair in &self.pairs {
            let path = folder.join(&pair.file);
            let text = fs::read_to_string(&path).map_err(|e| format!("{}: {e}", pair.file))?;
            let times = text.matches(&pair.old).count();
            if times != 1 {
                return Err(format!("the old text stands {times} times in {}: {}", pair.file, pair.old));
            }
            fs::write(&path, text.replace(&pair.old, &pair.new)).map_err(|e| format!("{}: {e}", pair.file))?;
        }
        Ok(())
    }

    /// Takes the files below a folder from another again.
    pub fn undo(&self, folder: &Path, from: &Path) -> Result<(), String> {
        for pair in &self.pairs {
            fs::copy(from.join(&pair.file), folder.join(&pair.file)).map_err(|e| format!("{}: {e}", pair.file))?;
        }
        Ok(())
    }
}
