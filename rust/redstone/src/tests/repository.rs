//! Small repositories with an `rt` that does what a test wants.

use std::fs::{self, File};
use std::os::unix::fs::PermissionsExt;
use std::path::PathBuf;
use std::time::{Duration, SystemTime};
use std::{env, process};

/// A repository with three crates of the library and one that is not of it. It stands outside this one, where `rt` would
/// miss its crates in crates.txt, and goes with the value.
pub struct Repository {
    pub root: PathBuf,
}

impl Repository {
    pub fn new(name: &str) -> Self {
        let root = env::temp_dir().join(format!("redstone-{}-{name}", process::id()));
        let repository = Self { root };
        let list =
            "# The library.\nworld:\nredstone: world\nredstone_c staticlib: redstone\nbook: redstone\n";
        repository.write("crates.txt", list);
        for name in ["world", "redstone", "redstone_c", "book"] {
            repository.write(&format!("crates/{name}/src/lib.rt"), "");
        }
        repository.write("rust/redstone/Cargo.toml", "");
        fs::create_dir_all(repository.path("bin")).expect("a folder");
        repository
    }

    pub fn path(&self, name: &str) -> PathBuf {
        self.root.join(name)
    }

    pub fn write(&self, name: &str, content: &str) {
        let path = self.path(name);
        fs::create_dir_all(path.parent().expect("a folder")).expect("a folder");
        fs::write(path, content).expect("a file");
    }

    /// An empty file that was written so many seconds from now.
    pub fn write_at(&self, name: &str, seconds: i64) {
        self.write(name, "");
        let length = Duration::from_secs(seconds.unsigned_abs());
        let now = SystemTime::now();
        let time = if seconds < 0 { now - length } else { now + length };
        let file = File::options().append(true).open(self.path(name)).expect("a file");
        file.set_modified(time).expect("a time");
    }

    /// An `rt` that does this, in the folder where it is called.
    pub fn rt(&self, does: &str) {
        let called = self.path("called");
        let notes = format!("echo \"${{PWD##*/}}: $*\" >>{}", called.display());
        self.write("bin/rt", &format!("#!/bin/sh\n{notes}\n{does}\n"));
        let rt = self.path("bin/rt");
        fs::set_permissions(rt, fs::Permissions::from_mode(0o755)).expect("a program");
    }

    /// Where `rt` was called, by the folder's own name, and with which words, a line for each time, if it was.
    pub fn called(&self) -> Option<String> {
        fs::read_to_string(self.path("called")).ok()
    }

    /// Where programs are looked for: `rt` here first.
    pub fn search_path(&self) -> String {
        format!("{}:/usr/bin:/bin", self.path("bin").display())
    }
}

impl Drop for Repository {
    fn drop(&mut self) {
        let _ = fs::remove_dir_all(&self.root);
    }
}

/// A text with N in the place of every number of seconds, as in `(3 s)`.
pub fn without_times(text: &str) -> String {
    let mut parts = text.split('(');
    let first = parts.next().unwrap_or_default().to_owned();
    parts.fold(first, |before, part| {
        let rest = part.trim_start_matches(|letter: char| letter.is_ascii_digit());
        let is_time = rest.len() < part.len() && rest.starts_with(" s)");
        if is_time { before + "(N" + rest } else { before + "(" + part }
    })
}
