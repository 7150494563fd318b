//! Reads docs/ and crates/, so that the tests can hold what the one says against the other.

use std::fs;
use std::path::{Path, PathBuf};

/// A file or folder of the repository.
pub fn path(name: impl AsRef<Path>) -> PathBuf {
    Path::new(env!("CARGO_MANIFEST_DIR")).join("../..").join(name)
}

pub fn text(name: impl AsRef<Path>) -> String {
    let path = path(name);
    fs::read_to_string(&path).unwrap_or_else(|error| panic!("{}: {error}", path.display()))
}

/// The names in a folder, in order; none where there is no such folder.
pub fn names_in(folder: impl AsRef<Path>) -> Vec<String> {
    let Ok(entries) = fs::read_dir(path(folder)) else {
        return Vec::new();
    };
    let name = |entry: fs::DirEntry| entry.file_name().into_string().expect("a name in Unicode");
    let mut names: Vec<_> = entries.map(|entry| name(entry.expect("a readable folder"))).collect();
    names.sort();
    names
}

/// The crates that crates.txt lists, in its order.
pub fn crates() -> Vec<String> {
    listed().into_iter().map(|(name, _)| name).collect()
}

/// The crates that crates.txt lists, each with those that it needs, by lines `NAME: NEEDS ..`. Before the colon may stand
/// words of the crate, as `staticlib`.
pub fn listed() -> Vec<(String, Vec<String>)> {
    let words = |text: &str| text.split_whitespace().map(str::to_string).collect::<Vec<_>>();
    let list = text("crates.txt");
    let lines = list.lines().filter(|line| !line.starts_with('#'));
    lines
        .filter_map(|line| {
            let (head, needs) = line.split_once(':')?;
            Some((words(head).into_iter().next()?, words(needs)))
        })
        .collect()
}

/// The packages of the Cargo workspace.
pub fn packages() -> Vec<String> {
    let folders = names_in("rust").into_iter().map(|folder| format!("rust/{folder}/Cargo.toml"));
    let manifests = folders.filter(|manifest| path(manifest).is_file()).map(text);
    let name = |manifest: String| {
        let line = manifest.lines().find_map(|line| line.strip_prefix("name = "));
        line.expect("a package has a name").trim_matches('"').to_string()
    };
    manifests.map(name).collect()
}

/// The cells of every table row of a document, without the rows of heads and of dashes.
pub fn table_rows(document: &str) -> Vec<Vec<String>> {
    let lines: Vec<_> = document.lines().collect();
    let is_rule = |line: &str| line.starts_with("|---") || line.starts_with("|:--");
    let is_head = |at: usize| lines.get(at + 1).is_some_and(|next| is_rule(next));
    let rows =
        (0..lines.len()).filter(|&at| lines[at].starts_with('|') && !is_rule(lines[at]) && !is_head(at));
    rows.map(|at| cells(lines[at])).collect()
}

fn cells(row: &str) -> Vec<String> {
    row.trim().trim_matches('|').split(" | ").map(|cell| cell.trim().to_string()).collect()
}

/// The parts of a text between pairs of a mark.
pub fn marked(text: &str, mark: char) -> Vec<&str> {
    text.split(mark).skip(1).step_by(2).collect()
}
