//! The tests that the document names, and those that there are.

use std::collections::BTreeSet;
use std::path::Path;
use std::{fs, io};

use super::Fault;

/// The last column of a table's lines: names of tests between back quotes, or the word `none`.
pub fn named_tests(document: &str) -> Result<Vec<(usize, &str)>, Fault> {
    let mut named = Vec::new();
    for (line, text) in (1..).zip(document.lines()).filter(|(_, text)| text.starts_with('|')) {
        let cell = text.trim_matches('|').rsplit('|').next().unwrap_or_default().trim();
        let names: Vec<_> = cell.split('`').skip(1).step_by(2).map(|name| (line, name)).collect();
        if names.is_empty() && !["none", "test", "---"].contains(&cell) {
            return Err(Fault::new(line, format!("{cell:?} names no test")));
        }
        named.extend(names);
    }
    Ok(named)
}

/// The names of the tests in a folder's Rust files.
pub fn tests_in(folder: &Path) -> io::Result<BTreeSet<String>> {
    let mut names = BTreeSet::new();
    for entry in fs::read_dir(folder)? {
        let path = entry?.path();
        if path.is_dir() {
            names.extend(tests_in(&path)?);
        } else if path.extension().is_some_and(|extension| extension == "rs") {
            names.extend(tests_of(&fs::read_to_string(&path)?));
        }
    }
    Ok(names)
}

fn tests_of(text: &str) -> Vec<String> {
    let after = text.split("#[test]").skip(1).map(str::trim_start);
    let names = after.filter_map(|text| text.strip_prefix("fn ")?.split_once('('));
    names.map(|(name, _)| name.to_owned()).collect()
}
