//! A table of the document by either bench, and all of them.

use super::answers::check;
use super::document::{Example, examples};
#[cfg(not(no_original))]
use super::original::Original;
use super::{Fault, Proved};
#[cfg(not(no_original))]
use crate::bulb::{READING, Reading};
#[cfg(not(no_original))]
use crate::oracle::Oracle;

type Checked = Result<(), Fault>;

/// The number of a document's tables, where each passes.
pub fn check_each(document: &str, check: impl Fn(&Example) -> Checked) -> Result<usize, Fault> {
    let examples = examples(document)?;
    examples.iter().try_for_each(check)?;
    Ok(examples.len())
}

pub fn by_library(example: &Example) -> Checked {
    check(example, || Proved::new(example.case()))
}

#[cfg(not(no_original))]
pub fn by_original(example: &Example) -> Checked {
    by_reading(READING, example)
}

/// By the original, where document 02's Change 4 is read so.
#[cfg(not(no_original))]
pub fn by_reading(reading: Reading, example: &Example) -> Checked {
    let case = example.case();
    let oracle = Oracle::new(&case);
    check(example, || Original::new(&oracle, reading))
}
