//! The tables of docs/DIFFERENCES.md, put through the bench and the original. The document says how they are written.

mod answers;
mod bench;
mod checked;
mod document;
mod named;
#[cfg(not(no_original))]
mod original;
mod proved;
mod risks;

use std::fmt::{self, Display, Formatter};

use redstone_text::Line;

pub use checked::{by_library, check_each};
#[cfg(not(no_original))]
pub use checked::{by_original, by_reading};
pub use document::{Example, examples};
pub use named::{named_tests, tests_in};
use proved::Proved;
pub use risks::check_risks;

/// What is wrong in the document.
#[derive(Debug)]
pub struct Fault {
    pub line: usize,
    pub column: Option<usize>,
    pub what: String,
}

impl Fault {
    fn new(line: usize, what: impl Into<String>) -> Self {
        Self { line, column: None, what: what.into() }
    }

    fn at(line: Line, what: impl Into<String>) -> Self {
        Self::new(line.number, what)
    }
}

impl From<redstone_text::Error> for Fault {
    fn from(error: redstone_text::Error) -> Self {
        Self { column: Some(error.column()), ..Self::new(error.line(), error.message()) }
    }
}

impl Display for Fault {
    fn fmt(&self, f: &mut Formatter<'_>) -> fmt::Result {
        write!(f, "line {}", self.line)?;
        if let Some(column) = self.column {
            write!(f, ", column {column}")?;
        }
        write!(f, ": {}", self.what)
    }
}
