//! Why a file holds no hall that can be run.

use std::error::Error;
use std::fmt::{self, Display, Formatter};

/// Why a file holds no hall that can be run, and what would be right.
#[derive(Clone, Debug, Eq, PartialEq)]
pub struct Refused {
    /// The file, as it was named.
    pub file: String,
    /// The line, and the column where it is known, both from 1 on.
    pub place: Option<(usize, Option<usize>)>,
    /// What is wrong.
    pub message: String,
    /// Whether the file was read, and it is what it holds that is refused.
    pub is_read: bool,
}

impl Refused {
    /// Of a whole file.
    pub(crate) fn file(file: &str, message: impl Into<String>) -> Self {
        Self { file: file.to_owned(), place: None, message: message.into(), is_read: true }
    }

    /// Of a file that could not be read.
    pub(crate) fn unread(file: &str, message: impl Into<String>) -> Self {
        Self { is_read: false, ..Self::file(file, message) }
    }

    /// Of a line of a file.
    pub(crate) fn line(file: &str, line: usize, message: impl Into<String>) -> Self {
        Self { place: Some((line, None)), ..Self::file(file, message) }
    }

    /// Of a word of a file.
    pub(crate) fn text(file: &str, error: &redstone_text::Error) -> Self {
        Self { place: Some((error.line(), Some(error.column()))), ..Self::file(file, error.message()) }
    }
}

/// The file, the place as `line:column`, and the message.
impl Display for Refused {
    fn fmt(&self, f: &mut Formatter<'_>) -> fmt::Result {
        write!(f, "{}:", self.file)?;
        match self.place {
            Some((line, Some(column))) => write!(f, "{line}:{column}:")?,
            Some((line, None)) => write!(f, "{line}:")?,
            None => {}
        }
        write!(f, " {}", self.message)
    }
}

impl Error for Refused {}
