//! What is said of a text that cannot be read.

use std::fmt::{self, Display, Formatter};

use crate::nearest;

/// What is wrong with a text: the place, what was found there, and what was expected.
#[derive(Clone, Debug, Eq, PartialEq)]
pub struct Error {
    pub(crate) line: usize,
    pub(crate) column: usize,
    pub(crate) found: Found,
    pub(crate) expected: String,
    /// The words of which one was expected.
    pub(crate) known: Vec<&'static str>,
}

#[derive(Clone, Debug, Eq, PartialEq)]
pub(crate) enum Found {
    /// A word, or nothing where one was expected.
    Word(String),
    /// A word that may stand once.
    Again(String),
    EndOfText,
}

impl Error {
    /// The line, from 1 on.
    #[must_use]
    pub fn line(&self) -> usize {
        self.line
    }

    /// The column, from 1 on, counted in characters.
    #[must_use]
    pub fn column(&self) -> usize {
        self.column
    }

    /// The word that was found, which is empty where nothing was.
    #[must_use]
    pub fn found(&self) -> &str {
        match &self.found {
            Found::Word(word) | Found::Again(word) => word,
            Found::EndOfText => "",
        }
    }

    /// What was expected.
    #[must_use]
    pub fn expected(&self) -> &str {
        &self.expected
    }

    /// The words of which one was expected, if it was one of some words.
    #[must_use]
    pub fn known(&self) -> &[&'static str] {
        &self.known
    }

    /// Of these words the one that what was found is a misspelling of, as [`nearest`](fn@crate::nearest) has it.
    #[must_use]
    pub fn nearest(&self) -> Option<&'static str> {
        let (word, is_misspelt) = nearest(self.found(), self.known.iter().copied())?;
        is_misspelt.then_some(word)
    }

    /// What was found and what was expected, without the place.
    #[must_use]
    pub fn message(&self) -> String {
        let found = match &self.found {
            Found::Word(word) if word.is_empty() => "nothing".to_owned(),
            Found::Word(word) => format!("{word:?}"),
            Found::Again(word) => format!("{word:?} again"),
            Found::EndOfText => "the end of the text".to_owned(),
        };
        let expected = &self.expected;
        match (self.nearest(), &self.known[..]) {
            (Some(word), _) => format!("found {found}, expected {expected}: did you mean {word}?"),
            (None, []) => format!("found {found}, expected {expected}"),
            (None, [word]) => format!("found {found}, expected {expected}: {word}"),
            (None, [words @ .., last]) => {
                format!("found {found}, expected {expected}: {} or {last}", words.join(", "))
            }
        }
    }
}

impl Display for Error {
    fn fmt(&self, f: &mut Formatter<'_>) -> fmt::Result {
        write!(f, "line {}, column {}: {}", self.line, self.column, self.message())
    }
}

impl std::error::Error for Error {}
