//! A text in lines and words, each with its place.

use std::fmt::Display;
use std::ops::RangeInclusive;
use std::str::FromStr;

use crate::Error;
use crate::error::Found;

const BLANKS: [char; 2] = [' ', '\t'];
const COMMENT: char = '#';

/// The lines of a text.
pub fn lines(text: &str) -> impl Iterator<Item = Line<'_>> {
    (1..).zip(text.split_inclusive('\n')).map(|(number, text)| match text.strip_suffix('\n') {
        Some(text) => Line { number, text: text.strip_suffix('\r').unwrap_or(text), is_ended: true },
        None => Line { number, text, is_ended: false },
    })
}

/// A line of a text.
#[derive(Clone, Copy, Debug, Eq, PartialEq)]
pub struct Line<'a> {
    /// Its number, from 1 on.
    pub number: usize,
    /// What it says, without its end.
    pub text: &'a str,
    /// Whether it has an end, which only the last line may lack.
    pub is_ended: bool,
}

impl<'a> Line<'a> {
    /// The words of the line, which a comment ends.
    #[must_use]
    pub fn words(self) -> Words<'a> {
        let whole = self.whole();
        Words { rest: whole.split_once(COMMENT).map_or(whole, |(before, _)| before) }
    }

    /// The whole line as one word, its comment with it.
    #[must_use]
    pub fn whole(self) -> Word<'a> {
        Word { line: self.number, column: 1, text: self.text }
    }

    /// The error of a line whose first word, no more than its `=` counted, is none of these.
    #[must_use]
    pub fn unknown(self, known: &[&'static str]) -> Error {
        let mut words = self.words();
        let first = words.next().unwrap_or(words.rest);
        let (name, _) = first.split_at(first.text.find('=').map_or(first.text.len(), |at| at + 1));
        name.unknown("a position or another first word", known)
    }

    /// The error of a text that ends with this line and is not whole.
    pub(crate) fn end_of_text(self, expected: &str) -> Error {
        Error {
            line: self.number,
            column: self.text.chars().count() + 1,
            found: Found::EndOfText,
            expected: expected.to_owned(),
            known: Vec::new(),
        }
    }
}

/// The words of a line, one after the other.
#[derive(Clone, Debug)]
pub struct Words<'a> {
    rest: Word<'a>,
}

impl<'a> Words<'a> {
    /// The next word.
    ///
    /// # Errors
    ///
    /// There is none, and one was expected.
    pub fn expect(&mut self, what: &str) -> Result<Word<'a>, Error> {
        self.next().ok_or_else(|| self.rest.expected(what))
    }

    /// The words that are left as fields `name=value`, each of one of these names and none twice. `what` is what each
    /// name is.
    pub fn fields<T>(
        self,
        what: &str,
        known: impl IntoIterator<Item = (&'static str, T), IntoIter: Clone>,
    ) -> impl Iterator<Item = Result<(T, Word<'a>), Error>> {
        let (known, mut given) = (known.into_iter(), Vec::new());
        self.map(move |word| {
            let (name, value) = word.split_once('=').ok_or_else(|| word.expected("a field name=value"))?;
            let named = name.one_of(what, known.clone())?;
            if given.contains(&name.text) {
                return Err(name.again(format!("{what} that is not given yet")));
            }
            given.push(name.text);
            Ok((named, value))
        })
    }

    /// No word is left.
    ///
    /// # Errors
    ///
    /// There is one.
    pub fn end(&mut self) -> Result<(), Error> {
        self.next().map_or(Ok(()), |word| Err(word.expected("the end of the line")))
    }
}

impl<'a> Iterator for Words<'a> {
    type Item = Word<'a>;

    fn next(&mut self) -> Option<Word<'a>> {
        let rest = self.rest.trim();
        let (word, rest) = rest.split_at(rest.text.find(BLANKS).unwrap_or(rest.text.len()));
        self.rest = rest;
        (!word.text.is_empty()).then_some(word)
    }
}

/// A word of a line, or a part of one.
#[derive(Clone, Copy, Debug, Eq, PartialEq)]
pub struct Word<'a> {
    /// The number of its line, from 1 on.
    pub line: usize,
    /// The column of its first character, from 1 on.
    pub column: usize,
    /// What it says.
    pub text: &'a str,
}

impl Word<'_> {
    pub(crate) fn split_at(self, at: usize) -> (Self, Self) {
        let (before, after) = self.text.split_at(at);
        let column = self.column + before.chars().count();
        (Self { text: before, ..self }, Self { text: after, column, ..self })
    }

    /// The word without the blanks around it.
    #[must_use]
    pub fn trim(self) -> Self {
        let blanks = self.text.len() - self.text.trim_start_matches(BLANKS).len();
        let (_, rest) = self.split_at(blanks);
        Self { text: rest.text.trim_end_matches(BLANKS), ..rest }
    }

    /// The parts before and after the first mark.
    #[must_use]
    pub fn split_once(self, mark: char) -> Option<(Self, Self)> {
        let (before, rest) = self.split_at(self.text.find(mark)?);
        Some((before, rest.split_at(mark.len_utf8()).1))
    }

    /// The parts between marks.
    pub fn split(self, mark: char) -> impl Iterator<Item = Self> {
        let mut rest = Some(self);
        std::iter::from_fn(move || {
            let part = rest?;
            let split = part.split_once(mark);
            rest = split.map(|(_, after)| after);
            Some(split.map_or(part, |(before, _)| before))
        })
    }

    /// A whole number of a range.
    ///
    /// # Errors
    ///
    /// The word is no such number.
    pub fn number<T: FromStr + PartialOrd + Display>(self, range: RangeInclusive<T>) -> Result<T, Error> {
        let number = self.text.parse().ok().filter(|number| range.contains(number));
        number
            .ok_or_else(|| self.expected(format!("a whole number from {} to {}", range.start(), range.end())))
    }

    /// As many whole numbers of a range, with commas between them. `what` is what they are together.
    ///
    /// # Errors
    ///
    /// They are more or fewer, or a part of the word is no such number.
    pub fn numbers<T, const N: usize>(self, range: RangeInclusive<T>, what: &str) -> Result<[T; N], Error>
    where
        T: FromStr + PartialOrd + Display + Clone,
    {
        if self.split(',').count() != N {
            return Err(self.expected(what));
        }
        let numbers = self.split(',').map(|part| part.number(range.clone()));
        let numbers: Vec<_> = numbers.collect::<Result<_, _>>()?;
        numbers.try_into().map_err(|_| self.expected(what))
    }

    /// A position `x,y,z`.
    ///
    /// # Errors
    ///
    /// The word is none.
    pub fn position(self) -> Result<[i32; 3], Error> {
        self.numbers(i32::MIN..=i32::MAX, "a position x,y,z")
    }

    /// The value of one of these words. `what` is what each of them is.
    ///
    /// # Errors
    ///
    /// The word is none of them.
    pub fn one_of<T>(
        self,
        what: &str,
        known: impl IntoIterator<Item = (&'static str, T), IntoIter: Clone>,
    ) -> Result<T, Error> {
        let known = known.into_iter();
        let value = known.clone().find(|(name, _)| *name == self.text).map(|(_, value)| value);
        value.ok_or_else(|| self.unknown(what, &known.map(|(name, _)| name).collect::<Vec<_>>()))
    }

    /// The error of this word where another was expected.
    #[must_use]
    pub fn expected(self, what: impl Into<String>) -> Error {
        self.error(Found::Word(self.text.to_owned()), what.into(), &[])
    }

    /// The error of this word where one of these was expected.
    #[must_use]
    pub fn unknown(self, what: &str, known: &[&'static str]) -> Error {
        self.error(Found::Word(self.text.to_owned()), what.to_owned(), known)
    }

    /// The error of this word where it stands a second time.
    #[must_use]
    pub fn again(self, expected: impl Into<String>) -> Error {
        self.error(Found::Again(self.text.to_owned()), expected.into(), &[])
    }

    fn error(self, found: Found, expected: String, known: &[&'static str]) -> Error {
        Error { line: self.line, column: self.column, found, expected, known: known.to_vec() }
    }
}
