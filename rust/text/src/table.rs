//! A whole table as text.

use std::collections::BTreeMap;
use std::fmt::{self, Display, Formatter};
use std::str::FromStr;

use redstone::{BENCH_PROFILE_WITH_BULB, Kind, PROFILE_BYTES, Row};

use crate::row::kinds;
use crate::{Error, Line, Word, Words, lines, read_row, row_text};

/// A table and its profile.
///
/// It is read by [`FromStr`] and written by [`Display`]: a table whose rows stand in order, each position once, and whose
/// profile has 13 bytes or 14, the first 0, is equal after both.
#[derive(Clone, Debug, Eq, PartialEq)]
pub struct Table {
    /// The profile, which is the bench's with the bulb where none is written.
    pub profile: Vec<u8>,
    /// The rows, ordered by x, then y, then z.
    pub rows: Vec<Row>,
}

impl Table {
    /// Reads lines of which each is a table's.
    ///
    /// # Errors
    ///
    /// One is not, or they are no whole table.
    pub fn read<'a>(lines: impl IntoIterator<Item = Line<'a>>) -> Result<Self, Error> {
        let mut reader = TableReader::new();
        for line in lines {
            if !reader.read(line)? {
                return Err(line.unknown(TableReader::WORDS));
            }
        }
        reader.table()
    }

    /// The number of the row at a position.
    #[must_use]
    pub fn find(&self, position: [i32; 3]) -> Option<usize> {
        self.rows.binary_search_by_key(&position, Row::position).ok()
    }
}

/// Reads a text that has no lines but a table's.
impl FromStr for Table {
    type Err = Error;

    fn from_str(text: &str) -> Result<Self, Error> {
        Self::read(lines(text))
    }
}

/// Writes the shortest text that is read as this table, with the number of its rows.
impl Display for Table {
    fn fmt(&self, f: &mut Formatter<'_>) -> fmt::Result {
        if self.profile != BENCH_PROFILE_WITH_BULB {
            write!(f, "{PROFILE}")?;
            for (kind, &byte) in Kind::ALL.iter().zip(self.profile.iter().skip(1)) {
                // The bulb's byte is one more, even where it is 0.
                if byte != 0 || *kind == Kind::CopperBulb {
                    write!(f, " {kind}={byte}")?;
                }
            }
            writeln!(f)?;
        }
        writeln!(f, "{BLOCKS}{}", self.rows.len())?;
        self.rows.iter().try_for_each(|row| writeln!(f, "{}", row_text(row)))
    }
}

const PROFILE: &str = "profile";
const BLOCKS: &str = "blocks=";

/// Reads a table line by line.
#[derive(Clone, Debug, Default)]
pub struct TableReader<'a> {
    profile: Option<Vec<u8>>,
    /// The number of rows that is written, and where.
    blocks: Option<(usize, Word<'a>)>,
    /// Each row and its line.
    rows: BTreeMap<[i32; 3], (Row, usize)>,
    last: Option<Line<'a>>,
}

impl<'a> TableReader<'a> {
    /// The words that lines begin with which are a table's and no rows.
    pub const WORDS: &'static [&'static str] = &[PROFILE, BLOCKS];

    /// No line has been read.
    #[must_use]
    pub fn new() -> Self {
        Self::default()
    }

    /// Reads a line if it is a table's, and tells whether it is: an empty one, one that begins with one of
    /// [`TableReader::WORDS`], or one that begins as a position does, with a digit or a sign.
    ///
    /// # Errors
    ///
    /// The line is a table's and cannot be read, or may not stand after those before.
    pub fn read(&mut self, line: Line<'a>) -> Result<bool, Error> {
        self.last = Some(line);
        let mut words = line.words();
        let Some(first) = words.next() else { return Ok(true) };
        if first.text.starts_with(|letter: char| letter.is_ascii_digit() || "+-".contains(letter)) {
            self.read_row(first, line)?;
        } else if first.text == PROFILE {
            self.read_profile(first, words)?;
        } else if first.text.starts_with(BLOCKS) {
            self.read_blocks(first, words)?;
        } else {
            return Ok(false);
        }
        Ok(true)
    }

    fn read_row(&mut self, first: Word, line: Line) -> Result<(), Error> {
        let row = read_row(line)?;
        match self.rows.insert(row.position(), (row, line.number)) {
            Some((_, other)) => Err(first.again(format!("another position than line {other} has"))),
            None => Ok(()),
        }
    }

    fn read_profile(&mut self, first: Word, words: Words) -> Result<(), Error> {
        self.check_before_rows(first, self.profile.is_some())?;
        let mut profile = vec![0; PROFILE_BYTES];
        for field in words.fields("a kind", kinds()) {
            let (kind, byte) = field?;
            let at = usize::from(kind.code());
            profile.resize(profile.len().max(at + 1), 0);
            profile[at] = byte.number(0..=u8::MAX)?;
        }
        self.profile = Some(profile);
        Ok(())
    }

    fn read_blocks(&mut self, first: Word<'a>, mut words: Words) -> Result<(), Error> {
        self.check_before_rows(first, self.blocks.is_some())?;
        let (_, number) = first.split_at(BLOCKS.len());
        self.blocks = Some((number.number(0..=usize::MAX)?, number));
        words.end()
    }

    /// A line before the rows that may stand once.
    fn check_before_rows(&self, first: Word, stands: bool) -> Result<(), Error> {
        if stands {
            Err(first.again("a row"))
        } else if !self.rows.is_empty() {
            Err(first.expected("a row, as this stands before the rows"))
        } else {
            Ok(())
        }
    }

    /// The line of the row at a position.
    #[must_use]
    pub fn line_of(&self, position: [i32; 3]) -> Option<usize> {
        self.rows.get(&position).map(|(_, line)| *line)
    }

    /// The table, now that every line has been read.
    ///
    /// # Errors
    ///
    /// The text has another number of rows than it says, or says none and has no rows, or its last line is not ended
    /// where it says how many.
    pub fn table(&self) -> Result<Table, Error> {
        let rows: Vec<_> = self.rows.values().map(|(row, _)| *row).collect();
        let last = self.last.unwrap_or(Line { number: 1, text: "", is_ended: true });
        match self.blocks {
            None if rows.is_empty() => Err(last.end_of_text("a row, or blocks=0")),
            Some(_) if !last.is_ended => Err(last.end_of_text("the end of the line")),
            Some((blocks, number)) if blocks != rows.len() => {
                Err(number.expected(format!("{}, the number of rows that there are", rows.len())))
            }
            _ => {
                let profile = self.profile.clone().unwrap_or_else(|| BENCH_PROFILE_WITH_BULB.to_vec());
                Ok(Table { profile, rows })
            }
        }
    }
}
