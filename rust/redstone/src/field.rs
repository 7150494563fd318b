//! The fields of a packed row or state: where each stands, how it is read, and what is said of a value that it may not have.

use std::error::Error;
use std::fmt::{self, Display, Formatter};

use crate::code::{Coded, Named, coded_name, one_of};

/// A field of a packed row or state, by its name and its first byte.
#[derive(Clone, Copy, Debug, Eq, Hash, PartialEq)]
pub(crate) struct Field {
    pub name: &'static str,
    pub at: usize,
}

/// What a field may hold.
#[derive(Clone, Copy, Debug, Eq, Hash, PartialEq)]
pub(crate) enum Allowed {
    /// The whole numbers from one to another.
    Range(i32, i32),
    /// These codes, after 0 where it has a meaning, too.
    Codes(Option<Named>, &'static [Named]),
    /// 0 alone, since this field is 0.
    ZeroWith(Field),
    /// What the words say.
    Rule(&'static str),
}

impl Field {
    pub(crate) fn bad(self, value: impl Into<i64>, allowed: Allowed) -> BadField {
        BadField { field: self, value: value.into(), allowed }
    }

    pub(crate) fn byte(self, row: &[u8]) -> u8 {
        row[self.at]
    }

    /// A signed number of four bytes, its low byte first.
    pub(crate) fn number(self, row: &[u8]) -> i32 {
        let byte = |at: usize| row[self.at + at];
        i32::from_le_bytes([byte(0), byte(1), byte(2), byte(3)])
    }

    /// The byte of a value that the row does not have, which is 0.
    pub(crate) fn zero(self, row: &[u8], allowed: Allowed) -> Result<(), BadField> {
        match self.byte(row) {
            0 => Ok(()),
            byte => Err(self.bad(byte, allowed)),
        }
    }

    /// Whether a byte of 0 or 1 is 1.
    pub(crate) fn flag(self, row: &[u8]) -> Result<bool, BadField> {
        match self.byte(row) {
            0 => Ok(false),
            1 => Ok(true),
            byte => Err(self.bad(byte, Allowed::Range(0, 1))),
        }
    }

    pub(crate) fn coded<T: Coded>(self, row: &[u8]) -> Result<T, BadField> {
        let byte = self.byte(row);
        T::try_from(byte).map_err(|_| self.bad(byte, Allowed::Codes(None, T::NAMED)))
    }

    /// The same of a byte that may be 0, with the meaning that this word has.
    pub(crate) fn optional<T: Coded>(self, row: &[u8], zero: &'static str) -> Result<Option<T>, BadField> {
        let byte = self.byte(row);
        match T::try_from(byte) {
            Ok(value) => Ok(Some(value)),
            Err(_) if byte == 0 => Ok(None),
            Err(_) => Err(self.bad(byte, Allowed::Codes(Some((0, zero)), T::NAMED))),
        }
    }

    /// A signed number of one or four bytes that lies in a range.
    pub(crate) fn within<T>(self, value: T, least: i32, most: i32) -> Result<T, BadField>
    where
        T: Copy + Into<i64>,
    {
        if (i64::from(least)..=i64::from(most)).contains(&value.into()) {
            Ok(value)
        } else {
            Err(self.bad(value, Allowed::Range(least, most)))
        }
    }
}

/// A field of a packed row or state with a value that it may not have.
///
/// ```
/// use redstone::{Kind, Row};
///
/// let mut bytes = Row::new(Kind::Lever, [0, 1, 0]).bytes();
/// bytes[14] = 3;
/// let bad = Row::try_from(bytes).unwrap_err();
/// assert_eq!((bad.name(), bad.byte(), bad.value()), ("powered", 14, 3));
/// assert_eq!(bad.to_string(), "powered (byte 14) is 3; it may be 0 missing, 1 false or 2 true");
/// ```
#[derive(Clone, Copy, Debug, Eq, Hash, PartialEq)]
pub struct BadField {
    field: Field,
    value: i64,
    allowed: Allowed,
}

impl BadField {
    /// The field's name.
    #[must_use]
    pub fn name(&self) -> &'static str {
        self.field.name
    }

    /// The field's first byte, counted from the row's first.
    #[must_use]
    pub fn byte(&self) -> usize {
        self.field.at
    }

    /// What the field holds.
    #[must_use]
    pub fn value(&self) -> i64 {
        self.value
    }
}

impl Display for BadField {
    fn fmt(&self, f: &mut Formatter<'_>) -> fmt::Result {
        let Self { field: Field { name, at }, value, allowed } = self;
        write!(f, "{name} (byte {at}) is {value}; ")?;
        match allowed {
            Allowed::Range(least, most) => write!(f, "it may be from {least} to {most}"),
            Allowed::Codes(zero, codes) => {
                let codes = zero.iter().chain(*codes).map(coded_name);
                write!(f, "it may be {}", one_of(codes))
            }
            Allowed::ZeroWith(Field { name, at }) => write!(f, "it must be 0, as {name} (byte {at}) is"),
            Allowed::Rule(words) => f.write_str(words),
        }
    }
}

impl Error for BadField {}
