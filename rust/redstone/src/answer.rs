//! What a call answers: a number, or a refusal.

use std::error::Error;
use std::fmt::{self, Display, Formatter};

use crate::Fault;

/// In how many rounds a table settled, the answering one counted.
#[derive(Clone, Copy, Debug, Eq, Hash, Ord, PartialEq, PartialOrd)]
pub struct Rounds(pub(crate) u32);

impl Rounds {
    /// No accepted table takes more, so a limit of this many is never too low.
    pub const MOST: u32 = 17;

    /// The number, from 1 to [`Rounds::MOST`].
    #[must_use]
    pub fn get(self) -> u32 {
        self.0
    }
}

/// Why a call wrote nothing.
#[derive(Clone, Copy, Debug, Eq, Hash, PartialEq)]
#[non_exhaustive]
pub struct Refusal {
    /// The number of the refusal, from 1 on.
    pub number: u32,
    /// The first row at fault. Of a merge it is in the table that [`Fault::table`] names; in a state or device column it
    /// has the number of the table's row; of a new row it is the number that [`replace`](crate::replace) is given. 0 where
    /// the refusal is not about a row, where a state or device column is of a wrong length, and for 11 and 12, whose rows
    /// the fault has.
    pub row: usize,
    /// What exactly is wrong.
    pub fault: Fault,
}

/// The refusals. A call tests for them in the order of their numbers, but for [`Overdriven`](Self::Overdriven).
///
/// [`merge`](crate::merge) tests the first table for 2 to 5 and 10, then the second one, and then 7, 11, 12 and, of both
/// tables together, 3. [`replace`](crate::replace) tests the table for 1 to 5 and 10, then the new row for 4, 5 and 10, and
/// then 7.
#[derive(Clone, Copy, Debug, Eq, Hash, PartialEq)]
#[non_exhaustive]
pub enum RefusalKind {
    /// 1: the profile has neither 13 bytes nor 14, Air's is not 0, the torch's is above 63, or another is above 31.
    Profile,
    /// 2: the table's length is not a multiple of 32.
    Ragged,
    /// 3: the table, or what two tables are merged to, has more than 1,024 rows.
    Crowded,
    /// 4: a row has a field outside the layout, or is a bulb and the profile has 13 bytes, not the 14 that
    /// [`BENCH_PROFILE_WITH_BULB`](crate::BENCH_PROFILE_WITH_BULB) has. [`merge`](crate::merge), which has no profile,
    /// takes bulbs. Or the new row that [`replace`](crate::replace) is given has not 32 bytes.
    BadRow,
    /// 5: a row's position is not after that of the row before; or the new row that [`replace`](crate::replace) is given
    /// stands at another position than the row that it is to replace, or there is no such row.
    Misplaced,
    /// 6: the device column or the state has a wrong length or value.
    BadState,
    /// 7: an output column, or the state lent to [`fresh`](crate::fresh), has not one entry for each row; what is lent to
    /// [`merge`](crate::merge) has not [`MERGE_BYTES`](crate::MERGE_BYTES); the room that is lent to
    /// [`clear`](crate::clear) is not as long as the table; or a list of feeders has not
    /// [`MOST_FEEDERS`](crate::MOST_FEEDERS) entries for each row.
    Column,
    /// 8: the limit is below the rounds needed.
    Unsettled,
    /// 9: the tick and the ticks asked for add up to more than 4,294,967,295.
    ClockEnd,
    /// 10: a comparator's level is above 15, be it the power level of its row, which is tested just after 5, or its byte of
    /// the device column or the state, which is tested just after 6.
    Overdriven,
    /// 11: the offset of a merge is out of range, or moves a row of the second table out of it.
    OffGround,
    /// 12: two tables that are merged have different rows at one position.
    Clash,
    /// A number that this crate does not know.
    Unknown,
}

/// Each number, what it stands for, and its word.
pub(crate) const REFUSALS: [(u32, RefusalKind, &str); 12] = [
    (1, RefusalKind::Profile, "profile"),
    (2, RefusalKind::Ragged, "ragged"),
    (3, RefusalKind::Crowded, "crowded"),
    (4, RefusalKind::BadRow, "bad row"),
    (5, RefusalKind::Misplaced, "misplaced"),
    (6, RefusalKind::BadState, "bad state"),
    (7, RefusalKind::Column, "column"),
    (8, RefusalKind::Unsettled, "unsettled"),
    (9, RefusalKind::ClockEnd, "clock end"),
    (10, RefusalKind::Overdriven, "overdriven"),
    (11, RefusalKind::OffGround, "off ground"),
    (12, RefusalKind::Clash, "clash"),
];

impl RefusalKind {
    /// What a number stands for.
    pub(crate) fn of(number: u32) -> Self {
        REFUSALS.iter().find(|(known, ..)| *known == number).map_or(Self::Unknown, |(_, kind, _)| *kind)
    }

    /// The refusal's word, as documents 01 and 02 have it.
    fn word(self) -> &'static str {
        REFUSALS.iter().find(|(_, known, _)| *known == self).map_or("unknown", |(.., word)| word)
    }
}

/// The refusal's word.
impl Display for RefusalKind {
    fn fmt(&self, f: &mut Formatter<'_>) -> fmt::Result {
        f.pad(self.word())
    }
}

impl Refusal {
    /// What the number stands for.
    #[must_use]
    pub fn kind(self) -> RefusalKind {
        RefusalKind::of(self.number)
    }
}

/// The number, the word, what is wrong and what would be right.
impl Display for Refusal {
    fn fmt(&self, f: &mut Formatter<'_>) -> fmt::Result {
        write!(f, "refusal {}, {}: {}", self.number, self.kind(), self.fault)
    }
}

impl Error for Refusal {}

/// What the number that a call answers with stands for. Where it is a refusal, the checks are made again for the
/// reason, over buffers that are as they were; the number decides.
pub(crate) fn answered(number: u32, check: impl FnOnce() -> Result<(), Fault>) -> Result<u32, Refusal> {
    let (refused, row) = (number >> 16, (number & 0xffff) as usize);
    if refused == 0 {
        return Ok(number);
    }
    let unexplained = Fault::Unexplained { number: refused, row };
    let found = check().err().filter(|fault| (fault.number(), fault.row()) == (refused, row));
    Err(Refusal { number: refused, row, fault: found.unwrap_or(unexplained) })
}
