//! What exactly is wrong with an input.

use std::error::Error;
use std::fmt::{self, Display, Formatter};

use crate::{
    BadField, Clash, FARTHEST, FARTHEST_OFFSET, Kind, MOST_ROWS, PROFILE_BYTES, PROFILE_BYTES_WITH_BULB,
    ROW_BYTES, Rounds, TORCH_CHARGES_ABOVE,
};

/// What exactly is wrong with an input. Its message says what would be right.
#[derive(Clone, Copy, Debug, Eq, Hash, PartialEq)]
#[non_exhaustive]
pub enum Fault {
    /// 1: the profile has a wrong length.
    ProfileLength {
        /// Its bytes.
        length: usize,
    },
    /// 1: a byte of the profile is too large.
    ProfileByte {
        /// The code of the kind that it is of, which is its place in the profile.
        kind: u8,
        /// The byte.
        value: u8,
        /// The largest that it may be.
        most: u8,
    },
    /// 2: the table is not of whole rows.
    Ragged {
        /// Which table.
        table: WhichTable,
        /// The bytes of the table.
        length: usize,
    },
    /// 3: the table has too many rows.
    Crowded {
        /// Which table.
        table: WhichTable,
        /// How many it has.
        rows: usize,
    },
    /// 3: what two tables are merged to has too many rows.
    CrowdedTogether {
        /// The rows of the first table.
        first: usize,
        /// The rows of the second table.
        second: usize,
        /// Those that both have, which count once.
        shared: usize,
    },
    /// 4: a row has a field outside the layout, or is a bulb under a profile of 13 bytes.
    BadRow {
        /// Which table the row is of.
        table: WhichTable,
        /// The row's number.
        row: usize,
        /// The position that its bytes hold.
        position: [i32; 3],
        /// The first such field.
        field: BadField,
    },
    /// 4: the row that is to replace another has a wrong length.
    NewRowLength {
        /// The number of the row that it is to replace.
        row: usize,
        /// Its bytes.
        length: usize,
    },
    /// 4: the row that is to replace another has a field outside the layout, or is a bulb under a profile of 13 bytes.
    BadNewRow {
        /// The number of the row that it is to replace.
        row: usize,
        /// The position that its bytes hold.
        position: [i32; 3],
        /// The first such field.
        field: BadField,
    },
    /// 5: a row's position is not after that of the row before.
    Misplaced {
        /// Which table the row is of.
        table: WhichTable,
        /// The row's number.
        row: usize,
        /// Its position.
        position: [i32; 3],
        /// The position of the row before.
        before: [i32; 3],
    },
    /// 5: there is no row of the number that is to be replaced.
    NoSuchRow {
        /// The number.
        row: usize,
        /// The position of the row that is to replace it.
        position: [i32; 3],
        /// The number of the row at that position, if there is one.
        found: Option<usize>,
        /// The rows that there are.
        rows: usize,
    },
    /// 5: the row that is to replace another stands at another position.
    OtherPosition {
        /// The number of the row that it is to replace.
        row: usize,
        /// Where it stands.
        position: [i32; 3],
        /// Where the row stands that it is to replace.
        expected: [i32; 3],
    },
    /// 6: the device column or the state has a wrong length.
    StateLength {
        /// Which of them.
        buffer: Buffer,
        /// Its bytes.
        length: usize,
        /// The bytes that it is to have.
        expected: usize,
    },
    /// 6: the device column or the state has a value that this row cannot have.
    BadState {
        /// Which of them.
        buffer: Buffer,
        /// The row's number.
        row: usize,
        /// The row's position.
        position: [i32; 3],
        /// The row's kind.
        kind: Kind,
        /// The first field at fault, counted from the row's first byte.
        field: BadField,
    },
    /// 7: a buffer that is lent to be written has a wrong length.
    Column {
        /// Which.
        buffer: Buffer,
        /// Its entries.
        length: usize,
        /// The entries that it is to have.
        expected: usize,
    },
    /// 8: the limit is below the rounds needed.
    Unsettled {
        /// The limit.
        limit: u32,
    },
    /// 9: the tick's number would pass the last.
    ClockEnd {
        /// The number of the tick that the state stands at.
        tick: u32,
        /// The ticks asked for.
        ticks: u32,
    },
    /// 10: the row of a comparator has a power level above 15.
    OverdrivenRow {
        /// Which table the row is of.
        table: WhichTable,
        /// The row's number.
        row: usize,
        /// Its position.
        position: [i32; 3],
        /// The power level.
        field: BadField,
    },
    /// 10: the row that is to replace another is a comparator's and has a power level above 15.
    OverdrivenNewRow {
        /// The number of the row that it is to replace.
        row: usize,
        /// Its position.
        position: [i32; 3],
        /// The power level.
        field: BadField,
    },
    /// 10: the device column or the state has a level above 15 for a comparator.
    OverdrivenState {
        /// Which of them.
        buffer: Buffer,
        /// The number of the comparator's row.
        row: usize,
        /// Its position.
        position: [i32; 3],
        /// The level.
        field: BadField,
    },
    /// 11: the offset is out of range on an axis.
    FarOffset {
        /// The first such axis: x, y or z.
        axis: char,
        /// The offset along it.
        value: i32,
    },
    /// 11: a row of the second table is moved out of range.
    OffGround {
        /// The row's number in the second table.
        second: usize,
        /// Its position there.
        position: [i32; 3],
        /// Where it would come to.
        moved: [i32; 3],
        /// The first axis along which that is too far: x, y or z.
        axis: char,
        /// The smallest offset along it that keeps every row of the second table in range.
        least: i32,
        /// The largest such offset.
        most: i32,
    },
    /// 12: the tables have different rows at a position.
    Clash(Clash),
    /// The library refused what this crate finds no fault with.
    Unexplained {
        /// The number of the refusal.
        number: u32,
        /// Its row.
        row: usize,
    },
}

/// Which of the tables that a call takes.
#[derive(Clone, Copy, Debug, Eq, Hash, PartialEq)]
pub enum WhichTable {
    /// The one that it takes.
    Only,
    /// The first that [`merge`](crate::merge) takes.
    First,
    /// The second that it takes, as it is given: not moved.
    Second,
}

/// A buffer that is lent to a call.
#[derive(Clone, Copy, Debug, Eq, Hash, PartialEq)]
#[non_exhaustive]
pub enum Buffer {
    /// The device column.
    Devices,
    /// The state.
    State,
    /// The column of signals.
    Signal,
    /// The column of weak power.
    Weak,
    /// The column of strong power.
    Strong,
    /// The column for the numbers of rows.
    Rows,
    /// The room for what two tables are merged to.
    Merged,
    /// The room for the rows that are kept of a table.
    Kept,
    /// The column of passes.
    Passes,
    /// The list of feeders.
    Feeders,
}

impl Fault {
    /// The number of the refusal that this is the reason of.
    #[must_use]
    pub fn number(&self) -> u32 {
        match *self {
            Self::ProfileLength { .. } | Self::ProfileByte { .. } => 1,
            Self::Ragged { .. } => 2,
            Self::Crowded { .. } | Self::CrowdedTogether { .. } => 3,
            Self::BadRow { .. } | Self::NewRowLength { .. } | Self::BadNewRow { .. } => 4,
            Self::Misplaced { .. } | Self::NoSuchRow { .. } | Self::OtherPosition { .. } => 5,
            Self::StateLength { .. } | Self::BadState { .. } => 6,
            Self::Column { .. } => 7,
            Self::Unsettled { .. } => 8,
            Self::ClockEnd { .. } => 9,
            Self::OverdrivenRow { .. } | Self::OverdrivenNewRow { .. } | Self::OverdrivenState { .. } => 10,
            Self::FarOffset { .. } | Self::OffGround { .. } => 11,
            Self::Clash(_) => 12,
            Self::Unexplained { number, .. } => number,
        }
    }

    /// The row at fault, as the call answers it; 0 where no row is, and for 11 and 12.
    #[must_use]
    pub fn row(&self) -> usize {
        match *self {
            Self::BadRow { row, .. }
            | Self::NewRowLength { row, .. }
            | Self::BadNewRow { row, .. }
            | Self::Misplaced { row, .. }
            | Self::NoSuchRow { row, .. }
            | Self::OtherPosition { row, .. }
            | Self::BadState { row, .. }
            | Self::OverdrivenRow { row, .. }
            | Self::OverdrivenNewRow { row, .. }
            | Self::OverdrivenState { row, .. }
            | Self::Unexplained { row, .. } => row,
            _ => 0,
        }
    }

    /// The table that the fault is about: of a refusal by [`merge`](crate::merge) the number and the row do not tell. `None`
    /// where it is about another input, such as a state or an offset by itself, or about two tables together.
    #[must_use]
    pub fn table(&self) -> Option<WhichTable> {
        match *self {
            Self::OffGround { .. } => Some(WhichTable::Second),
            mut fault => fault.table_mut().copied(),
        }
    }

    /// The same fault of another table.
    pub(crate) fn in_table(mut self, which: WhichTable) -> Self {
        if let Some(table) = self.table_mut() {
            *table = which;
        }
        self
    }

    fn table_mut(&mut self) -> Option<&mut WhichTable> {
        match self {
            Self::Ragged { table, .. }
            | Self::Crowded { table, .. }
            | Self::BadRow { table, .. }
            | Self::Misplaced { table, .. }
            | Self::OverdrivenRow { table, .. } => Some(table),
            _ => None,
        }
    }
}

impl Display for Fault {
    fn fmt(&self, f: &mut Formatter<'_>) -> fmt::Result {
        match *self {
            Self::ProfileLength { length } => {
                write!(f, "the profile has length {length}; it must be {PROFILE_BYTES}")?;
                write!(f, ", or {PROFILE_BYTES_WITH_BULB} with the bulb's byte")
            }
            Self::ProfileByte { kind, value, most } => {
                let of = Kind::try_from(kind).map_or("Air", Kind::name);
                write!(f, "byte {kind} of the profile, {of}'s, is {value}; it may be at most {most}")?;
                if has_value_of_torch(kind, value, most) {
                    let torch = Kind::RedstoneTorch;
                    write!(f, ": take {TORCH_CHARGES_ABOVE} off, which {torch}'s alone may have")?;
                }
                Ok(())
            }
            Self::Ragged { table, length } => {
                write!(f, "{table} has length {length}; it must be {ROW_BYTES} for each row")
            }
            Self::Crowded { table, rows } => {
                write!(f, "{table} has {rows} rows; it may have at most {MOST_ROWS}")
            }
            Self::CrowdedTogether { first, second, shared } => {
                let together = first + second - shared;
                write!(f, "the first table has {first} rows and the second {second}, ")?;
                write!(f, "{shared} of them shared: together they have {together}; ")?;
                write!(f, "they may have at most {MOST_ROWS}")
            }
            Self::BadRow { table, row, position, field }
            | Self::OverdrivenRow { table, row, position, field } => {
                write!(f, "row {row}{} at {}: {field}", Of(table), At(position))
            }
            Self::NewRowLength { row, length } => {
                write!(f, "the new row {row} has length {length}; it must be {ROW_BYTES}")
            }
            Self::BadNewRow { row, position, field } | Self::OverdrivenNewRow { row, position, field } => {
                write!(f, "the new row {row} at {}: {field}", At(position))
            }
            Self::NoSuchRow { row, position, found: None, rows } => {
                write!(f, "no block is at {} for the new row {row} to replace; ", At(position))?;
                write!(f, "the table has {}", Numbered(rows))
            }
            Self::NoSuchRow { row, position, found: Some(found), rows } => {
                write!(f, "no row {row} is there for the new one at {} to replace; ", At(position))?;
                write!(f, "the table has {}, and at that position is row {found}", Numbered(rows))
            }
            Self::OtherPosition { row, position, expected } => {
                let (at, expected) = (At(position), At(expected));
                write!(f, "the new row {row} is at {at}; it must be at {expected}, where row {row} is")
            }
            Self::Misplaced { table, row, position, before } if position == before => {
                let (of, at, previous) = (Of(table), At(position), row.saturating_sub(1));
                write!(f, "rows {previous} and {row}{of} are both at {at}; each position may be there once")
            }
            Self::Misplaced { table, row, position, before } => {
                let (of, at, previous, before) = (Of(table), At(position), row.saturating_sub(1), At(before));
                write!(f, "row {row}{of} at {at} comes after row {previous} at {before}; ")?;
                write!(f, "the order is by x, then y, then z")
            }
            Self::Column { buffer: Buffer::Merged, length, expected } => {
                let merged = Buffer::Merged;
                write!(f, "the {merged} has length {length}; it must be {expected}, whatever the tables have")
            }
            Self::StateLength { buffer, length, expected } | Self::Column { buffer, length, expected } => {
                write!(f, "the {buffer} has length {length}; for this table it must be {expected}")
            }
            Self::BadState { buffer, row, position, kind, field } => {
                write!(f, "the {buffer}'s row {row}, of a {kind} at {}: {field}", At(position))
            }
            Self::OverdrivenState { buffer, row, position, field } => {
                write!(f, "the {buffer}'s row {row}, of the comparator at {}: {field}", At(position))
            }
            Self::Unsettled { limit } => {
                let most = Rounds::MOST;
                write!(f, "the table does not settle within a limit of {limit}; {most} is always enough")
            }
            Self::ClockEnd { tick, ticks } => {
                let (last, left) = (u32::MAX, u32::MAX - tick);
                write!(f, "tick {tick} plus {ticks} is past {last}, the last; {left} more can be asked for")
            }
            Self::FarOffset { axis, value } => {
                let most = FARTHEST_OFFSET;
                write!(f, "the offset's d{axis} is {value}; it may be from -{most} to {most}")
            }
            Self::OffGround { second, position, moved, axis, least, most } => {
                let (of, at, moved) = (Of(WhichTable::Second), At(position), At(moved));
                write!(f, "row {second}{of} at {at} would come to {moved}, ")?;
                write!(f, "and a coordinate may be from -{FARTHEST} to {FARTHEST}; ")?;
                write!(f, "with this table d{axis} may be from {least} to {most}")
            }
            Self::Clash(clash) => clash.fmt(f),
            Self::Unexplained { .. } => {
                write!(
                    f,
                    "no fault is found; build this crate and its static library from the same repository"
                )
            }
        }
    }
}

/// Whether a byte of a profile, of another kind than the torch, would be good without the value that is the torch's.
fn has_value_of_torch(kind: u8, value: u8, most: u8) -> bool {
    let rest = value.checked_sub(TORCH_CHARGES_ABOVE);
    kind != Kind::RedstoneTorch.code() && rest.is_some_and(|rest| rest <= most)
}

impl Error for Fault {}

impl Display for Buffer {
    fn fmt(&self, f: &mut Formatter<'_>) -> fmt::Result {
        f.pad(match self {
            Self::Devices => "device column",
            Self::State => "state",
            Self::Signal => "signal column",
            Self::Weak => "weak column",
            Self::Strong => "strong column",
            Self::Rows => "column of rows",
            Self::Merged => "room for the merged table",
            Self::Kept => "room for the kept rows",
            Self::Passes => "column of passes",
            Self::Feeders => "list of feeders",
        })
    }
}

impl Display for WhichTable {
    fn fmt(&self, f: &mut Formatter<'_>) -> fmt::Result {
        f.pad(match self {
            Self::Only => "the table",
            Self::First => "the first table",
            Self::Second => "the second table",
        })
    }
}

/// The table after a row in a message, where it is one of two.
struct Of(WhichTable);

impl Display for Of {
    fn fmt(&self, f: &mut Formatter<'_>) -> fmt::Result {
        match self.0 {
            WhichTable::Only => Ok(()),
            table => write!(f, " of {table}"),
        }
    }
}

/// How many rows there are in a message, and their numbers.
struct Numbered(usize);

impl Display for Numbered {
    fn fmt(&self, f: &mut Formatter<'_>) -> fmt::Result {
        match self.0 {
            0 => write!(f, "no rows"),
            1 => write!(f, "1 row, numbered 0"),
            rows => write!(f, "{rows} rows, numbered from 0"),
        }
    }
}

/// A position in a message.
pub(crate) struct At(pub [i32; 3]);

impl Display for At {
    fn fmt(&self, f: &mut Formatter<'_>) -> fmt::Result {
        let [x, y, z] = self.0;
        write!(f, "{x},{y},{z}")
    }
}
