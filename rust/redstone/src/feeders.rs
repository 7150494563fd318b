//! The dust that transmits into each dust of a table.

use std::cmp::Ordering;
use std::fmt::{self, Display, Formatter};

use crate::circuit::ACCEPTED;
use crate::row::position_of;
use crate::{Kind, MOST_FEEDERS, NO_ROW, ROW_BYTES, Refusal, Row, feeders, find, replace, table};

/// A table with its profile and its list of feeders, which is kept up to date as blocks are replaced.
///
/// It is made by [`feeders`], and changed by [`replace`]. Dust beside a block, and dust on the block:
///
/// ```
/// use redstone::{BENCH_PROFILE, DustTransfer, Feeders, Kind, Row, Shape};
///
/// let (low, high) = ([0, 1, 0], [1, 2, 0]);
/// let block = Row::new(Kind::Solid, [1, 1, 0]);
/// let dust = [low, high].map(|position| Row::new(Kind::RedstoneWire, position));
/// let mut feeders = Feeders::new(&BENCH_PROFILE, [block, dust[0], dust[1]])?;
/// let rules = |feeders: &Feeders, position| -> Option<Vec<DustTransfer>> {
///     Some(feeders.of(position)?.iter().map(|feeder| feeder.transfer).collect())
/// };
/// assert_eq!(rules(&feeders, high), Some(vec![DustTransfer::Rise]));
/// assert_eq!(rules(&feeders, low), Some(vec![DustTransfer::FallThroughConductor]));
///
/// // A top slab lets power up, and not down.
/// feeders.replace(block.with_shape(Shape::TopSlab))?;
/// assert_eq!(rules(&feeders, high), Some(vec![DustTransfer::Rise]));
/// assert_eq!(rules(&feeders, low), Some(vec![]));
/// # Ok::<(), redstone::Refusal>(())
/// ```
///
/// The list is by the arms that the table has. A [`redraw`](crate::redraw) makes another table, for which it is built anew:
/// that of a [`Circuit`](crate::Circuit) by [`Circuit::feeders`](crate::Circuit::feeders).
#[derive(Clone, Debug, Eq, PartialEq)]
pub struct Feeders {
    profile: Vec<u8>,
    table: Vec<u8>,
    list: Vec<u16>,
}

/// Dust that transmits into other dust.
#[derive(Clone, Copy, Debug, Eq, Hash, PartialEq)]
#[non_exhaustive]
pub struct Feeder {
    /// The number of its row, from 0.
    pub number: usize,
    /// Its position, at one of the four sides of the dust that it feeds, and at most a cell lower or higher.
    pub position: [i32; 3],
    /// The rule by which it transmits.
    pub transfer: DustTransfer,
}

/// A rule by which dust transmits into dust at one of its four sides.
#[derive(Clone, Copy, Debug, Eq, Hash, PartialEq)]
pub enum DustTransfer {
    /// At the same height, by the arms that both have to each other.
    Horizontal,
    /// From a cell lower, by the arm of the lower dust to the block on which the higher one lies:
    /// [`Up`](crate::Arm::Up), or [`Side`](crate::Arm::Side) where that is a top slab or top stairs.
    Rise,
    /// From a cell higher, by the same arm of the lower dust, where strong power of that block drives dust.
    FallThroughConductor,
}

impl DustTransfer {
    /// The name, as [`Display`] writes it.
    #[must_use]
    pub const fn name(self) -> &'static str {
        match self {
            Self::Horizontal => "Horizontal",
            Self::Rise => "Rise",
            Self::FallThroughConductor => "FallThroughConductor",
        }
    }

    /// The rule by which dust transmits, told by the heights of the source and the sink.
    fn by_heights(source: i32, sink: i32) -> Self {
        match source.cmp(&sink) {
            Ordering::Equal => Self::Horizontal,
            Ordering::Less => Self::Rise,
            Ordering::Greater => Self::FallThroughConductor,
        }
    }
}

/// Writes the name.
impl Display for DustTransfer {
    fn fmt(&self, f: &mut Formatter<'_>) -> fmt::Result {
        f.pad(self.name())
    }
}

impl Feeders {
    /// The feeders of these rows, which it puts in the table's order.
    ///
    /// # Errors
    ///
    /// Refusals 1, 3 to 5, and 10.
    pub fn new(profile: &[u8], rows: impl IntoIterator<Item = Row>) -> Result<Self, Refusal> {
        Self::from_table(profile, table(rows))
    }

    /// The feeders of a packed table.
    ///
    /// # Errors
    ///
    /// Refusals 1 to 5, and 10.
    pub fn from_table(profile: &[u8], table: impl Into<Vec<u8>>) -> Result<Self, Refusal> {
        let table = table.into();
        let mut list = vec![NO_ROW; MOST_FEEDERS * (table.len() / ROW_BYTES)];
        feeders(profile, &table, &mut list)?;
        Ok(Self { profile: profile.to_vec(), table, list })
    }

    /// The dust that transmits into the dust at x, y, z, in the order of the rows; `None` where no dust is.
    #[must_use]
    pub fn of(&self, position: [i32; 3]) -> Option<Vec<Feeder>> {
        let (rows, entries) = (self.table.as_chunks().0, self.list.as_chunks::<MOST_FEEDERS>().0);
        let sink = find(&self.table, position)?;
        if Row::try_from(&rows[sink]).expect(ACCEPTED).kind() != Kind::RedstoneWire {
            return None;
        }
        let feeder = |&entry: &u16| {
            let number = usize::from(entry);
            let source = position_of(&rows[number]);
            let transfer = DustTransfer::by_heights(source[1], position[1]);
            Feeder { number, position: source, transfer }
        };
        Some(entries[sink].iter().take_while(|entry| **entry != NO_ROW).map(feeder).collect())
    }

    /// Replaces the block at the row's position by the row's.
    ///
    /// ```
    /// use redstone::{BENCH_PROFILE, Feeders, Kind, Row};
    ///
    /// let dust = Row::new(Kind::RedstoneWire, [0, 0, 0]);
    /// let mut feeders = Feeders::new(&BENCH_PROFILE, [dust, dust.with_position([1, 0, 0])])?;
    /// let refusal = feeders.replace(dust.with_position([2, 0, 0])).unwrap_err();
    /// assert_eq!(
    ///     refusal.to_string(),
    ///     "refusal 5, misplaced: no block is at 2,0,0 for the new row 2 to replace; the table has 2 rows, numbered from 0"
    /// );
    /// # Ok::<(), redstone::Refusal>(())
    /// ```
    ///
    /// # Errors
    ///
    /// Refusals 4 and 10 on the row, and 5 where no block is at its position. Where none is, the refusal's row is the number
    /// after the last. Nothing is changed then.
    pub fn replace(&mut self, row: Row) -> Result<(), Refusal> {
        let Self { profile, table, list } = self;
        // At most 1,024: also where no row is at the position, and it is the number after the last.
        let number = find(table, row.position()).unwrap_or(table.len() / ROW_BYTES);
        replace(profile, table, number as u16, &row.bytes(), list).map(drop)
    }

    /// The profile.
    #[must_use]
    pub fn profile(&self) -> &[u8] {
        &self.profile
    }

    /// The packed table, with the blocks that were put in. [`Circuit::from_table`](crate::Circuit::from_table) makes a
    /// circuit of it.
    #[must_use]
    pub fn table(&self) -> &[u8] {
        &self.table
    }

    /// The list, of [`MOST_FEEDERS`] entries for each row, as [`feeders`] writes it.
    #[must_use]
    pub fn list(&self) -> &[u16] {
        &self.list
    }
}
