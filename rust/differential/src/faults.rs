//! Faults of a table, those of rows each at a row of its own.

use std::sync::LazyLock;

use redstone::{Facing, Kind, MOST_ROWS, ROW_BYTES, Row, table};

/// In the order in which they are tested for.
#[derive(Clone, Copy, Debug, Eq, PartialEq)]
pub enum OfTable {
    Ragged,
    Crowded,
    BadRow,
    Misplaced,
    Overdriven,
}

/// The places for faults at rows. Each has a comparator and then a torch.
pub const PLACES: usize = 3;

const COMPARATOR: usize = 0;
pub const TORCH: usize = 1;

/// The faults that are at rows, each at the comparator or at the torch of its place.
const AT_ROWS: [(OfTable, usize); PLACES] =
    [(OfTable::BadRow, COMPARATOR), (OfTable::Misplaced, TORCH), (OfTable::Overdriven, COMPARATOR)];

/// The place of each of these faults.
#[derive(Clone, Copy, Debug)]
pub struct Places([usize; PLACES]);

impl Places {
    /// The faults that are tested for later are in earlier rows.
    pub const BACKWARD: Self = Self([2, 1, 0]);

    /// Each fault before and after each other one, in every way, and all of them in one place.
    pub fn all() -> impl Iterator<Item = Self> {
        let numbers = 0..PLACES.pow(PLACES as u32);
        let places = numbers.map(|number| [9, 3, 1].map(|digit| number / digit % PLACES));
        let taken = |places: &[usize; PLACES]| (0..PLACES).filter(|place| places.contains(place)).count();
        places.filter(move |places| [1, PLACES].contains(&taken(places))).map(Self)
    }
}

impl OfTable {
    pub fn number(self) -> u32 {
        match self {
            Self::Ragged => 2,
            Self::Crowded => 3,
            Self::BadRow => 4,
            Self::Misplaced => 5,
            Self::Overdriven => 10,
        }
    }

    /// Whether it shows in the table's length.
    pub fn is_of_length(self) -> bool {
        matches!(self, Self::Ragged | Self::Crowded)
    }

    /// The row that it is at, and 0 where it is at none.
    pub fn row(self, Places(places): Places) -> usize {
        let at = AT_ROWS.iter().position(|(other, _)| *other == self);
        at.map_or(0, |at| 2 * places[at] + AT_ROWS[at].1)
    }

    /// Puts it in a table that begins with `good_rows`.
    pub fn put(self, table: &mut Vec<u8>, places: Places) {
        let at = ROW_BYTES * self.row(places);
        match self {
            Self::Ragged => table.push(0),
            Self::Crowded => table.extend(&*MANY_ROWS),
            Self::BadRow => table[at + 31] = 1,
            Self::Misplaced => table.copy_within(at - ROW_BYTES..at - ROW_BYTES + 12, at),
            Self::Overdriven => table[at + 16] = 200,
        }
    }
}

/// The rows that faults may be put at.
pub fn good_rows() -> impl Iterator<Item = Row> {
    (0..PLACES as i32).flat_map(|x| {
        let comparator = Row::new(Kind::Comparator, [x, 0, 0]).with_facing(Facing::East).with_power_level(7);
        [comparator, Row::new(Kind::RedstoneTorch, [x, 1, 0])]
    })
}

/// As many rows as a table may have, past those of the good ones.
static MANY_ROWS: LazyLock<Vec<u8>> =
    LazyLock::new(|| table((0..MOST_ROWS as i32).map(|x| Row::new(Kind::Solid, [100 + x, 0, 0]))));

/// Every choice of some of these faults, of none and of all.
pub fn combinations<F: Copy>(faults: Vec<F>) -> impl Iterator<Item = Vec<F>> {
    (0..1_u32 << faults.len()).map(move |combination| {
        let chosen = faults.iter().enumerate().filter(|(at, _)| combination >> at & 1 == 1);
        chosen.map(|(_, fault)| *fault).collect()
    })
}
