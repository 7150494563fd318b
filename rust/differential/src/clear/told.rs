//! What tables are like, so that it can be seen what was compared.

use std::ops::RangeInclusive;

use redstone::{Kind, Row, Shape};

use super::reading::{Hold, READING, falling, needs_support, resting_on, ring, rows_that, support};
use crate::generate::Case;
use crate::table;

/// An accepted table, what holds its rows, and the pass in which each goes.
struct Table<'a> {
    profile: &'a [u8],
    rows: Vec<Row>,
    holds: Vec<Hold>,
    /// The size of the ring that each row is of.
    rings: Vec<Option<usize>>,
    passes: Vec<u16>,
}

type Feature = (&'static str, fn(&Table) -> bool);

const FEATURES: [Feature; 23] = [
    ("no rows", |table| table.rows.is_empty()),
    ("all rows kept", |table| !table.rows.is_empty() && table.gone() == 0),
    ("no row kept", |table| !table.rows.is_empty() && table.gone() == table.rows.len()),
    ("some rows kept, some gone", |table| (1..table.rows.len()).contains(&table.gone())),
    ("a row with no support offset goes", |table| {
        table.any_unheld(|table, row| support(&table.rows[row]).is_none())
    }),
    ("a row with nothing at its offset goes", |table| {
        table.any_unheld(|table, row| support(&table.rows[row]).is_some() && table.holder(row).is_none())
    }),
    ("a plain block does not hold", |table| table.any_not_holding(|row| row.shape() == Shape::Plain)),
    ("a block does not hold by its shape", |table| table.any_not_holding(|row| row.shape() != Shape::Plain)),
    ("a block holds by its kind", |table| table.any_holding(|row| row.shape() == Shape::Plain)),
    ("a block holds by its shape alone", |table| {
        let profile = table.profile;
        table.any_holding(|row| {
            row.shape() != Shape::Plain && profile[usize::from(row.kind().code())] & 1 == 0
        })
    }),
    ("a bulb holds", |table| table.any_holding(|row| row.kind() == Kind::CopperBulb)),
    ("a bulb does not hold", |table| table.any_not_holding(|row| row.kind() == Kind::CopperBulb)),
    ("a row holds itself", |table| table.has_ring(1..=1)),
    ("two rows hold each other", |table| table.has_ring(2..=2)),
    ("a ring of 3 to 9 rows", |table| table.has_ring(3..=9)),
    ("a ring of 10 to 99 rows", |table| table.has_ring(10..=99)),
    ("a ring of 100 rows or more", |table| table.has_ring(100..=usize::MAX)),
    ("a row on a ring that it is not of", |table| table.has_row_on_ring()),
    ("1 pass", |table| table.last_pass() == 1),
    ("2 passes", |table| table.last_pass() == 2),
    ("3 to 9 passes", |table| (3..=9).contains(&table.last_pass())),
    ("10 to 99 passes", |table| (10..=99).contains(&table.last_pass())),
    ("100 passes or more", |table| table.last_pass() >= 100),
];

/// The names of the features that a table may have.
pub fn features() -> impl Iterator<Item = &'static str> {
    FEATURES.iter().map(|(name, _)| *name)
}

/// Those that an accepted table has.
pub fn told(case: &Case) -> Vec<&'static str> {
    let rows = table::rows(&case.table);
    let holds = READING.holds(&case.profile, &rows);
    let rings = (0..rows.len()).map(|row| ring(&holds, row)).collect();
    let table = Table { profile: &case.profile, passes: falling(&holds), rows, rings, holds };
    FEATURES.iter().filter(|(_, has)| has(&table)).map(|(name, _)| *name).collect()
}

impl Table<'_> {
    fn gone(&self) -> usize {
        self.passes.iter().filter(|pass| **pass > 0).count()
    }

    fn last_pass(&self) -> u16 {
        self.passes.iter().copied().max().unwrap_or(0)
    }

    /// The row at the support of a row that needs one.
    fn holder(&self, row: usize) -> Option<&Row> {
        let at = Some(&self.rows[row]).filter(|row| needs_support(row)).and_then(support)?;
        self.rows.binary_search_by_key(&at, Row::position).ok().map(|holder| &self.rows[holder])
    }

    fn any_unheld(&self, is: fn(&Self, usize) -> bool) -> bool {
        rows_that(&self.holds, |hold| hold == Hold::Nothing).into_iter().any(|row| is(self, row))
    }

    /// Whether a row is at the support of another, does not hold it, and is so.
    fn any_not_holding(&self, is: impl Fn(&Row) -> bool) -> bool {
        let unheld = rows_that(&self.holds, |hold| hold == Hold::Nothing);
        unheld.into_iter().filter_map(|row| self.holder(row)).any(is)
    }

    /// Whether a row holds another, and is so.
    fn any_holding(&self, is: impl Fn(&Row) -> bool) -> bool {
        let held = rows_that(&self.holds, |hold| matches!(hold, Hold::Row(_)));
        held.into_iter().filter_map(|row| self.holder(row)).any(is)
    }

    fn has_ring(&self, sizes: RangeInclusive<usize>) -> bool {
        self.rings.iter().flatten().any(|size| sizes.contains(size))
    }

    /// After as many steps as there are rows, what still goes down goes round.
    fn has_row_on_ring(&self) -> bool {
        let goes_round = |row: usize| resting_on(&self.holds, row).count() == self.rows.len();
        (0..self.rows.len()).any(|row| self.rings[row].is_none() && goes_round(row))
    }
}
