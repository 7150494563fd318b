//! Faults of every sort in one call, those of rows each at a row of its own.

use std::sync::LazyLock;

use redstone::{FARTHEST, Facing, Kind, ROW_BYTES, Row, table};

use super::trials::blocks;
use super::{Merge, Trial};
use crate::faults::{OfTable, PLACES, Places, TORCH, combinations, good_rows};
use crate::refusals::Refusal;
use crate::table::{Position, back, moved_row};

/// The faults in the order in which they are tested for.
#[derive(Clone, Copy, Debug, Eq, PartialEq)]
enum Fault {
    First(OfTable),
    Second(OfTable),
    Out,
    FarOffset,
    OffGround,
    Clash,
    TooManyTogether,
}

const FAULTS: [Fault; 15] = [
    Fault::First(OfTable::Ragged),
    Fault::First(OfTable::Crowded),
    Fault::First(OfTable::BadRow),
    Fault::First(OfTable::Misplaced),
    Fault::First(OfTable::Overdriven),
    Fault::Second(OfTable::Ragged),
    Fault::Second(OfTable::Crowded),
    Fault::Second(OfTable::BadRow),
    Fault::Second(OfTable::Misplaced),
    Fault::Second(OfTable::Overdriven),
    Fault::Out,
    Fault::FarOffset,
    Fault::OffGround,
    Fault::Clash,
    Fault::TooManyTogether,
];

impl Fault {
    fn number(self) -> u32 {
        match self {
            Self::First(fault) | Self::Second(fault) => fault.number(),
            Self::Out => 7,
            Self::FarOffset | Self::OffGround => 11,
            Self::Clash => 12,
            Self::TooManyTogether => 3,
        }
    }
}

/// The places of the faults at rows in the first table and in the second.
#[derive(Clone, Copy, Debug)]
pub struct Arrangement([Places; 2]);

impl Arrangement {
    /// Those of either table in every order.
    pub fn all() -> impl Iterator<Item = Self> {
        Places::all().flat_map(|first| Places::all().map(move |second| Self([first, second])))
    }

    /// The faults that are tested for later are in earlier rows.
    pub fn backward() -> Self {
        Self([Places::BACKWARD; 2])
    }

    /// The row of a fault, and 0 for those that are at none.
    fn row(self, fault: Fault) -> usize {
        let Self([first, second]) = self;
        match fault {
            Fault::First(fault) => fault.row(first),
            Fault::Second(fault) => fault.row(second),
            _ => 0,
        }
    }
}

/// Every combination of faults.
pub fn all_combinations(arrangement: Arrangement) -> impl Iterator<Item = Trial> {
    combinations(FAULTS.to_vec()).map(move |faults| with_faults(faults, arrangement))
}

/// Those of them in which both tables have good lengths.
pub fn of_rows(arrangement: Arrangement) -> impl Iterator<Item = Trial> {
    let is_of_length = |fault: &Fault| match fault {
        Fault::First(fault) | Fault::Second(fault) => fault.is_of_length(),
        _ => false,
    };
    let faults = FAULTS.into_iter().filter(|fault| !is_of_length(fault)).collect();
    combinations(faults).map(move |faults| with_faults(faults, arrangement))
}

fn with_faults(faults: Vec<Fault>, arrangement: Arrangement) -> Trial {
    let refusal = |fault: &Fault| Refusal { number: fault.number(), row: arrangement.row(*fault) };
    let answer = faults.first().map(refusal).map_or(Ok(GOOD_ROWS), Err);
    let mut merge = good();
    for fault in faults {
        put(&mut merge, fault, arrangement);
    }
    Trial { merge, answer }
}

const OFFSET: Position = [3, -2, 5];

/// The rows of both tables together: those at the places are shared, and each has one of its own.
const GOOD_ROWS: usize = 2 * PLACES + 2;

/// The second table's own row comes to the end of an axis.
fn good() -> Merge {
    let first = good_rows().chain([Row::new(Kind::CopperBulb, [20, 0, 0])]);
    let second = good_rows().chain([Row::new(Kind::CopperBulb, [30, 0, FARTHEST])]);
    Merge::new(table(first), table(second.map(|row| moved_row(&row, back(OFFSET)))), OFFSET)
}

fn put(merge: &mut Merge, fault: Fault, Arrangement([first, second]): Arrangement) {
    match fault {
        Fault::First(fault) => fault.put(&mut merge.first, first),
        Fault::Second(fault) => fault.put(&mut merge.second, second),
        Fault::Out => merge.out.bytes += 1,
        Fault::FarOffset => merge.offset[0] = 2_000_001,
        Fault::OffGround => merge.second[ROW_BYTES * 2 * PLACES + 8] += 1,
        Fault::Clash => merge.second[ROW_BYTES * TORCH + 13] = Facing::West.code(),
        Fault::TooManyTogether => {
            let [first, second] = &*MANY_MORE;
            merge.first.extend(first);
            merge.second.extend(second);
        }
    }
}

/// More than half as many rows as a table may have for each, past all others.
static MANY_MORE: LazyLock<[Vec<u8>; 2]> = LazyLock::new(|| [2_000, 3_000].map(|x| blocks(x..x + 600)));
