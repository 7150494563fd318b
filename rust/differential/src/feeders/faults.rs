//! Faults of every sort in one call, those of rows each at a row of its own.

use redstone::{Facing, Kind, Row};

use super::reading::{NO_ROW, WIDTH};
use super::{Call, List, Trial};
use crate::faults::{OfTable, PLACES, Places, combinations, good_rows};
use crate::generate::{BENCH_PROFILE_WITH_BULB, Case};
use crate::lent::unlike_entries;
use crate::refusals::Refusal;

/// The faults in the order in which they are tested for.
#[derive(Clone, Copy, Debug, Eq, PartialEq)]
enum Fault {
    Profile,
    Table(OfTable),
    NewLength,
    NewField,
    NewPosition,
    NoSuchRow,
    NewOverdriven,
    List,
}

const FAULTS: [Fault; 12] = [
    Fault::Profile,
    Fault::Table(OfTable::Ragged),
    Fault::Table(OfTable::Crowded),
    Fault::Table(OfTable::BadRow),
    Fault::Table(OfTable::Misplaced),
    Fault::Table(OfTable::Overdriven),
    Fault::NewLength,
    Fault::NewField,
    Fault::NewPosition,
    Fault::NoSuchRow,
    Fault::NewOverdriven,
    Fault::List,
];

/// The faults in the ways in which each can be put.
const WAYS: usize = 4;

impl Fault {
    fn is_of_new_row(self) -> bool {
        !matches!(self, Self::Profile | Self::Table(_) | Self::List)
    }

    /// Those of the new row have the row as it is given.
    fn refusal(self, places: Places, given: usize) -> Refusal {
        let (number, row) = match self {
            Self::Profile => (1, 0),
            Self::Table(fault) => (fault.number(), fault.row(places)),
            Self::NewLength | Self::NewField => (4, given),
            Self::NewPosition | Self::NoSuchRow => (5, given),
            Self::NewOverdriven => (10, given),
            Self::List => (7, 0),
        };
        Refusal { number, row }
    }

    fn put_in_case(self, case: &mut Case, places: Places) {
        match self {
            Self::Profile => case.profile[12] = 32,
            Self::Table(fault) => fault.put(&mut case.table, places),
            _ => {}
        }
    }

    /// The list has the right length for the table with its faults.
    fn put_in_call(self, call: &mut Call, rows: usize, way: usize) {
        if self == Self::List {
            let right = WIDTH * rows;
            call.list = unlike_entries([right + 1, right - 1, 0, 2 * right][way]);
        }
        let Some(replacement) = &mut call.replacement else { return };
        let new_row = &mut replacement.new_row;
        match self {
            Self::NewLength => new_row.resize([0, 31, 33, 64][way], 0),
            Self::NewField => new_row[[12, 24, 28, 31][way]] = [0, 4, 7, 1][way],
            Self::NewPosition => new_row[[0, 1, 4, 8][way]] += 1,
            Self::NoSuchRow => replacement.row = [rows, rows + 1, 40_000, 65_535][way] as u16,
            Self::NewOverdriven => new_row[16] = [16, 17, 200, 255][way],
            _ => {}
        }
    }
}

/// Every combination of faults in each way, those that are tested for later in earlier rows.
pub fn all_combinations() -> impl Iterator<Item = Trial> {
    (0..WAYS).flat_map(|way| {
        combinations(FAULTS.to_vec()).map(move |faults| with_faults(&faults, Places::BACKWARD, replace, way))
    })
}

/// Every combination of those at rows, of the new row and of the list, in every order of the rows.
pub fn in_every_order() -> impl Iterator<Item = Trial> {
    Places::all().zip((0..WAYS).cycle()).flat_map(|(places, way)| {
        combinations(FAULTS[3..].to_vec()).map(move |faults| with_faults(&faults, places, replace, way))
    })
}

/// Every combination of those that fall on a list that is built.
pub fn building() -> impl Iterator<Item = Trial> {
    let faults: Vec<_> = FAULTS.into_iter().filter(|fault| !fault.is_of_new_row()).collect();
    (0..WAYS).flat_map(move |way| {
        combinations(faults.clone()).map(move |faults| with_faults(&faults, Places::BACKWARD, build, way))
    })
}

fn with_faults(faults: &[Fault], places: Places, make: fn(&Case) -> (Call, List), way: usize) -> Trial {
    let mut case = good();
    faults.iter().for_each(|fault| fault.put_in_case(&mut case, places));
    let (mut call, written) = make(&case);
    // A row that has no bytes can have no other fault, so its length comes last.
    faults.iter().rev().for_each(|fault| fault.put_in_call(&mut call, case.rows(), way));
    let given = call.replacement.as_ref().map_or(0, |replacement| replacement.row.into());
    let refusal = faults.first().map(|fault| fault.refusal(places, given));
    Trial { case, call, answer: refusal.map_or(Ok(written), Err) }
}

/// The row that is replaced. After it are dust beside it and dust three cells from it.
const REPLACED: usize = 2 * PLACES;

fn comparator(level: u8) -> Row {
    Row::new(Kind::Comparator, [20, 0, 0]).with_facing(Facing::East).with_power_level(level)
}

/// After the rows that faults may be put at, a comparator and two dust, which nothing feeds.
fn good() -> Case {
    let dust = [21, 23].map(|x| Row::new(Kind::RedstoneWire, [x, 0, 0]));
    Case::new("faults", BENCH_PROFILE_WITH_BULB, good_rows().chain([comparator(7)]).chain(dust))
}

fn build(case: &Case) -> (Call, List) {
    (Call::build(case), vec![Some([NO_ROW; _]); REPLACED + 3])
}

fn replace(case: &Case) -> (Call, List) {
    let mut written = vec![None; REPLACED + 3];
    written[REPLACED..REPLACED + 2].fill(Some([NO_ROW; _]));
    (Call::replace(case, REPLACED, &comparator(3)), written)
}
