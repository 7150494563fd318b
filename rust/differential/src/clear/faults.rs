//! Faults of every sort in one call, those of rows each at a row of its own.

use redstone::{Kind, Row};

use super::{Clear, Trial};
use crate::faults::{OfTable, PLACES, Places, combinations, good_rows};
use crate::generate::{BENCH_PROFILE_WITH_BULB, Case};
use crate::refusals::Refusal;

/// The faults in the order in which they are tested for. After them come the lengths of what is lent to be written.
#[derive(Clone, Copy, Debug)]
enum Fault {
    Profile,
    Table(OfTable),
}

const OF_LENGTHS: [Fault; 3] =
    [Fault::Profile, Fault::Table(OfTable::Ragged), Fault::Table(OfTable::Crowded)];

const OF_ROWS: [Fault; 3] =
    [Fault::Table(OfTable::BadRow), Fault::Table(OfTable::Misplaced), Fault::Table(OfTable::Overdriven)];

impl Fault {
    fn refusal(self, places: Places) -> Refusal {
        match self {
            Self::Profile => Refusal { number: 1, row: 0 },
            Self::Table(fault) => Refusal { number: fault.number(), row: fault.row(places) },
        }
    }

    fn put(self, case: &mut Case, places: Places) {
        match self {
            Self::Profile => case.profile[12] = 32,
            Self::Table(fault) => fault.put(&mut case.table, places),
        }
    }
}

/// Every combination of faults, those that are tested for later in earlier rows.
pub fn all_combinations() -> impl Iterator<Item = Trial> {
    trials([OF_LENGTHS, OF_ROWS].concat(), Places::BACKWARD)
}

/// Every combination of those at rows, in every order.
pub fn in_every_order() -> impl Iterator<Item = Trial> {
    Places::all().flat_map(|places| trials(OF_ROWS.to_vec(), places))
}

/// By how much the lengths of the table and of the passes are wrong.
type Wrong = [isize; 2];

/// Each combination with both lengths right, one too many and one too few.
fn trials(faults: Vec<Fault>, places: Places) -> impl Iterator<Item = Trial> {
    let by = [0, 1, -1];
    combinations(faults).flat_map(move |faults| {
        let wrong = by.into_iter().flat_map(move |kept| by.map(|passes| [kept, passes]));
        wrong.map(move |wrong| with_faults(&faults, wrong, places))
    })
}

/// The right lengths are those for the table with its faults.
fn with_faults(faults: &[Fault], wrong: Wrong, places: Places) -> Trial {
    let mut case = good();
    faults.iter().for_each(|fault| fault.put(&mut case, places));
    let (kept, passes) = (case.table.len(), case.rows());
    let clear = Clear::of_lengths(kept.strict_add_signed(wrong[0]), passes.strict_add_signed(wrong[1]));
    let answer = match (faults.first(), wrong) {
        (Some(fault), _) => Err(fault.refusal(places)),
        (None, [0, 0]) => Ok(GOOD_PASSES.into()),
        (None, _) => Err(Refusal { number: 7, row: 0 }),
    };
    Trial { case, clear, answer }
}

/// The comparators and torches, which nothing holds, go. The bulb stays.
const GOOD_PASSES: [u16; 2 * PLACES + 1] = [1, 1, 1, 1, 1, 1, 0];

fn good() -> Case {
    let bulb = Row::new(Kind::CopperBulb, [20, 0, 0]);
    Case::new("faults", BENCH_PROFILE_WITH_BULB, good_rows().chain([bulb]))
}
