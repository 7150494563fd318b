//! Faults of every sort in one call, those of rows each at a row of its own.

use redstone::{Facing, Kind, Row, STATE_BYTES};

use super::{Switch, Trial, stored};
use crate::faults::{OfTable, PLACES, Places, TORCH, combinations, good_rows};
use crate::generate::{BENCH_PROFILE_WITH_BULB, Case};
use crate::refusals::Refusal;
use crate::table::Position;

/// The faults in the order in which they are tested for.
#[derive(Clone, Copy, Debug)]
enum Fault {
    Profile,
    Table(OfTable),
    StateLength,
    BadDevice,
    OverdrivenDevice,
    Column,
}

const FAULTS: [Fault; 10] = [
    Fault::Profile,
    Fault::Table(OfTable::Ragged),
    Fault::Table(OfTable::Crowded),
    Fault::Table(OfTable::BadRow),
    Fault::Table(OfTable::Misplaced),
    Fault::Table(OfTable::Overdriven),
    Fault::StateLength,
    Fault::BadDevice,
    Fault::OverdrivenDevice,
    Fault::Column,
];

/// The rows of the torch with a bad device and of the comparator with an overdriven one.
const BAD_DEVICE: usize = 2 + TORCH;
const OVERDRIVEN_DEVICE: usize = 0;

impl Fault {
    fn refusal(self, places: Places) -> Refusal {
        let (number, row) = match self {
            Self::Profile => (1, 0),
            Self::Table(fault) => (fault.number(), fault.row(places)),
            Self::StateLength => (6, 0),
            Self::BadDevice => (6, BAD_DEVICE),
            Self::OverdrivenDevice => (10, OVERDRIVEN_DEVICE),
            Self::Column => (7, 0),
        };
        Refusal { number, row }
    }

    /// Whether it falls on the redraw, too.
    fn is_of_case(self) -> bool {
        matches!(self, Self::Profile | Self::Table(_))
    }

    /// The state and the columns have the right lengths for the table with its faults.
    fn put_in_case(self, case: &mut Case, places: Places) {
        match self {
            Self::Profile => case.profile[12] = 32,
            Self::Table(fault) => fault.put(&mut case.table, places),
            _ => {}
        }
    }

    fn put_in_switch(self, switch: &mut Switch) {
        match self {
            Self::StateLength => switch.state.push(0),
            Self::BadDevice => switch.state[STATE_BYTES * BAD_DEVICE] = 2,
            Self::OverdrivenDevice => switch.state[STATE_BYTES * OVERDRIVEN_DEVICE] = 200,
            Self::Column => switch.columns[1] += 1,
            _ => {}
        }
    }
}

/// Every combination of faults, those that are tested for later in earlier rows.
pub fn all_combinations() -> impl Iterator<Item = Trial> {
    trials(&FAULTS, Places::BACKWARD)
}

/// Every combination of those at rows and of the switch, in every order of the rows.
pub fn in_every_order() -> impl Iterator<Item = Trial> {
    Places::all().flat_map(|places| trials(&FAULTS[3..], places))
}

/// At a dust with stored arms, at a lever and at nothing.
fn trials(faults: &[Fault], places: Places) -> impl Iterator<Item = Trial> + use<> {
    combinations(faults.to_vec()).flat_map(move |faults| AT.map(|at| with_faults(&faults, places, at)))
}

const DUST: usize = 2 * PLACES;

/// Where it is switched, and the row there.
const AT: [(Position, Option<usize>); 3] =
    [([20, 0, 0], Some(DUST)), ([21, 0, 0], Some(DUST + 1)), ([20, 1, 0], None)];

fn with_faults(faults: &[Fault], places: Places, (at, switched): (Position, Option<usize>)) -> Trial {
    let mut case = good();
    faults.iter().for_each(|fault| fault.put_in_case(&mut case, places));
    let mut switch = Switch::of(&case, at, 1);
    faults.iter().for_each(|fault| fault.put_in_switch(&mut switch));
    let refusal = |fault: &Fault| fault.refusal(places);
    let of_case = faults.iter().find(|fault| fault.is_of_case()).map(refusal);
    let of_any = faults.first().map(refusal);
    let drawn = stored("-S-S").map(|arms| (DUST, arms)).into_iter().collect();
    Trial { case, switch, drawn: of_case.map_or(Ok(drawn), Err), switched: of_any.map_or(Ok(switched), Err) }
}

/// After the rows that faults may be put at, a dust whose arms are wrong, and a lever.
fn good() -> Case {
    let dust = Row::new(Kind::RedstoneWire, AT[0].0).with_arms([None; 4]);
    let lever = Row::new(Kind::Lever, AT[1].0).with_facing(Facing::Up);
    Case::new("faults", BENCH_PROFILE_WITH_BULB, good_rows().chain([dust, lever]))
}
