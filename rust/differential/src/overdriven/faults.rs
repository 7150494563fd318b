//! Faults of every sort in one call, each at a row of its own.

use std::sync::LazyLock;

use redstone::{Facing, Kind, MOST_ROWS, ROW_BYTES, Row, STATE_BYTES};

use super::Trial;
use crate::calls::{AnyCall, six_calls};
use crate::generate::{BENCH_PROFILE_WITH_BULB, Case};
use crate::refusals::Refusal;
use crate::settling::{Call, Input};

/// The faults in the order in which they are tested for.
#[derive(Clone, Copy, Debug, Eq, PartialEq)]
enum Fault {
    Profile,
    Ragged,
    Crowded,
    BadRow,
    Misplaced,
    OverdrivenRow,
    Length,
    BadDevice,
    OverdrivenDevice,
    Column,
    /// A limit that is too low, or a tick number past the last.
    Late,
}

const FAULTS: [Fault; 11] = [
    Fault::Profile,
    Fault::Ragged,
    Fault::Crowded,
    Fault::BadRow,
    Fault::Misplaced,
    Fault::OverdrivenRow,
    Fault::Length,
    Fault::BadDevice,
    Fault::OverdrivenDevice,
    Fault::Column,
    Fault::Late,
];

impl Fault {
    /// The number, if such a fault can fall on the call.
    fn number(self, call: &AnyCall) -> Option<u32> {
        match self {
            Self::Profile => Some(1),
            Self::Ragged => Some(2),
            Self::Crowded => Some(3),
            Self::BadRow => Some(4),
            Self::Misplaced => Some(5),
            Self::OverdrivenRow => Some(10),
            Self::Length | Self::BadDevice => call.reads_devices().then_some(6),
            Self::OverdrivenDevice => call.reads_devices().then_some(10),
            Self::Column => (!matches!(call, AnyCall::Redraw)).then_some(7),
            Self::Late => match call {
                AnyCall::Settling(Call { input: Input::Settle { .. }, .. }) => Some(8),
                AnyCall::Settling(Call { input: Input::Tick { .. }, .. }) => Some(9),
                _ => None,
            },
        }
    }

    fn has_level(self) -> bool {
        matches!(self, Self::OverdrivenRow | Self::OverdrivenDevice)
    }

    /// Whether it is one where overdriven rows and devices have this level.
    fn is_there(self, level: u8) -> bool {
        level > 15 || !self.has_level()
    }
}

/// The places for faults at rows. Each has a comparator and then a torch.
const PLACES: usize = 5;
const COMPARATOR: usize = 0;
const TORCH: usize = 1;

/// The faults that are at rows, each at the comparator or at the torch of its place.
const AT_ROWS: [(Fault, usize); PLACES] = [
    (Fault::BadRow, COMPARATOR),
    (Fault::Misplaced, TORCH),
    (Fault::OverdrivenRow, COMPARATOR),
    (Fault::BadDevice, TORCH),
    (Fault::OverdrivenDevice, COMPARATOR),
];

/// The place of each of these faults.
#[derive(Clone, Copy, Debug)]
pub struct Arrangement([usize; PLACES]);

impl Arrangement {
    /// Each fault before and after each other one, in every way, and all of them in one place. The first has those that are
    /// tested for later in earlier rows.
    pub fn all() -> impl Iterator<Item = Self> {
        let numbers = 0..PLACES.pow(PLACES as u32);
        let places = numbers.map(|number| [0, 1, 2, 3, 4].map(|at| number / PLACES.pow(at) % PLACES));
        let apart = |places: &[usize; PLACES]| (0..PLACES).all(|place| places.contains(&place));
        let together = (0..PLACES).map(|place| [place; PLACES]);
        places.filter(apart).chain(together).map(Self)
    }

    /// Those that differ in the order of the faults of a table: the faults of devices come first.
    pub fn of_tables() -> impl Iterator<Item = Self> {
        Self::all().filter(|Self(places)| places[3..] == [0, 1])
    }

    /// The row of a fault, and 0 for those that are at none.
    fn row(self, fault: Fault) -> usize {
        let at = AT_ROWS.iter().position(|(other, _)| *other == fault);
        at.map_or(0, |at| 2 * self.0[at] + AT_ROWS[at].1)
    }
}

/// The six calls with every combination of faults, where overdriven rows and devices have this level.
pub fn all_combinations(arrangement: Arrangement, level: u8) -> impl Iterator<Item = Trial> {
    combinations(&FAULTS, |_| true, arrangement, level)
}

/// Those of them in which something has the level.
pub fn with_the_level(arrangement: Arrangement, level: u8) -> impl Iterator<Item = Trial> {
    combinations(&FAULTS, |faults| faults.iter().any(|fault| fault.has_level()), arrangement, level)
}

/// Those of them in which the profile is good and so is the table's length.
pub fn of_rows_and_devices(arrangement: Arrangement, level: u8) -> impl Iterator<Item = Trial> {
    combinations(&FAULTS[3..], |_| true, arrangement, level)
}

fn combinations(
    faults: &[Fault],
    is_taken: fn(&[Fault]) -> bool,
    arrangement: Arrangement,
    level: u8,
) -> impl Iterator<Item = Trial> {
    let good = good_table();
    let calls = six_calls(good.rows(), &[0; 2 * PLACES], &good_state());
    calls.into_iter().flat_map(move |call| {
        let possible: Vec<_> = faults.iter().copied().filter(|fault| fault.number(&call).is_some()).collect();
        let good = good.clone();
        let chosen = (0..1 << possible.len()).map(move |combination| chosen(&possible, combination));
        let chosen = chosen.filter(move |faults| is_taken(faults));
        chosen.map(move |faults| with_faults(good.clone(), call.clone(), &faults, arrangement, level))
    })
}

/// The faults whose bits are set.
fn chosen(faults: &[Fault], combination: u32) -> Vec<Fault> {
    let bits = faults.iter().enumerate().filter(|(at, _)| combination >> at & 1 == 1);
    bits.map(|(_, fault)| *fault).collect()
}

fn with_faults(case: Case, call: AnyCall, faults: &[Fault], arrangement: Arrangement, level: u8) -> Trial {
    let first = faults.iter().find(|fault| fault.is_there(level));
    let refusal = first.map(|fault| Refusal {
        number: fault.number(&call).expect("a fault that can fall on the call"),
        row: arrangement.row(*fault),
    });
    let mut trial = Trial { case, call, refusal };
    for fault in faults {
        put(&mut trial, *fault, arrangement.row(*fault), level);
    }
    trial
}

fn good_table() -> Case {
    let place = |x| {
        let comparator = Row::new(Kind::Comparator, [x, 0, 0]).with_facing(Facing::East).with_power_level(7);
        [comparator, Row::new(Kind::RedstoneTorch, [x, 1, 0])]
    };
    Case::new("faults", BENCH_PROFILE_WITH_BULB, (0..PLACES as i32).flat_map(place))
}

/// Each torch has a toggle six ticks ago, by which a byte of its state is above 15.
fn good_state() -> Vec<u8> {
    let mut state = vec![0; STATE_BYTES * 2 * PLACES];
    state.iter_mut().skip(STATE_BYTES * TORCH + 4).step_by(2 * STATE_BYTES).for_each(|byte| *byte = 1 << 6);
    state
}

fn put(Trial { case, call, .. }: &mut Trial, fault: Fault, row: usize, level: u8) {
    let at = ROW_BYTES * row;
    match fault {
        Fault::Profile => case.profile[12] = 32,
        Fault::Ragged => case.table.push(0),
        Fault::Crowded => case.table.extend(&*MANY_ROWS),
        Fault::BadRow => case.table[at + 31] = 1,
        Fault::Misplaced => case.table.copy_within(at - ROW_BYTES..at - ROW_BYTES + 12, at),
        Fault::OverdrivenRow => case.table[at + 16] = level,
        Fault::Length => call.devices().0.push(0),
        Fault::BadDevice => call.set_device(row, 2),
        Fault::OverdrivenDevice => call.set_device(row, level),
        Fault::Column => lengthen(call),
        Fault::Late => come_late(call),
    }
}

/// As many rows as a table may have, past those of the good one.
static MANY_ROWS: LazyLock<Vec<u8>> =
    LazyLock::new(|| redstone::table((0..MOST_ROWS as i32).map(|x| Row::new(Kind::Solid, [100 + x, 0, 0]))));

/// Gives an output column an entry too many.
fn lengthen(call: &mut AnyCall) {
    match call {
        AnyCall::Settling(Call { columns, .. }) => columns[1] += 1,
        AnyCall::Supports { entries } => *entries += 1,
        AnyCall::Redraw => unreachable!("the redraw has no output column"),
    }
}

fn come_late(call: &mut AnyCall) {
    match call {
        AnyCall::Settling(Call { input: Input::Settle { limit, .. }, .. }) => *limit = 0,
        AnyCall::Settling(Call { input: Input::Tick { tick, .. }, .. }) => *tick = u32::MAX,
        other => unreachable!("{other:?} has no limit and no tick"),
    }
}
