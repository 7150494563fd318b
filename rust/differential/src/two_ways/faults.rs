//! Calls that are refused, by hand: faults of every sort in one call, device columns and columns of every length, and every byte
//! of a small call at every value.

use redstone::{Arm, Facing, Kind, Row, Shape};

use crate::compare::Answer;
use crate::damage;
use crate::faults::{OfTable, PLACES, Places, TORCH, combinations, good_rows};
use crate::generate::{BENCH_PROFILE_WITH_BULB, Case};
use crate::refusals::Refusal;
use crate::settling::{Call, Input};

use super::settle;

/// A call, and what it is refused with, if with anything.
#[derive(Clone, Debug)]
pub struct Refused {
    pub case: Case,
    pub call: Call,
    pub refusal: Option<Refusal>,
}

impl Refused {
    /// The answer by hand, if the call is refused: every buffer comes back as it was lent.
    pub fn expected(&self) -> Option<Answer> {
        self.refusal.map(|refusal| self.call.refused(&self.case, refusal.code()))
    }
}

/// The faults in the order in which they are tested for.
#[derive(Clone, Copy, Debug, Eq, PartialEq)]
enum Fault {
    Profile,
    Table(OfTable),
    Length,
    BadDevice,
    OverdrivenDevice,
    Column,
    Limit,
}

const FAULTS: [Fault; 11] = [
    Fault::Profile,
    Fault::Table(OfTable::Ragged),
    Fault::Table(OfTable::Crowded),
    Fault::Table(OfTable::BadRow),
    Fault::Table(OfTable::Misplaced),
    Fault::Table(OfTable::Overdriven),
    Fault::Length,
    Fault::BadDevice,
    Fault::OverdrivenDevice,
    Fault::Column,
    Fault::Limit,
];

/// The ways in which each can be put.
const WAYS: usize = 6;

/// The rows of the devices at fault, after those of the table's faults.
const BAD_DEVICE: usize = 2 * (PLACES - 1) + TORCH;
const OVERDRIVEN_DEVICE: usize = 2;

impl Fault {
    fn refusal(self, places: Places) -> Refusal {
        let (number, row) = match self {
            Self::Profile => (1, 0),
            Self::Table(fault) => (fault.number(), fault.row(places)),
            Self::Length => (6, 0),
            Self::BadDevice => (6, BAD_DEVICE),
            Self::OverdrivenDevice => (10, OVERDRIVEN_DEVICE),
            Self::Column => (7, 0),
            Self::Limit => (8, 0),
        };
        Refusal { number, row }
    }

    fn put_in_case(self, case: &mut Case, places: Places) {
        match self {
            Self::Profile => case.profile[12] = 32,
            Self::Table(fault) => fault.put(&mut case.table, places),
            _ => {}
        }
    }

    fn put_in_call(self, call: &mut Call, way: usize) {
        let Call { input: Input::Settle { devices, limit }, columns } = call else { return };
        match self {
            Self::Length => {
                let length = devices.len();
                devices.resize([length + 1, length - 1, 0, 2 * length, length + 16, length + 1][way], 0);
            }
            Self::BadDevice => devices[BAD_DEVICE] = [2, 3, 15, 16, 128, 255][way],
            Self::OverdrivenDevice => devices[OVERDRIVEN_DEVICE] = [16, 17, 31, 128, 200, 255][way],
            Self::Column => columns[way % 3] = [0, columns[0] + 1][way / 3],
            Self::Limit => *limit = 0,
            _ => {}
        }
    }
}

/// Every combination of faults in each way, those that are tested for later in earlier rows.
pub fn all_combinations() -> impl Iterator<Item = Refused> {
    (0..WAYS).flat_map(|way| {
        combinations(FAULTS.to_vec()).map(move |faults| with_faults(&faults, Places::BACKWARD, way))
    })
}

/// Every combination of those at rows and of the devices, in every order of the rows.
pub fn in_every_order() -> impl Iterator<Item = Refused> {
    Places::all().zip((0..WAYS).cycle()).flat_map(|(places, way)| {
        combinations(FAULTS[3..].to_vec()).map(move |faults| with_faults(&faults, places, way))
    })
}

fn good() -> Case {
    Case::new("faults", BENCH_PROFILE_WITH_BULB, good_rows())
}

fn with_faults(faults: &[Fault], places: Places, way: usize) -> Refused {
    let mut case = good();
    faults.iter().for_each(|fault| fault.put_in_case(&mut case, places));
    let mut call = settle(&case, &vec![0; case.rows()], 20);
    // A column without entries can have no other fault, so its length comes last.
    faults.iter().rev().for_each(|fault| fault.put_in_call(&mut call, way));
    Refused { case, call, refusal: faults.first().map(|fault| fault.refusal(places)) }
}

/// Lines of some rows with device columns, and with each of the three columns, of lengths about the right one and of others.
pub fn lengths() -> impl Iterator<Item = Refused> {
    [0, 1, 2, 5, 1_023, 1_024].into_iter().flat_map(|rows: usize| {
        let blocks = (0..rows as i32).map(|x| Row::new(Kind::Solid, [x, 0, 0]));
        let case = Case::new("lengths", BENCH_PROFILE_WITH_BULB, blocks);
        let lengths =
            (rows.saturating_sub(9)..=rows + 9).chain([0, 16 * rows, 32 * rows, 256 + rows, 65_536 + rows]);
        let buffers = lengths.flat_map(|length| (0..4).map(move |buffer| (buffer, length)));
        buffers.map(move |(buffer, length)| with_length(&case, buffer, length)).collect::<Vec<_>>()
    })
}

/// A call with another length of its device column, or of one of the three columns.
fn with_length(case: &Case, buffer: usize, length: usize) -> Refused {
    let mut call = settle(case, &vec![0; case.rows()], 20);
    match (buffer.checked_sub(1), &mut call.input) {
        (Some(column), _) => call.columns[column] = length,
        (None, Input::Settle { devices, .. }) => devices.resize(length, 0),
        (None, other) => panic!("{other:?} has no device column"),
    }
    let number = if buffer == 0 { 6 } else { 7 };
    let refusal = (length != case.rows()).then_some(Refusal { number, row: 0 });
    Refused { case: case.clone(), call, refusal }
}

/// Every limit about the four rounds of test 3 and about the ends of its bits, alone and with a column of a wrong length.
pub fn limits_beside_faults() -> impl Iterator<Item = Refused> {
    let limits =
        (0..=20).chain([127, 128, 255, 256, 257, 65_535, 65_536, 65_537, 65_540, u32::MAX - 1, u32::MAX]);
    limits.flat_map(|limit| {
        [0, 1].map(|more| {
            let case = Case::line("limits", 2);
            let mut call = settle(&case, &vec![0; case.rows()], limit);
            call.columns[2] += more;
            let late = (limit < 4).then_some(Refusal { number: 8, row: 0 });
            let refusal = if more > 0 { Some(Refusal { number: 7, row: 0 }) } else { late };
            Refused { case, call, refusal }
        })
    })
}

/// Every device byte of every kind.
pub fn device_bytes() -> impl Iterator<Item = Refused> {
    let bytes = Kind::ALL.iter().flat_map(|kind| (0..=u8::MAX).map(|byte| (*kind, byte)));
    bytes.map(|(kind, byte)| {
        let rows = [Row::new(Kind::Solid, [-5, 0, 0]), Row::new(kind, [0; 3]).with_facing(Facing::East)];
        let case = Case::new("device bytes", BENCH_PROFILE_WITH_BULB, rows);
        let number = match (kind, byte) {
            (_, 0) | (Kind::Repeater | Kind::RedstoneTorch, 1) | (Kind::Comparator, ..=15) => None,
            (Kind::Comparator, _) => Some(10),
            _ => Some(6),
        };
        let call = settle(&case, &[0, byte], 20);
        Refused { case, call, refusal: number.map(|number| Refusal { number, row: 1 }) }
    })
}

/// Dust beside each thing that gives it power, of which every field is given.
fn small_table() -> Case {
    let given = |kind, at| {
        Row::new(kind, at)
            .with_powered(true)
            .with_power_level(9)
            .with_delay(1)
            .with_support([0, -1, 0])
            .with_arms([None, Some(Arm::Up), Some(Arm::None), Some(Arm::Side)])
    };
    let rows = [
        given(Kind::Solid, [0, 0, 0]).with_shape(Shape::DoubleSlab),
        given(Kind::Lever, [0, 1, 0]),
        given(Kind::RedstoneWire, [1, 0, 0]),
        given(Kind::Comparator, [1, 0, -1]).with_facing(Facing::South).with_subtract(true),
        given(Kind::RedstoneWire, [2, 0, 0]),
    ];
    Case::new("single bytes", BENCH_PROFILE_WITH_BULB, rows).with_torch_charging(true)
}

/// Every byte of a small table, of its profile and of its device column set to every value.
pub fn single_bytes() -> impl Iterator<Item = (Case, Call)> {
    let small = small_table();
    // The comparator's is the third row.
    let devices = [0, 0, 9, 0, 0];
    let changed = damage::single_bytes(small.clone()).map(move |case| {
        let call = settle(&case, &devices, 20);
        (case, call)
    });
    let places = (0..devices.len()).flat_map(|row| (0..=u8::MAX).map(move |byte| (row, byte)));
    let of_devices = places.map(move |(row, byte)| {
        let mut devices = devices;
        devices[row] = byte;
        (small.clone(), settle(&small, &devices, 20))
    });
    changed.chain(of_devices)
}
