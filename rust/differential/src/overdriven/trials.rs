//! Levels and device bytes of every value on every kind, and several that are overdriven.

use redstone::{Facing, Kind, ROW_BYTES, Row, STATE_BYTES};

use super::Trial;
use crate::calls::{AnyCall, six_calls, six_calls_on};
use crate::generate::{BENCH_PROFILE_WITH_BULB, Case};
use crate::refusals::Refusal;
use crate::settling::{Call, Input};

/// The number of the row that is tried.
const TRIED: usize = 1;

/// A solid block, after it a block of a kind that is powered and faces East, and beside that a dust.
fn table_of(kind: Kind) -> Case {
    let rows = [
        Row::new(Kind::Solid, [-5, 0, 0]),
        Row::new(kind, [0; 3]).with_facing(Facing::East).with_powered(true),
        Row::new(Kind::RedstoneWire, [1, 0, 0]),
    ];
    Case::new("every kind", BENCH_PROFILE_WITH_BULB, rows)
}

fn refused(number: u32) -> Option<Refusal> {
    Some(Refusal { number, row: TRIED })
}

/// A level of a kind, given or not.
#[derive(Clone, Copy, Debug)]
pub struct Level {
    kind: Kind,
    is_given: bool,
    value: u8,
}

impl Level {
    pub fn all() -> impl Iterator<Item = Self> {
        let kinds = Kind::ALL.iter().flat_map(|kind| [false, true].map(|is_given| (*kind, is_given)));
        kinds.flat_map(|(kind, is_given)| (0..=u8::MAX).map(move |value| Self { kind, is_given, value }))
    }

    /// A value that is not given is a fault of the layout, and one above 15 is a fault of a comparator alone.
    pub fn refusal(self) -> Option<Refusal> {
        match self {
            Self { is_given: false, value: 1.., .. } => refused(4),
            Self { kind: Kind::Comparator, is_given: true, value: 16.. } => refused(10),
            _ => None,
        }
    }

    /// What the block emits at the start: 15 where nothing is given, and no more than 15.
    pub fn emitted(self) -> u8 {
        let level = if self.is_given { self.value } else { 15 };
        match self.kind {
            Kind::Lever | Kind::Button | Kind::PressurePlate | Kind::Comparator => level.min(15),
            Kind::RedstoneTorch | Kind::Repeater | Kind::RedstoneBlock => 15,
            _ => 0,
        }
    }

    pub fn case(self) -> Case {
        let mut case = table_of(self.kind);
        case.table[TRIED * ROW_BYTES + 15] = self.is_given.into();
        case.table[TRIED * ROW_BYTES + 16] = self.value;
        case
    }
}

/// The six calls on every level of every kind, given and not.
pub fn levels_of_kinds() -> impl Iterator<Item = Trial> {
    Level::all().flat_map(|level| {
        let case = level.case();
        six_calls_on(&case).map(|call| Trial { case: case.clone(), call, refusal: level.refusal() })
    })
}

/// Every device byte of every kind, in a column and in states, one of which is not ticked.
pub fn device_bytes() -> impl Iterator<Item = Trial> {
    let kinds = Kind::ALL.iter().flat_map(|kind| (0..=u8::MAX).map(|byte| (*kind, byte)));
    kinds.flat_map(|(kind, byte)| {
        let case = table_of(kind);
        let refusal = match (kind, byte) {
            (_, 0) | (Kind::Repeater | Kind::RedstoneTorch, 1) | (Kind::Comparator, ..=15) => None,
            (Kind::Comparator, _) => refused(10),
            _ => refused(6),
        };
        let calls = calls_with_device(case.rows(), kind, byte);
        calls.map(move |call| Trial { case: case.clone(), call, refusal })
    })
}

fn calls_with_device(rows: usize, kind: Kind, byte: u8) -> impl Iterator<Item = AnyCall> {
    let mut devices = vec![0; rows];
    devices[TRIED] = byte;
    let mut state = vec![0; STATE_BYTES * rows];
    state[STATE_BYTES * TRIED] = byte;
    // A repeater's queue goes with its byte.
    state[STATE_BYTES * TRIED + 1] = if kind == Kind::Repeater { byte.min(1) } else { 0 };
    let no_tick = Input::Tick { state: state.clone(), tick: 0, ticks: 0 };
    let no_tick = AnyCall::Settling(Call { input: no_tick, columns: [rows; 3] });
    six_calls(rows, &devices, &state).into_iter().filter(AnyCall::reads_devices).chain([no_tick])
}

const COMPARATORS: usize = 5;

/// Comparators side by side, after a solid block.
fn comparators() -> Case {
    let comparators = (0..COMPARATORS as i32).map(|x| Row::new(Kind::Comparator, [x, 0, 0]));
    let rows = [Row::new(Kind::Solid, [-5, 0, 0])].into_iter().chain(comparators);
    Case::new("several comparators", BENCH_PROFILE_WITH_BULB, rows)
}

/// The rows of some comparators, each with a level above 15.
type Overdriven = Vec<(usize, u8)>;

/// Every choice of the comparators, with levels that rise from row to row and with such that fall.
fn choices() -> impl Iterator<Item = Overdriven> {
    let chosen = |choice: usize| (1..=COMPARATORS).filter(move |row| choice >> (row - 1) & 1 == 1);
    let levels: [fn(usize) -> u8; 2] = [|row| 15 + row as u8, |row| u8::MAX - row as u8];
    (0..1 << COMPARATORS)
        .flat_map(move |choice| levels.map(|level| chosen(choice).map(|row| (row, level(row))).collect()))
}

/// The first row counts.
fn first_refused(overdriven: &Overdriven) -> Option<Refusal> {
    overdriven.first().map(|(row, _)| Refusal { number: 10, row: *row })
}

pub fn several_rows() -> impl Iterator<Item = Trial> {
    choices().flat_map(|overdriven| {
        let mut case = comparators();
        for (row, level) in &overdriven {
            case.table[ROW_BYTES * row + 15] = 1;
            case.table[ROW_BYTES * row + 16] = *level;
        }
        let refusal = first_refused(&overdriven);
        six_calls_on(&case).map(|call| Trial { case: case.clone(), call, refusal })
    })
}

pub fn several_devices() -> impl Iterator<Item = Trial> {
    choices().flat_map(|overdriven| {
        let case = comparators();
        let calls = six_calls_on(&case).into_iter().filter(AnyCall::reads_devices);
        calls.map(move |mut call| {
            overdriven.iter().for_each(|(row, level)| call.set_device(*row, *level));
            Trial { case: case.clone(), call, refusal: first_refused(&overdriven) }
        })
    })
}
