//! Inputs at the ends of what documents 01 and 02 allow and one past them, each for every call.

use redstone::{Arm, FARTHEST, Facing, Kind, MOST_ROWS, ROW_BYTES, Row, STATE_BYTES};

use super::queries::fresh_devices;
use crate::generate::{BENCH_PROFILE_WITH_BULB, BULB, Case, TORCH};
use crate::oracle::Oracle;
use crate::settling::{Call, Input, LIMIT};
use crate::table::HORIZONTAL;

/// A case and a call on it.
type Asked = (Case, Call);

fn case(sort: &'static str, rows: impl IntoIterator<Item = Row>) -> Case {
    Case::new(sort, BENCH_PROFILE_WITH_BULB, rows)
}

/// A small table with a bulb, and one whose profile has no byte for it.
fn smalls(sort: &'static str) -> [Case; 2] {
    let with_bulb = small(sort, Kind::CopperBulb);
    let mut without = small(sort, Kind::RedstoneLamp);
    without.profile.truncate(BULB);
    [with_bulb, without]
}

/// A lever on a lamp feeds a dust on such a block through a repeater and a comparator that has a level, and a torch that
/// hangs on the dust charges the block over it.
fn small(sort: &'static str, under_the_dust: Kind) -> Case {
    let lever = Row::new(Kind::Lever, [0, 1, 0]).with_support([0, -1, 0]);
    let east = |x, kind| Row::new(kind, [x, 1, 0]).with_facing(Facing::East);
    let arms = [None, Some(Arm::Side), Some(Arm::None), Some(Arm::Up)];
    let rows = [
        Row::new(Kind::RedstoneLamp, [0, 0, 0]),
        lever.with_powered(true).with_power_level(9),
        east(1, Kind::Repeater).with_delay(3),
        east(2, Kind::Comparator).with_subtract(true).with_power_level(12),
        Row::new(under_the_dust, [3, 0, 0]).with_powered(true),
        Row::new(Kind::RedstoneWire, [3, 1, 0]).with_arms(arms),
        Row::new(Kind::RedstoneTorch, [3, 1, 1]).with_support([0, 0, -1]),
        Row::new(Kind::Solid, [3, 2, 1]),
    ];
    case(sort, rows).with_torch_charging(true)
}

/// The numbers of its comparator's row and of its last.
const COMPARATOR: usize = 3;
const LAST: usize = 7;

/// A line of as many blocks, of every kind.
fn line(sort: &'static str, rows: usize) -> Case {
    let kinds = Kind::ALL.iter().cycle();
    case(sort, (0..).zip(kinds).map(|(x, kind)| Row::new(*kind, [x, 0, 0])).take(rows))
}

/// Every call on a case, with buffers of the right lengths and, if the case is accepted, the fresh devices.
fn calls(case: &Case) -> Vec<Call> {
    let rows = case.rows();
    let oracle = Oracle::new(case);
    let mut devices = fresh_devices(&oracle);
    devices.resize(rows, 0);
    let mut state = vec![0; STATE_BYTES * rows];
    if oracle.refusal.is_ok() {
        oracle.fresh(&mut state);
    }
    let inputs = [
        Input::Fresh { state_bytes: STATE_BYTES * rows },
        Input::Settle { devices, limit: LIMIT },
        Input::Tick { state: state.clone(), tick: 5, ticks: 2 },
        Input::Switch { state, at: [0, 1, 0], powered: false },
    ];
    inputs.into_iter().map(|input| Call { input, columns: [rows; 3] }).collect()
}

fn each_call(case: Case) -> impl Iterator<Item = Asked> {
    calls(&case).into_iter().map(move |call| (case.clone(), call))
}

fn each_small_call(sort: &'static str) -> impl Iterator<Item = Asked> {
    smalls(sort).into_iter().flat_map(each_call)
}

pub fn edges() -> impl Iterator<Item = Asked> {
    many_rows()
        .chain(coordinates())
        .chain(lengths())
        .chain(pairs_of_faults())
        .chain(limits())
        .chain(clock())
        .chain(states())
        .chain(locks())
}

fn many_rows() -> impl Iterator<Item = Asked> {
    let rows = [MOST_ROWS - 1, MOST_ROWS, MOST_ROWS + 1, 2 * MOST_ROWS];
    rows.into_iter().flat_map(|rows| each_call(line("rows at the most or above", rows)))
}

fn coordinates() -> impl Iterator<Item = Asked> {
    let values = [FARTHEST, FARTHEST + 1, -FARTHEST, -FARTHEST - 1, i32::MAX, i32::MIN];
    let places = [0, 4, 8].into_iter().flat_map(|axis| [axis, LAST * ROW_BYTES + axis]);
    places.flat_map(move |at| values.map(|value| (at, value))).flat_map(|(at, value)| {
        smalls("coordinate at or past the end").into_iter().flat_map(move |mut case| {
            case.table[at..at + 4].copy_from_slice(&value.to_le_bytes());
            each_call(case)
        })
    })
}

/// Each buffer in each of some wrong lengths.
fn lengths() -> impl Iterator<Item = Asked> {
    let changes = [-33, -32, -31, -17, -16, -15, -1, 1, 15, 16, 17, 31, 32, 33, isize::MIN];
    let wrong = (0..6).flat_map(move |buffer| changes.map(|change| (buffer, change)));
    wrong.flat_map(|(buffer, change)| {
        each_small_call("length").map(move |mut asked| {
            resize(&mut asked, buffer, change);
            asked
        })
    })
}

/// Makes a buffer longer or shorter: the profile, the table, the state or device column, signal, weak or strong.
fn resize(asked: &mut Asked, buffer: usize, change: isize) {
    let changed = |length: usize| length.saturating_add_signed(change);
    if let Some(bytes) = read(asked, buffer) {
        bytes.resize(changed(bytes.len()), 0);
        return;
    }
    let (_, Call { input, columns }) = asked;
    let length = match input {
        Input::Fresh { state_bytes } if buffer == 2 => state_bytes,
        _ => &mut columns[buffer - 3],
    };
    *length = changed(*length);
}

/// The buffer, if the call reads it.
fn read((case, call): &mut Asked, buffer: usize) -> Option<&mut Vec<u8>> {
    match (buffer, &mut call.input) {
        (0, _) => Some(&mut case.profile),
        (1, _) => Some(&mut case.table),
        (2, Input::Settle { devices: bytes, .. })
        | (2, Input::Tick { state: bytes, .. })
        | (2, Input::Switch { state: bytes, .. }) => Some(bytes),
        _ => None,
    }
}

/// Each fault alone or with another, of which the first that document 01 tests for counts.
fn pairs_of_faults() -> impl Iterator<Item = Asked> {
    let pairs = FAULTS.into_iter().flat_map(|one| FAULTS.map(|other| (one, other)));
    pairs.flat_map(|(one, other)| {
        each_small_call("two faults").map(move |mut asked| {
            one(&mut asked);
            other(&mut asked);
            asked
        })
    })
}

const FAULTS: [fn(&mut Asked); 27] = [
    |asked| resize(asked, 0, -1),
    |asked| resize(asked, 0, 1),
    |asked| resize(asked, 0, -2),
    |asked| resize(asked, 0, 2),
    |(case, _)| set(&mut case.profile, 0, 1),
    |(case, _)| set(&mut case.profile, 12, 32),
    |(case, _)| set(&mut case.profile, TORCH, 64),
    |(case, _)| set(&mut case.profile, BULB, 32),
    |asked| resize(asked, 1, -1),
    |asked| resize(asked, 1, 1),
    |(case, _)| case.table = line("", MOST_ROWS + 1).table,
    |(case, _)| set(&mut case.table, 12, 0),
    |(case, _)| set(&mut case.table, 12, 14),
    |(case, _)| set(&mut case.table, LAST * ROW_BYTES + 31, 1),
    |(case, _)| case.table.copy_within(..12, LAST * ROW_BYTES),
    |(case, _)| case.table.copy_within(2 * ROW_BYTES.., ROW_BYTES),
    |(case, _)| set(&mut case.table, COMPARATOR * ROW_BYTES + 16, 16),
    |asked| resize(asked, 2, -1),
    |asked| resize(asked, 2, 1),
    |(_, call)| damage_state(&mut call.input, 0),
    |(_, call)| damage_state(&mut call.input, LAST),
    |(_, call)| overdrive(&mut call.input, 16),
    |(_, call)| overdrive(&mut call.input, 255),
    |asked| resize(asked, 3, -1),
    |asked| resize(asked, 4, 1),
    |asked| resize(asked, 5, -1),
    |(_, call)| match &mut call.input {
        Input::Settle { limit, .. } => *limit = 1,
        Input::Tick { tick, .. } => *tick = u32::MAX - 1,
        _ => {}
    },
];

fn set(bytes: &mut [u8], at: usize, value: u8) {
    if let Some(byte) = bytes.get_mut(at) {
        *byte = value;
    }
}

fn damage_state(input: &mut Input, row: usize) {
    match input {
        Input::Fresh { .. } => {}
        Input::Settle { devices, .. } => set(devices, row, 2),
        Input::Tick { state, .. } | Input::Switch { state, .. } => set(state, STATE_BYTES * row + 15, 1),
    }
}

fn overdrive(input: &mut Input, level: u8) {
    if let Some((bytes, width)) = input.devices() {
        set(bytes, width * COMPARATOR, level);
    }
}

/// Test 4 of the book at limits about its seventeen rounds and at the highest.
fn limits() -> impl Iterator<Item = Asked> {
    let case = Case::line("fifteen dust", 15);
    let limits = (0..=20).chain([127, 128, 129, 65_535, 65_536, u32::MAX - 1, u32::MAX]);
    limits.map(move |limit| {
        let input = Input::Settle { devices: vec![0; case.rows()], limit };
        (case.clone(), Call { input, columns: [case.rows(); 3] })
    })
}

fn clock() -> impl Iterator<Item = Asked> {
    let last = u32::MAX;
    let near = [0, 1, 2, 3]
        .into_iter()
        .flat_map(move |ticks| [0, 1, last - 3, last - 2, last - 1, last].map(|tick| (tick, ticks)));
    let far = [(1, last), (2, last - 1), (last, last), (last / 2 + 1, last / 2 + 1)];
    near.chain(far).flat_map(|(tick, ticks)| {
        smalls("clock's end").map(|case| {
            let mut call = calls(&case).remove(2);
            if let Input::Tick { tick: at, ticks: asked, .. } = &mut call.input {
                (*at, *asked) = (tick, ticks);
            }
            (case, call)
        })
    })
}

/// A state of each sort that some kind or no kind may have, on a block of each kind and delay.
fn states() -> impl Iterator<Item = Asked> {
    let delays = [None, Some(0), Some(1), Some(2), Some(3), Some(4), Some(5), Some(255)];
    let blocks = Kind::ALL.iter().flat_map(move |kind| delays.map(|delay| (*kind, delay)));
    blocks.flat_map(|(kind, delay)| {
        let case = case("state", [Row::new(kind, [0; 3]).with_delay(delay)]);
        row_states().into_iter().flat_map(move |state| {
            let state = state.to_vec();
            let inputs = [
                Input::Tick { state: state.clone(), tick: 0, ticks: 1 },
                Input::Switch { state, at: [0; 3], powered: true },
            ];
            inputs.map(|input| (case.clone(), Call { input, columns: [1; 3] }))
        })
    })
}

fn row_states() -> Vec<[u8; STATE_BYTES]> {
    let mut states = Vec::new();
    let mut state = |bytes: &[(usize, u8)]| {
        let mut state = [0; STATE_BYTES];
        bytes.iter().for_each(|(at, byte)| state[*at] = *byte);
        states.push(state);
    };
    for device in [0, 1, 2, 15, 16, 255] {
        (0..=17).chain([255]).for_each(|queue| state(&[(0, device), (1, queue)]));
    }
    for lit in 0..=2 {
        (0..=3).for_each(|left| state(&[(2, lit), (3, left)]));
        (0..=2).for_each(|had_power| state(&[(2, lit), (9, had_power)]));
    }
    // Seven toggles, eight, the oldest kept and one older.
    for [a, b, c, d] in [[0x7f, 0, 0, 0], [0x80, 0x3f, 0, 1], [0, 0, 0, 0x40], [0, 0, 0, 0x80], [255; 4]] {
        (0..=2).for_each(|candidate| state(&[(4, a), (5, b), (6, c), (7, d), (8, candidate)]));
    }
    (8..STATE_BYTES).for_each(|at| state(&[(at, 1)]));
    states
}

/// A repeater that is fed, with another or a comparator on each side of it, facing each way, on and off.
fn locks() -> impl Iterator<Item = Asked> {
    let facings = Facing::ALL.iter().copied().map(Some).chain([None]);
    let states = facings.flat_map(|facing| [false, true].map(|powered| (facing, powered)));
    let devices = [Kind::Repeater, Kind::Comparator].into_iter().flat_map(move |kind| {
        let device =
            move |(facing, powered)| Row::new(kind, [0; 3]).with_facing(facing).with_powered(powered);
        states.clone().map(device)
    });
    let places = (0..4).flat_map(|facing| HORIZONTAL.map(|side| (facing, side)));
    places.flat_map(move |(facing, side)| {
        devices.clone().flat_map(move |device| {
            let feeder = HORIZONTAL[(facing + 2) % 4];
            let fed = Row::new(Kind::Repeater, [0; 3]).with_facing(Facing::ALL[facing]).with_delay(2);
            let source = (feeder != side).then(|| Row::new(Kind::RedstoneBlock, feeder));
            each_call(case("lock", [fed, device.with_position(side)].into_iter().chain(source)))
        })
    })
}

/// The small cases with each byte that a call reads set to each value.
pub fn single_bytes() -> impl Iterator<Item = Asked> {
    each_small_call("one byte set").flat_map(|mut asked| {
        let bytes = [0, 1, 2].map(|buffer| read(&mut asked, buffer).map_or(0, |bytes| bytes.len()));
        let places = (0..3).flat_map(move |buffer| (0..bytes[buffer]).map(move |at| (buffer, at)));
        let changes = places.flat_map(|place| (0..=255).map(move |value| (place, value)));
        changes.map(move |((buffer, at), value)| {
            let mut asked = asked.clone();
            read(&mut asked, buffer).expect("a buffer with bytes")[at] = value;
            asked
        })
    })
}
