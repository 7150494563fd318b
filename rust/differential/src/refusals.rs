//! The refusals, read from documents 01 and 02 a second time and apart from the proved code.

use redstone::Kind;

use crate::table::{Position, coordinates};

const ROW_BYTES: usize = 32;
const STATE_BYTES: usize = 16;
pub const MOST_ROWS: usize = 1024;
pub const FARTHEST: i32 = 1_000_000;
const HIGHEST_LEVEL: u8 = 15;

/// What a refusal's number is multiplied by; a lower answer is no refusal.
pub const REFUSED: u32 = 65_536;

#[derive(Clone, Copy, Debug, Eq, PartialEq)]
pub struct Refusal {
    pub number: u32,
    pub row: usize,
}

impl Refusal {
    pub fn code(self) -> u32 {
        REFUSED * self.number + self.row as u32
    }
}

impl From<redstone::Refusal> for Refusal {
    fn from(redstone::Refusal { number, row, .. }: redstone::Refusal) -> Self {
        Self { number, row }
    }
}

type Checked = Result<(), Refusal>;

/// What a call is asked, as far as a refusal may fall on it before it settles.
#[derive(Clone, Debug)]
pub struct Asked<'a> {
    pub profile: &'a [u8],
    pub table: &'a [u8],
    /// What the call reads of devices, if it does.
    pub devices: Option<Devices<'a>>,
    /// What the call puts in the place of a row, if it does.
    pub new_row: Option<NewRow<'a>>,
    /// The buffers that are lent to be written for each row.
    pub lent: Vec<Written>,
    /// The tick's number, and the ticks asked for.
    pub clock: Option<[u32; 2]>,
}

impl<'a> Asked<'a> {
    /// By a call that has a profile and a table alone.
    pub fn new(profile: &'a [u8], table: &'a [u8]) -> Self {
        Self { profile, table, devices: None, new_row: None, lent: Vec::new(), clock: None }
    }
}

/// A device column or a state.
#[derive(Clone, Copy, Debug)]
pub struct Devices<'a> {
    pub bytes: &'a [u8],
    /// The bytes of a row, of which the first is the device byte: a column has no other.
    pub width: usize,
}

impl<'a> Devices<'a> {
    pub fn column(bytes: &'a [u8]) -> Self {
        Self { bytes, width: 1 }
    }

    pub fn state(bytes: &'a [u8]) -> Self {
        Self { bytes, width: STATE_BYTES }
    }

    pub fn rows(self) -> impl Iterator<Item = &'a [u8]> {
        self.bytes.chunks_exact(self.width)
    }
}

/// The bytes of a row, and the number of the row that they replace, as both are given.
#[derive(Clone, Copy, Debug)]
pub struct NewRow<'a> {
    pub row: usize,
    pub bytes: &'a [u8],
}

/// The length of a buffer, and the entries of it that are a row's.
#[derive(Clone, Copy, Debug)]
pub struct Written {
    pub entries: usize,
    pub width: usize,
}

impl Written {
    pub fn column(entries: usize) -> Self {
        Self { entries, width: 1 }
    }

    pub fn state(entries: usize) -> Self {
        Self { entries, width: STATE_BYTES }
    }

    pub fn table(entries: usize) -> Self {
        Self { entries, width: ROW_BYTES }
    }
}

/// A test: the number with which it refuses, and the row at fault, or 0 where no row is.
#[derive(Clone, Copy)]
pub struct Test {
    pub number: u32,
    pub fault: fn(&Asked) -> Option<usize>,
}

pub type Order = [Test; 11];

/// The tests in their order: "4 over all rows before 5, in 6 length before value", and 10 "on rows just after 5 and on a
/// column or state just after 6". Number 8, which settling alone gives, comes after them.
pub const ORDER: Order = [
    Test { number: 1, fault: |asked| at_no_row(!good_profile(asked.profile)) },
    Test { number: 2, fault: |asked| at_no_row(!asked.table.len().is_multiple_of(ROW_BYTES)) },
    Test { number: 3, fault: |asked| at_no_row(row_count(asked.table) > MOST_ROWS) },
    Test { number: 4, fault: |asked| rows(asked.table).position(|row| !good_row(asked.profile, row)) },
    Test { number: 5, fault: |asked| (1..row_count(asked.table)).find(|row| misplaced(asked.table, *row)) },
    Test { number: 10, fault: |asked| rows(asked.table).position(overdriven) },
    Test {
        number: 6,
        fault: |asked| at_no_row(asked.devices.is_some_and(|devices| wrong_length(asked, devices))),
    },
    Test { number: 6, fault: |asked| asked.devices.and_then(|devices| bad_device(asked.table, devices)) },
    Test { number: 10, fault: |asked| asked.devices.and_then(overdriven_device) },
    Test { number: 7, fault: |asked| at_no_row(asked.lent.iter().any(|lent| wrong_column(asked, *lent))) },
    Test { number: 9, fault: |asked| at_no_row(asked.clock.is_some_and(past_the_last_tick)) },
];

/// The first of the tests that finds a fault refuses.
pub fn refuse(order: &[Test], asked: &Asked) -> Checked {
    let refusal = |test: &Test| Some(Refusal { number: test.number, row: (test.fault)(asked)? });
    order.iter().find_map(refusal).map_or(Ok(()), Err)
}

/// What falls on the profile and the table of every call that has them.
pub fn check(profile: &[u8], table: &[u8]) -> Checked {
    refuse(&ORDER, &Asked::new(profile, table))
}

pub fn at_no_row(fault: bool) -> Option<usize> {
    fault.then_some(0)
}

fn misplaced(table: &[u8], row: usize) -> bool {
    position(table, row - 1) >= position(table, row)
}

/// Document 02, Change 5: "comparator rows with a given level above 15".
pub fn overdriven(row: &[u8]) -> bool {
    row[12] == Kind::Comparator.code() && row[15] == 1 && row[16] > HIGHEST_LEVEL
}

fn wrong_length(asked: &Asked, devices: Devices) -> bool {
    devices.bytes.len() != devices.width * row_count(asked.table)
}

fn bad_device(table: &[u8], devices: Devices) -> Option<usize> {
    let bad = |(row, entry): (&[u8], &[u8])| match entry {
        [device] => *device > highest_device_byte(row[12]),
        state => !good_state(row, state),
    };
    rows(table).zip(devices.rows()).position(bad)
}

/// "Device bytes above 15", which are a comparator's: of another kind they are bad.
fn overdriven_device(devices: Devices) -> Option<usize> {
    devices.rows().position(|entry| entry[0] > HIGHEST_LEVEL)
}

fn wrong_column(asked: &Asked, lent: Written) -> bool {
    lent.entries != lent.width * row_count(asked.table)
}

fn past_the_last_tick([tick, ticks]: [u32; 2]) -> bool {
    u64::from(tick) + u64::from(ticks) > 4_294_967_295
}

fn row_count(table: &[u8]) -> usize {
    table.len() / ROW_BYTES
}

fn rows(table: &[u8]) -> impl Iterator<Item = &[u8]> {
    table.chunks_exact(ROW_BYTES)
}

fn position(table: &[u8], row: usize) -> Position {
    coordinates(&table[ROW_BYTES * row..])
}

/// Document 02, Change 4: "the profile may have 14 bytes".
fn good_profile(profile: &[u8]) -> bool {
    matches!(profile.len(), 13 | 14)
        && profile[0] == 0
        && (0..).zip(profile).all(|(kind, byte)| *byte <= highest_profile_byte(kind))
}

/// Document 02, Change 3: "Number 1 now lets the torch's byte reach 63."
fn highest_profile_byte(kind: u8) -> u8 {
    match Kind::try_from(kind) {
        Ok(Kind::RedstoneTorch) => 63,
        _ => 31,
    }
}

/// The kinds are those from 1 on that the profile has a byte for: "with 13 a bulb row is number 4".
fn good_row(profile: &[u8], row: &[u8]) -> bool {
    let given = |at: usize, values: std::ops::Range<usize>| {
        row[at] == 1 || row[at] == 0 && row[values].iter().all(|byte| *byte == 0)
    };
    coordinates(row).iter().all(|coordinate| (-FARTHEST..=FARTHEST).contains(coordinate))
        && (1..profile.len()).contains(&row[12].into())
        && row[13] <= 6
        && row[14] <= 2
        && given(15, 16..17)
        && given(17, 18..19)
        && given(19, 20..23)
        && row[20..23].iter().all(|byte| matches!(byte, 0 | 1 | 255))
        && given(23, 24..28)
        && row[24..28].iter().all(|arm| *arm <= 3)
        && row[28] <= 6
        && row[29] <= 1
        && row[30..32] == [0, 0]
}

fn highest_device_byte(kind: u8) -> u8 {
    match Kind::try_from(kind) {
        Ok(Kind::Repeater | Kind::RedstoneTorch) => 1,
        // What is past its levels is overdriven, and not bad.
        Ok(Kind::Comparator) => u8::MAX,
        _ => 0,
    }
}

fn good_state(row: &[u8], state: &[u8]) -> bool {
    let is = |kind: Kind| row[12] == kind.code();
    let only = |kind, bytes: std::ops::Range<usize>| is(kind) || state[bytes].iter().all(|byte| *byte == 0);
    let toggles = u32::from_le_bytes([state[4], state[5], state[6], state[7]]);
    state[0] <= highest_device_byte(row[12])
        && only(Kind::Repeater, 1..2)
        && (!is(Kind::Repeater) || good_queue(row, state))
        && (is(Kind::CopperBulb) || only(Kind::RedstoneLamp, 2..3))
        && state[2] <= 1
        && only(Kind::RedstoneLamp, 3..4)
        && state[3] <= 2 * state[2]
        && only(Kind::RedstoneTorch, 4..9)
        && toggles < 1 << 31
        && state[8] <= 1
        && (state[8] == 1 || toggles.count_ones() < 8)
        && only(Kind::CopperBulb, 9..10)
        && state[9] <= 1
        && state[10..] == [0; 6]
}

fn good_queue(row: &[u8], state: &[u8]) -> bool {
    let delay = if row[17] == 1 { row[18].clamp(1, 4) } else { 1 };
    state[1] < 1 << delay && state[1] % 2 == state[0]
}
