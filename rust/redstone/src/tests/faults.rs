//! The reason that a refusal gives, against the number that the proved call answers, on every byte set to every value.

use super::Lent;
use crate::{
    BENCH_PROFILE, BENCH_PROFILE_WITH_BULB, Buffer, Circuit, Device, Facing, Fault, Kind, MOST_FEEDERS,
    MOST_ROWS, PROFILE_BYTES, ROW_BYTES, Refusal, Row, STATE_BYTES, WhichTable, checks, clear, feeders, find,
    fresh, redraw, replace, settle, supports, switch, table, tick,
};

/// What all calls take.
#[derive(Clone)]
struct Input {
    profile: Vec<u8>,
    table: Vec<u8>,
    devices: Vec<u8>,
    state: Vec<u8>,
    /// The length of the state that is lent to be written.
    fresh: usize,
    /// The lengths of signal, weak and strong.
    columns: [usize; 3],
    /// The length of the column for row numbers.
    list: usize,
    /// The length of the room for the kept rows.
    kept: usize,
    /// The length of the column of passes.
    passes: usize,
    /// The length of the list of feeders.
    feeders: usize,
    /// The number of the row that is replaced.
    row: u16,
    /// What replaces it.
    new_row: Vec<u8>,
    limit: u32,
    tick: u32,
}

impl Input {
    fn new(profile: &[u8], rows: impl IntoIterator<Item = Row>) -> Self {
        let circuit = Circuit::new(profile, rows).expect("accepted");
        let rows = circuit.len();
        Self {
            profile: profile.to_vec(),
            table: circuit.table().to_vec(),
            devices: circuit.devices(),
            state: circuit.state().to_vec(),
            fresh: STATE_BYTES * rows,
            columns: [rows; 3],
            list: rows,
            kept: ROW_BYTES * rows,
            passes: rows,
            feeders: MOST_FEEDERS * rows,
            row: 0,
            new_row: circuit.table()[..ROW_BYTES].to_vec(),
            limit: 17,
            tick: 0,
        }
    }

    /// Each kind of device, with all that its state may hold, and dust with stored arms.
    fn devices() -> Self {
        let repeater =
            |z, delay| Row::new(Kind::Repeater, [-1, 0, z]).with_facing(Facing::East).with_delay(delay);
        let torch = |z| Row::new(Kind::RedstoneTorch, [-2, 0, z]).with_support([0, -1, 0]);
        let rows = [
            repeater(0, 2),
            repeater(1, 9),
            torch(0),
            torch(1),
            Row::new(Kind::Comparator, [-3, 0, 0]).with_power_level(12).with_subtract(true),
            Row::new(Kind::RedstoneLamp, [-4, 0, 0]),
            Row::new(Kind::RedstoneWire, [-5, 0, 0]).with_arms([None; 4]),
            Row::new(Kind::CopperBulb, [0, 0, 0]),
            Row::new(Kind::CopperBulb, [0, 0, 1]),
        ];
        let mut input = Self::new(&BENCH_PROFILE_WITH_BULB, rows);
        for (at, device) in [
            ([-1, 0, 0], Device::Repeater { powered: true, queue: 0b01 }),
            ([-1, 0, 1], Device::Repeater { powered: false, queue: 0b1010 }),
            ([-2, 0, 0], Device::Torch { lit: true, toggles: 0b0111_1111, candidate: false }),
            ([-2, 0, 1], Device::Torch { lit: false, toggles: 0x5555_5555, candidate: true }),
            ([-4, 0, 0], Device::Lamp { lit: true, ticks_left: 2 }),
            ([0, 0, 0], Device::Bulb { lit: true, had_power: false }),
            ([0, 0, 1], Device::Bulb { lit: false, had_power: true }),
        ] {
            let row = find(&input.table, at).expect("a row");
            input.state[STATE_BYTES * row..][..STATE_BYTES].copy_from_slice(&device.bytes());
        }
        input
    }

    /// A row of each kind.
    fn all_kinds() -> Self {
        let rows = (0..).zip(Kind::ALL).map(|(x, &kind)| Row::new(kind, [x, 0, 0]));
        Self::new(&BENCH_PROFILE_WITH_BULB, rows)
    }

    /// What every call answers, where it is refused. The reason has the number and the row of the answer; and where a
    /// call is not refused, the tests for the reason find nothing.
    fn refusals(&self) -> [Option<Refusal>; 9] {
        let Self { profile, table, devices, state, row, new_row, limit, tick: number, .. } = self;
        let mut lent = Lent::of_lengths(self.columns);
        let lengths = &lent.columns().lengths();
        let (mut fresh_state, mut list) = (vec![0; self.fresh], vec![0; self.list]);
        let (mut kept, mut passes) = (vec![0; self.kept], vec![0; self.passes]);
        let mut of_feeders = vec![0; self.feeders];
        let of_clear = &[(Buffer::Kept, self.kept), (Buffer::Passes, self.passes)];
        let answers = [
            (
                fresh(profile, table, &mut fresh_state, lent.columns()).err(),
                checks::fresh(profile, table, &fresh_state, lengths).err(),
            ),
            (
                settle(profile, table, devices, *limit, lent.columns()).err(),
                checks::settle(profile, table, devices, *limit, lengths).err(),
            ),
            (
                tick(profile, table, &mut state.clone(), *number, 1, lent.columns()).err(),
                checks::tick(profile, table, state, *number, 1, lengths).err(),
            ),
            (
                switch(profile, &mut table.clone(), state, [0; 3], true, lent.columns()).err(),
                checks::switch(profile, table, state, lengths).err(),
            ),
            (redraw(profile, &mut table.clone()).err(), checks::redraw(profile, table).err()),
            (supports(profile, table, &mut list).err(), checks::supports(profile, table, &list).err()),
            (
                clear(profile, table, &mut kept, &mut passes).err(),
                checks::clear(profile, table, of_clear).err(),
            ),
            (
                feeders(profile, table, &mut of_feeders).err(),
                checks::feeders(profile, table, &of_feeders).err(),
            ),
            (
                replace(profile, &mut table.clone(), *row, new_row, &mut of_feeders).err(),
                checks::replace(profile, table, *row, new_row, &of_feeders).err(),
            ),
        ];
        answers.map(|(answer, found)| {
            // Settle tells a limit that is too low by finding nothing else.
            let found = found.filter(|fault| answer.is_some() || !matches!(fault, Fault::Unsettled { .. }));
            assert_eq!(answer.map(|refusal| refusal.fault), found);
            if let Some(refusal) = answer {
                assert_eq!((refusal.fault.number(), refusal.fault.row()), (refusal.number, refusal.row));
            }
            answer
        })
    }

    /// The reason that the calls give, all the same one.
    fn fault(&self) -> Fault {
        let refusals = self.refusals();
        let mut faults = refusals.iter().flatten().map(|refusal| refusal.fault);
        let first = faults.next().expect("a refusal");
        assert!(faults.all(|fault| fault == first), "{refusals:?}");
        first
    }
}

/// Makes something wrong.
type Change = fn(&mut Input);

/// Every byte of a buffer set to every value. Both accepted and refused inputs are met.
fn every_byte(input: &Input, of: impl Fn(&mut Input) -> &mut [u8]) {
    let mut tried = input.clone();
    let (mut accepted, mut refused) = (0, 0);
    for at in 0..of(&mut tried).len() {
        let byte = of(&mut tried)[at];
        for value in 0..=u8::MAX {
            of(&mut tried)[at] = value;
            let refusals = tried.refusals();
            accepted += refusals.iter().filter(|refusal| refusal.is_none()).count();
            refused += refusals.iter().flatten().count();
        }
        of(&mut tried)[at] = byte;
    }
    assert!(accepted > 0 && refused > 0);
}

#[test]
fn reasons_agree_with_the_answers_on_every_profile_byte() {
    every_byte(&Input::devices(), |input| &mut input.profile);
    every_byte(&small(), |input| &mut input.profile);
}

#[test]
fn reasons_agree_with_the_answers_on_every_table_byte() {
    every_byte(&Input::devices(), |input| &mut input.table);
    every_byte(&small(), |input| &mut input.table);
}

#[test]
fn reasons_agree_with_the_answers_on_every_byte_of_a_new_row() {
    for row in 0..9 {
        let mut input = Input::devices();
        let bytes = &input.table[ROW_BYTES * row..][..ROW_BYTES];
        (input.row, input.new_row) = (row as u16, bytes.to_vec());
        every_byte(&input, |input| &mut input.new_row);
    }
    every_byte(&small(), |input| &mut input.new_row);
}

#[test]
fn reasons_agree_with_the_answers_on_every_device_byte() {
    every_byte(&Input::devices(), |input| &mut input.devices);
    every_byte(&Input::all_kinds(), |input| &mut input.devices);
}

#[test]
fn reasons_agree_with_the_answers_on_every_state_byte() {
    every_byte(&Input::devices(), |input| &mut input.state);
    every_byte(&Input::all_kinds(), |input| &mut input.state);
}

/// A wrong length of each buffer, shorter and longer.
#[test]
fn reasons_agree_with_the_answers_on_every_length() {
    let input = Input::devices();
    assert_eq!(input.refusals(), [None; 9]);
    for length in (0..64).chain([MOST_ROWS, MOST_ROWS + 1]) {
        for change in [
            |input: &mut Input, length| input.profile.resize(length, 0),
            |input, length| input.table.resize(length, 0),
            |input, length| input.table.resize(ROW_BYTES * length, 0),
            |input, length| input.devices.resize(length, 0),
            |input, length| input.state.resize(length, 0),
            |input, length| input.state.resize(STATE_BYTES * length, 0),
            |input, length| input.fresh = length,
            |input, length| input.columns[0] = length,
            |input, length| input.columns[1] = length,
            |input, length| input.columns[2] = length,
            |input, length| input.list = length,
            |input, length| input.kept = length,
            |input, length| input.kept = ROW_BYTES * length,
            |input, length| input.passes = length,
            |input, length| input.feeders = length,
            |input, length| input.feeders = MOST_FEEDERS * length,
            |input, length| input.new_row.resize(length, 0),
            |input, length| input.row = length as u16,
        ] as [fn(&mut Input, usize); 18]
        {
            let mut tried = input.clone();
            change(&mut tried, length);
            tried.refusals();
        }
    }
}

/// Two things wrong at once: the first of the table of refusals is given.
#[test]
fn reasons_agree_with_the_answers_on_two_faults() {
    let changes: [Change; 28] = [
        |input| input.profile[0] = 1,
        |input| input.profile.resize(20, 0),
        |input| input.profile.truncate(PROFILE_BYTES),
        |input| input.table.push(0),
        |input| input.table.resize(ROW_BYTES * (MOST_ROWS + 1), 0),
        |input| input.table[ROW_BYTES + 13] = 7,
        |input| input.table[2 * ROW_BYTES] = 0,
        |input| input.table[2 * ROW_BYTES + 16] = 16,
        |input| input.devices.push(0),
        |input| input.devices[6] = 255,
        |input| input.devices[2] = 16,
        |input| input.state.push(0),
        |input| input.state[9] = 1,
        |input| input.state[2 * STATE_BYTES] = 255,
        |input| input.state[10] = 1,
        |input| input.fresh += 1,
        |input| input.columns[2] += 1,
        |input| input.list += 1,
        |input| input.kept -= 1,
        |input| input.passes += 1,
        |input| input.feeders += 1,
        |input| input.new_row.push(0),
        |input| input.new_row[31] = 1,
        |input| input.new_row[8] = 9,
        |input| input.new_row[12..17].copy_from_slice(&[6, 0, 0, 1, 16]),
        |input| input.row = u16::MAX,
        |input| input.limit = 1,
        |input| input.tick = u32::MAX,
    ];
    for first in changes {
        for second in changes {
            let mut tried = Input::devices();
            first(&mut tried);
            second(&mut tried);
            assert!(tried.refusals().iter().any(Option::is_some));
        }
    }
}

/// A repeater and a lamp, under a profile without the bulb's byte.
fn small() -> Input {
    let rows = [Row::new(Kind::Repeater, [0, 0, 0]).with_delay(2), Row::new(Kind::RedstoneLamp, [1, 2, 3])];
    Input::new(&BENCH_PROFILE, rows)
}

/// A bulb and a lamp.
fn bulb() -> Input {
    let rows = [Row::new(Kind::CopperBulb, [0, 0, 0]), Row::new(Kind::RedstoneLamp, [1, 2, 3])];
    Input::new(&BENCH_PROFILE_WITH_BULB, rows)
}

/// What a changed input is refused with.
fn message_of(mut input: Input, change: impl FnOnce(&mut Input)) -> String {
    change(&mut input);
    input.fault().to_string()
}

fn message(change: impl FnOnce(&mut Input)) -> String {
    message_of(small(), change)
}

#[test]
fn each_reason_says_what_is_wrong_and_what_would_be_right() {
    for length in [12, 15] {
        assert_eq!(
            message(|input| input.profile.resize(length, 0)),
            format!("the profile has length {length}; it must be 13, or 14 with the bulb's byte")
        );
    }
    assert_eq!(
        message(|input| input.profile[3] = 64),
        "byte 3 of the profile, RedstoneWire's, is 64; it may be at most 31"
    );
    assert_eq!(
        message(|input| input.profile[0] = 1),
        "byte 0 of the profile, Air's, is 1; it may be at most 0"
    );
    assert_eq!(
        message(|input| input.profile[4] = 64),
        "byte 4 of the profile, RedstoneTorch's, is 64; it may be at most 63"
    );
    assert_eq!(message(|input| input.table.push(0)), "the table has length 65; it must be 32 for each row");
    assert_eq!(
        message(|input| input.table.resize(32 * 1025, 0)),
        "the table has 1025 rows; it may have at most 1024"
    );
    assert_eq!(
        message(|input| input.table[ROW_BYTES + 29] = 2),
        "row 1 at 1,2,3: subtract (byte 29) is 2; it may be from 0 to 1"
    );
    assert_eq!(
        message(|input| input.table[0] = 2),
        "row 1 at 1,2,3 comes after row 0 at 2,0,0; the order is by x, then y, then z"
    );
    let same = |input: &mut Input| input.table.copy_within(0..12, ROW_BYTES);
    assert_eq!(message(same), "rows 0 and 1 are both at 0,0,0; each position may be there once");
    assert_eq!(
        message(|input| input.devices.push(0)),
        "the device column has length 3; for this table it must be 2"
    );
    assert_eq!(
        message(|input| input.devices[1] = 9),
        "the device column's row 1, of a RedstoneLamp at 1,2,3: device (byte 0) is 9; it must be 0, as the row is \
         no repeater, torch or comparator"
    );
    assert_eq!(message(|input| input.state.push(0)), "the state has length 33; for this table it must be 32");
    assert_eq!(
        message(|input| input.state[1] = 4),
        "the state's row 0, of a Repeater at 0,0,0: queue (byte 1) is 4; it may be from 0 to 3"
    );
    assert_eq!(
        message(|input| input.state[STATE_BYTES + 3] = 1),
        "the state's row 1, of a RedstoneLamp at 1,2,3: ticks left (byte 3) is 1; it must be 0, as lit \
         (byte 2) is"
    );
    assert_eq!(
        message(|input| input.columns[1] = 1),
        "the weak column has length 1; for this table it must be 2"
    );
    assert_eq!(message(|input| input.fresh = 2), "the state has length 2; for this table it must be 32");
    assert_eq!(
        message(|input| input.list = 3),
        "the column of rows has length 3; for this table it must be 2"
    );
    assert_eq!(
        message(|input| input.kept = 32),
        "the room for the kept rows has length 32; for this table it must be 64"
    );
    assert_eq!(
        message(|input| input.passes = 64),
        "the column of passes has length 64; for this table it must be 2"
    );
    assert_eq!(
        message(|input| (input.kept, input.passes) = (65, 3)),
        "the room for the kept rows has length 65; for this table it must be 64"
    );
    assert_eq!(
        message(|input| input.feeders = 23),
        "the list of feeders has length 23; for this table it must be 24"
    );
    assert_eq!(
        message(|input| input.limit = 1),
        "the table does not settle within a limit of 1; 17 is always enough"
    );
    assert_eq!(
        message(|input| input.tick = u32::MAX),
        "tick 4294967295 plus 1 is past 4294967295, the last; 0 more can be asked for"
    );
}

/// Of a row that is to replace another, which it is told apart from by these words.
#[test]
fn the_reason_says_what_a_new_row_may_be() {
    assert_eq!(message(|input| input.new_row.push(0)), "the new row 0 has length 33; it must be 32");
    assert_eq!(
        message(|input| input.new_row[29] = 2),
        "the new row 0 at 0,0,0: subtract (byte 29) is 2; it may be from 0 to 1"
    );
    assert_eq!(
        message(|input| input.new_row[12] = 13),
        "the new row 0 at 0,0,0: kind (byte 12) is 13; that is CopperBulb, and the profile has 13 bytes: give it a \
         fourteenth, the bulb's, such as 7"
    );
    assert_eq!(
        message(|input| input.new_row[4] = 7),
        "the new row 0 is at 0,7,0; it must be at 0,0,0, where row 0 is"
    );
    assert_eq!(
        message(|input| input.row = 1),
        "the new row 1 is at 0,0,0; it must be at 1,2,3, where row 1 is"
    );
    assert_eq!(
        message(|input| input.row = 2),
        "no row 2 is there for the new one at 0,0,0 to replace; the table has 2 rows, numbered from 0, and at that position \
         is row 0"
    );
    assert_eq!(
        message(|input| {
            input.row = 65_535;
            input.new_row[4] = 7;
        }),
        "no block is at 0,7,0 for the new row 65535 to replace; the table has 2 rows, numbered from 0"
    );
    assert_eq!(
        message(|input| input.new_row[12..17].copy_from_slice(&[6, 0, 0, 1, 16])),
        "the new row 0 at 0,0,0: power level (byte 16) is 16; a comparator's may be at most 15"
    );
}

/// Of a byte that another kind's may not have, and that is good without the torch's value.
#[test]
fn the_reason_says_whose_the_value_of_the_torch_is() {
    let tip = ": take 32 off, which RedstoneTorch's alone may have";
    assert_eq!(
        message(|input| input.profile[7] = 32),
        format!("byte 7 of the profile, Lever's, is 32; it may be at most 31{tip}")
    );
    for (kind, most) in [(0, 0), (1, 31), (3, 31), (4, 63), (5, 31), (12, 31), (13, 31)] {
        for value in most + 1..=u8::MAX {
            let is_said = message_of(bulb(), |input| input.profile[kind] = value).ends_with(tip);
            assert_eq!(is_said, kind != 4 && (32..=32 + most).contains(&value), "byte {kind} is {value}");
        }
    }
}

/// What a bulb's row, byte of the profile and state may be, and what those of other kinds may not.
#[test]
fn the_reason_says_what_a_bulb_may_have() {
    assert_eq!(
        message_of(bulb(), |input| input.profile.truncate(13)),
        "row 0 at 0,0,0: kind (byte 12) is 13; that is CopperBulb, and the profile has 13 bytes: give it a \
         fourteenth, the bulb's, such as 7"
    );
    assert_eq!(
        message_of(bulb(), |input| input.profile[13] = 64),
        "byte 13 of the profile, CopperBulb's, is 64; it may be at most 31"
    );
    let state = |at: usize, value| message_of(bulb(), move |input| input.state[at] = value);
    let of_bulb = "the state's row 0, of a CopperBulb at 0,0,0";
    assert_eq!(state(2, 2), format!("{of_bulb}: lit (byte 2) is 2; it may be from 0 to 1"));
    assert_eq!(
        state(3, 1),
        format!("{of_bulb}: ticks left (byte 3) is 1; it must be 0, as the row is no lamp")
    );
    assert_eq!(state(9, 2), format!("{of_bulb}: had power (byte 9) is 2; it may be from 0 to 1"));
    assert_eq!(state(10, 1), format!("{of_bulb}: unused (byte 10) is 1; it must be 0"));
    assert_eq!(
        state(STATE_BYTES + 9, 1),
        "the state's row 1, of a RedstoneLamp at 1,2,3: had power (byte 9) is 1; it must be 0, as the row is no bulb"
    );
    assert_eq!(
        message(|input| input.state[2] = 1),
        "the state's row 0, of a Repeater at 0,0,0: lit (byte 2) is 1; it must be 0, as the row is no lamp or bulb"
    );
    assert_eq!(
        message_of(bulb(), |input| input.devices[0] = 1),
        "the device column's row 0, of a CopperBulb at 0,0,0: device (byte 0) is 1; it must be 0, as the row is no \
         repeater, torch or comparator"
    );
}

/// Two comparators, and a repeater.
fn comparators() -> Input {
    let comparator = |x| Row::new(Kind::Comparator, [x, 0, 0]).with_power_level(15);
    let rows = [comparator(0), comparator(1), Row::new(Kind::Repeater, [2, 0, 0])];
    Input::new(&BENCH_PROFILE, rows)
}

#[test]
fn the_reason_says_how_large_a_comparators_level_may_be() {
    assert_eq!(
        message_of(comparators(), |input| input.table[ROW_BYTES + 16] = 200),
        "row 1 at 1,0,0: power level (byte 16) is 200; a comparator's may be at most 15"
    );
    assert_eq!(
        message_of(comparators(), |input| input.devices[0] = 16),
        "the device column's row 0, of the comparator at 0,0,0: device (byte 0) is 16; it may be from 0 to 15"
    );
    assert_eq!(
        message_of(comparators(), |input| input.state[STATE_BYTES] = 255),
        "the state's row 1, of the comparator at 1,0,0: device (byte 0) is 255; it may be from 0 to 15"
    );
}

/// The number and the row that fresh, settle, tick, switch, redraw, supports, clear, feeders and replace are refused with.
fn refused(changes: &[Change]) -> [Option<(u32, usize)>; 9] {
    let mut input = comparators();
    changes.iter().for_each(|change| change(&mut input));
    input.refusals().map(|refusal| refusal.map(|refusal| (refusal.number, refusal.row)))
}

/// A level of a row is tested after 5 and before 6, over all rows.
#[test]
fn a_rows_level_is_tested_after_5_and_before_6() {
    let [first, second]: [Change; 2] =
        [|input| input.table[16] = 16, |input| input.table[ROW_BYTES + 16] = 255];
    assert_eq!(refused(&[first]), [Some((10, 0)); 9]);
    assert_eq!(refused(&[second]), [Some((10, 1)); 9]);
    assert_eq!(refused(&[second, first]), [Some((10, 0)); 9]);
    let before: [(Change, _); 5] = [
        (|input| input.profile[0] = 1, (1, 0)),
        (|input| input.table.push(0), (2, 0)),
        (|input| input.table.resize(ROW_BYTES * (MOST_ROWS + 1), 0), (3, 0)),
        (|input| input.table[2 * ROW_BYTES + 13] = 7, (4, 2)),
        (|input| input.table[2 * ROW_BYTES] = 1, (5, 2)),
    ];
    for (other, answer) in before {
        assert_eq!(refused(&[first, other]), [Some(answer); 9]);
    }
    let after: [Change; 14] = [
        |input| input.devices.push(0),
        |input| input.devices[0] = 16,
        |input| input.state.push(0),
        |input| input.state[15] = 1,
        |input| input.fresh += 1,
        |input| input.columns[0] += 1,
        |input| input.list += 1,
        |input| input.kept += 1,
        |input| input.passes += 1,
        |input| input.feeders += 1,
        |input| input.new_row.push(0),
        |input| input.row = 7,
        |input| input.limit = 0,
        |input| input.tick = u32::MAX,
    ];
    for other in after {
        assert_eq!(refused(&[second, other]), [Some((10, 1)); 9]);
    }
}

/// A level of the device column is tested after 6, over all rows, and before 7.
#[test]
fn a_device_columns_level_is_tested_after_6_and_before_7() {
    let settle_alone = |answer| [None, Some(answer), None, None, None, None, None, None, None];
    let [first, second]: [Change; 2] = [|input| input.devices[0] = 16, |input| input.devices[1] = 255];
    assert_eq!(refused(&[first]), settle_alone((10, 0)));
    assert_eq!(refused(&[second]), settle_alone((10, 1)));
    assert_eq!(refused(&[second, first]), settle_alone((10, 0)));
    assert_eq!(refused(&[first, |input| input.devices.push(0)]), settle_alone((6, 0)));
    assert_eq!(refused(&[first, |input| input.devices[2] = 2]), settle_alone((6, 2)));
    assert_eq!(refused(&[first, |input| input.devices[2] = 255]), settle_alone((6, 2)));
    assert_eq!(refused(&[second, |input| input.limit = 0]), settle_alone((10, 1)));
    let column = Some((7, 0));
    let answers = [column, Some((10, 1)), column, column, None, None, None, None, None];
    assert_eq!(refused(&[second, |input| input.columns[2] += 1]), answers);
}

/// A level of the state is tested after 6, over all rows and bytes, and before 7.
#[test]
fn a_states_level_is_tested_after_6_and_before_7() {
    let tick_and_switch = |answer| [None, None, Some(answer), Some(answer), None, None, None, None, None];
    let [first, second]: [Change; 2] = [|input| input.state[0] = 16, |input| input.state[STATE_BYTES] = 255];
    assert_eq!(refused(&[first]), tick_and_switch((10, 0)));
    assert_eq!(refused(&[second]), tick_and_switch((10, 1)));
    assert_eq!(refused(&[second, first]), tick_and_switch((10, 0)));
    assert_eq!(refused(&[first, |input| input.state.push(0)]), tick_and_switch((6, 0)));
    assert_eq!(refused(&[second, |input| input.state[STATE_BYTES + 9] = 1]), tick_and_switch((6, 1)));
    assert_eq!(refused(&[first, |input| input.state[2 * STATE_BYTES] = 255]), tick_and_switch((6, 2)));
    assert_eq!(refused(&[second, |input| input.tick = u32::MAX]), tick_and_switch((10, 1)));
    let column = Some((7, 0));
    let answers = [column, column, Some((10, 1)), Some((10, 1)), None, None, None, None, None];
    assert_eq!(refused(&[second, |input| input.columns[0] += 1]), answers);
}

/// Without the bulb's byte a bulb is as any field outside the layout: the first such row counts, and in it the first
/// such field.
#[test]
fn a_bulb_without_its_byte_is_a_fault_among_others() {
    let place = |change: Change| {
        let mut input = bulb();
        input.profile.truncate(PROFILE_BYTES);
        change(&mut input);
        let fault = input.fault();
        match fault {
            Fault::BadRow { row, field, .. } => (row, field.name()),
            _ => panic!("{fault}"),
        }
    };
    assert_eq!(place(|_| {}), (0, "kind"));
    assert_eq!(place(|input| input.table[ROW_BYTES + 28] = 7), (0, "kind"));
    assert_eq!(place(|input| input.table[13] = 7), (0, "kind"));
    assert_eq!(place(|input| input.table[3] = 1), (0, "x"));
    assert_eq!(place(|input| input.table.swap(12, ROW_BYTES + 12)), (1, "kind"));
    assert_eq!(place(|input| input.table.copy_within(0..12, ROW_BYTES)), (0, "kind"));
}

#[test]
fn a_refusal_has_its_number_its_word_and_its_reason() {
    let table = table([Row::new(Kind::Solid, [0; 3]); 2]);
    let refusal = redraw(&BENCH_PROFILE, &mut table.clone()).expect_err("misplaced");
    let reason = Fault::Misplaced { table: WhichTable::Only, row: 1, position: [0; 3], before: [0; 3] };
    assert_eq!((refusal.number, refusal.row, refusal.fault), (5, 1, reason));
    assert_eq!(
        refusal.to_string(),
        "refusal 5, misplaced: rows 0 and 1 are both at 0,0,0; each position may be there once"
    );
    let refusal = redraw(&BENCH_PROFILE[..PROFILE_BYTES - 1], &mut []).expect_err("profile");
    assert_eq!(refusal.fault, Fault::ProfileLength { length: 12 });
    let refusal = supports(&BENCH_PROFILE, &[], &mut [0]).expect_err("column");
    assert_eq!(refusal.fault, Fault::Column { buffer: Buffer::Rows, length: 1, expected: 0 });
}
