//! What document 02's Changes 4 and 5 have refused: profiles, rows, columns and states, by the second reading of the
//! refusals.

use differential::calls::{AnyCall, six_calls, six_calls_on};
use differential::compare::Answers;
use differential::generate::{BENCH_PROFILE, BENCH_PROFILE_WITH_BULB, BULB, Case};
use differential::oracle::Oracle;
use differential::settling::{Call, Input};
use redstone::{Kind, ROW_BYTES, Row, STATE_BYTES};

use super::record::Record;
use super::{calls, inner, wire};

/// The number of the bulb's row, and its place in the state.
const BULB_ROW: usize = 1;

/// Each bad case by every call, each bad state by the two calls that read one, and each bad device byte by these and by
/// settle.
pub fn records() -> Vec<Record> {
    let cases = bad_cases().into_iter().chain(overdriven_cases());
    let every_call = |case: Case| six_calls_on(&case).map(|call| record(&case, &call));
    let mut records: Vec<_> = cases.flat_map(every_call).collect();
    let bulb = with_bulb();
    for state in bad_states() {
        let calls = six_calls(bulb.rows(), &[], &state).into_iter().filter(reads_state);
        records.extend(calls.map(|call| record(&bulb, &call)));
    }
    for (case, devices) in overdriven_devices() {
        let calls = six_calls_on(&case).into_iter().filter(AnyCall::reads_devices);
        records.extend(calls.map(|call| record(&case, &with_devices(call, devices))));
    }
    records
}

fn reads_state(call: &AnyCall) -> bool {
    matches!(call, AnyCall::Settling(Call { input: Input::Tick { .. } | Input::Switch { .. }, .. }))
}

fn with_devices(mut call: AnyCall, devices: [u8; 2]) -> AnyCall {
    devices.into_iter().enumerate().for_each(|(row, device)| call.set_device(row, device));
    call
}

fn record(case: &Case, call: &AnyCall) -> Record {
    match call {
        AnyCall::Settling(call) => calls::record(case, &call.input, &Oracle::new(case).answer(call)),
        AnyCall::Supports { .. } => inner::support_issues(case),
        AnyCall::Redraw => wire::redraw(case),
    }
}

/// A lamp, and over it a bulb.
fn with_bulb() -> Case {
    let rows = [Row::new(Kind::RedstoneLamp, [0; 3]), Row::new(Kind::CopperBulb, [0, 1, 0])];
    Case::new("bulb", BENCH_PROFILE_WITH_BULB, rows)
}

/// A profile of 12 bytes, of 15, without a byte for the bulb and with one that is too large, and a kind past the bulb.
fn bad_cases() -> [Case; 5] {
    let changed = |change: fn(&mut Case)| changed(with_bulb(), change);
    [
        changed(|case| case.profile.truncate(BULB - 1)),
        changed(|case| case.profile.push(0)),
        changed(|case| case.profile.truncate(BULB)),
        changed(|case| case.profile[BULB] = 32),
        changed(|case| case.table[BULB_ROW * ROW_BYTES + 12] = 14),
    ]
}

fn changed(mut case: Case, change: fn(&mut Case)) -> Case {
    change(&mut case);
    case
}

/// A light of 2, ticks left, a byte 9 of 2 and a byte 10 that is not 0 on the bulb; a byte 9 on the lamp.
fn bad_states() -> [Vec<u8>; 5] {
    let bulb = BULB_ROW * STATE_BYTES;
    [(bulb + 2, 2), (bulb + 3, 1), (bulb + 9, 2), (bulb + 10, 1), (9, 1)].map(|(at, byte)| {
        let mut state = vec![0; 2 * STATE_BYTES];
        state[at] = byte;
        state
    })
}

/// A torch and a comparator of level 15, of which either may come first.
fn with_comparator(kinds: [Kind; 2]) -> Case {
    let row = |(y, kind)| {
        let level = (kind == Kind::Comparator).then_some(15);
        Row::new(kind, [0, y, 0]).with_power_level(level)
    };
    Case::new("comparator", BENCH_PROFILE, (0..).zip(kinds).map(row))
}

const COMPARATOR_FIRST: [Kind; 2] = [Kind::Comparator, Kind::RedstoneTorch];
const COMPARATOR_LAST: [Kind; 2] = [Kind::RedstoneTorch, Kind::Comparator];

/// Levels of 16 and 255, and one of 200 before a bad row and before a misplaced one.
fn overdriven_cases() -> [Case; 4] {
    let [first, last] = [COMPARATOR_FIRST, COMPARATOR_LAST].map(with_comparator);
    let before = |change| changed(first.with_levels(|_| 200), change);
    [
        last.with_levels(|_| 16),
        last.with_levels(|_| 255),
        before(|case| case.table[ROW_BYTES + 31] = 1),
        before(|case| case.table.copy_within(..12, ROW_BYTES)),
    ]
}

/// The tables, each with the device bytes of its two rows: 16, 255, and 200 before a bad one.
fn overdriven_devices() -> [(Case, [u8; 2]); 3] {
    [(COMPARATOR_LAST, [1, 16]), (COMPARATOR_LAST, [0, 255]), (COMPARATOR_FIRST, [200, 2])]
        .map(|(kinds, devices)| (with_comparator(kinds), devices))
}
