//! Calls with their answers by hand: lists, new rows, row numbers and profiles of every length and value.

use redstone::{Arm, Facing, Kind, MOST_ROWS, ROW_BYTES, Row, Shape};

use super::lines::{broken_line, line};
use super::reading::{Entries, NO_ROW, WIDTH};
use super::{Call, List, Replacement, Trial};
use crate::damage;
use crate::generate::{BENCH_PROFILE, BENCH_PROFILE_WITH_BULB, Case};
use crate::lent::unlike_entries;
use crate::refusals::Refusal;
use crate::table::{ABOVE, HORIZONTAL, moved};

/// A list that is built.
pub fn built(case: Case, list: Vec<Entries>) -> Trial {
    Trial { call: Call::build(&case), case, answer: Ok(list.into_iter().map(Some).collect()) }
}

/// A row that is replaced, with each of some lists handed in, of which the first is the right one.
pub fn replacing(
    case: &Case,
    row: usize,
    new_row: &Row,
    right: &[Entries],
    written: &List,
) -> impl Iterator<Item = Trial> + use<> {
    let call = Call::replace(case, row, new_row);
    let trial = Trial { case: case.clone(), call, answer: Ok(written.clone()) };
    handed_in(right).into_iter().map(move |list| with_list(&trial, list))
}

/// A list, and lists that are wrong: of one number alone, of unlike ones, of the same rows in another order and of the rows
/// after those that are right.
fn handed_in(right: &[Entries]) -> [Vec<u16>; 6] {
    let entries = right.as_flattened();
    let of_number = |number| vec![number; entries.len()];
    let turned_round = right.iter().rev().flatten().copied().collect();
    let next = entries.iter().map(|row| row.wrapping_add(1)).collect();
    [entries.to_vec(), of_number(0), of_number(NO_ROW), unlike_entries(entries.len()), turned_round, next]
}

fn with_list(trial: &Trial, list: Vec<u16>) -> Trial {
    let mut trial = trial.clone();
    trial.call.list = list;
    trial
}

/// Of a call that replaces a row.
fn replacement(call: &mut Call) -> &mut Replacement {
    call.replacement.as_mut().expect("a row is replaced")
}

fn refused(number: u32, row: usize) -> Result<List, Refusal> {
    Err(Refusal { number, row })
}

/// Lines of several sizes, and lists of lengths about the right one, of other numbers for a row and of none. Each is built,
/// and of each the first row is replaced: a line without rows has no such row.
pub fn list_lengths() -> impl Iterator<Item = Trial> {
    [0, 1, 2, 5, MOST_ROWS - 1, MOST_ROWS].into_iter().flat_map(|rows| {
        let right = WIDTH * rows;
        let of_widths = [0, 1, 2, 6, 11, 13, 16, 24, 32, 256].map(|width| width * rows);
        let lengths = (right.saturating_sub(30)..=right + 30).chain(of_widths);
        let (case, list) = line(rows);
        let build = built(case, list);
        let replace = broken_line(rows, 0);
        lengths.flat_map(move |entries| {
            [build.clone(), replace.clone()].map(|trial| {
                let is_right = |written| if entries == right { Ok(written) } else { refused(7, 0) };
                let answer = trial.answer.clone().and_then(is_right);
                Trial { answer, ..with_list(&trial, unlike_entries(entries)) }
            })
        })
    })
}

/// A new row over and over, up to so many bytes: of every number up to 100, and of others that are 32 in their low bits.
pub fn new_row_lengths() -> impl Iterator<Item = Trial> {
    let lengths = (0..=100).chain([255, 256, 288, 1_024, 4_096, 65_535, 65_536, 65_568]);
    lengths.flat_map(|length| {
        [0, 1, 4].map(|row| {
            let mut trial = broken_line(5, row);
            let replacement = replacement(&mut trial.call);
            replacement.new_row = replacement.new_row.iter().copied().cycle().take(length).collect();
            if length != ROW_BYTES {
                trial.answer = refused(4, row);
            }
            trial
        })
    })
}

/// Every number for a row, with a row for the second of three.
pub fn row_numbers() -> impl Iterator<Item = Trial> {
    let trial = broken_line(3, 1);
    (0..=u16::MAX).map(move |row| {
        let mut trial = trial.clone();
        replacement(&mut trial.call).row = row;
        if row != 1 {
            trial.answer = refused(5, row.into());
        }
        trial
    })
}

/// Every number for the kind of a new row, by a profile with a byte for the bulb and by one without.
pub fn kind_numbers() -> impl Iterator<Item = Trial> {
    [(&BENCH_PROFILE[..], 12), (&BENCH_PROFILE_WITH_BULB, 13)].into_iter().flat_map(|(profile, last)| {
        (0..=u8::MAX).map(move |kind| {
            let block = Row::new(Kind::Solid, [0; 3]);
            let case = Case::new("every kind", profile, [block]);
            let mut call = Call::replace(&case, 0, &block);
            replacement(&mut call).new_row[12] = kind;
            let is_good = (1..=last).contains(&kind);
            Trial { case, call, answer: if is_good { Ok(vec![Some([NO_ROW; _])]) } else { refused(4, 0) } }
        })
    })
}

/// Lists that have every value in both bytes before, where they are built and where a row is replaced.
pub fn fillings() -> impl Iterator<Item = Trial> {
    let (case, list) = line(9);
    let trials = [built(case, list), broken_line(9, 3)];
    trials.into_iter().flat_map(|trial| {
        let entries = trial.call.list.len();
        (0..=u8::MAX).map(move |value| with_list(&trial, vec![u16::from_le_bytes([value; 2]); entries]))
    })
}

/// Profiles of every length up to 40 and of some others, by which a list is built and a row is replaced.
pub fn profile_lengths() -> impl Iterator<Item = Trial> {
    (0..=40).chain([255, 256, 269, 270, 4_096, 65_549, 65_550]).flat_map(|length| {
        let (case, list) = line(5);
        [built(case, list), broken_line(5, 2)].map(|mut trial| {
            trial.case.profile.resize(length, 0);
            if ![13, 14].contains(&length) {
                trial.answer = refused(1, 0);
            }
            trial
        })
    })
}

/// A step up, in which all that dust looks at is given, and a comparator that is given a level.
fn small_table() -> Case {
    let east = HORIZONTAL[1];
    let given = |kind, at| {
        Row::new(kind, at).with_powered(false).with_arms([None, Some(Arm::Up), None, Some(Arm::Side)])
    };
    let rows = [
        given(Kind::RedstoneWire, [0; 3]),
        given(Kind::Comparator, HORIZONTAL[0]).with_facing(Facing::South).with_power_level(7),
        given(Kind::Solid, east).with_support([0; 3]).with_shape(Shape::DoubleSlab),
        given(Kind::RedstoneWire, moved(east, ABOVE)).with_delay(1),
    ];
    Case::new("single bytes", BENCH_PROFILE_WITH_BULB, rows)
}

/// Every byte of a small table and of its profile set to every value. The list is built, and each row is replaced by dust.
pub fn single_bytes() -> impl Iterator<Item = (Case, Call)> {
    let good = small_table();
    let positions: Vec<_> = crate::table::positions(&good.table).collect();
    damage::single_bytes(good).flat_map(move |case| {
        let dust = |at| Row::new(Kind::RedstoneWire, at);
        let replacing = positions.iter().enumerate().map(|(row, at)| Call::replace(&case, row, &dust(*at)));
        let calls: Vec<_> = replacing.chain([Call::build(&case)]).collect();
        calls.into_iter().map(move |call| (case.clone(), call))
    })
}

/// Every byte of a new row set to every value: of each row of a small table, which is replaced by itself.
pub fn new_row_bytes() -> impl Iterator<Item = (Case, Call)> {
    let case = small_table();
    let bytes = (0..case.table.len()).flat_map(|at| (0..=u8::MAX).map(move |value| (at, value)));
    bytes.map(move |(at, value)| {
        let row = at / ROW_BYTES;
        let mut new_row = case.table[ROW_BYTES * row..][..ROW_BYTES].to_vec();
        new_row[at % ROW_BYTES] = value;
        let replacement = Some(Replacement { row: row as u16, new_row });
        (case.clone(), Call { replacement, ..Call::build(&case) })
    })
}
