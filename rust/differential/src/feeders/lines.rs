//! Dust in lines, of which a row is replaced.

use redstone::{Kind, MOST_ROWS, Row};

use super::reading::{Entries, NO_ROW, listed};
use super::trials::{built, replacing};
use super::{Call, List, Trial};
use crate::generate::{BENCH_PROFILE_WITH_BULB, Case};
use crate::refusals::Refusal;

/// So many dust in a line, and their list.
pub fn line(rows: usize) -> (Case, Vec<Entries>) {
    let dust = (0..rows).map(|row| Row::new(Kind::RedstoneWire, place(row)));
    let case = Case::new("line", BENCH_PROFILE_WITH_BULB, dust);
    (case, (0..rows).map(|row| listed(beside(rows, row))).collect())
}

fn place(row: usize) -> [i32; 3] {
    [row as i32, 0, 0]
}

/// The rows beside one.
fn beside(rows: usize, row: usize) -> impl Iterator<Item = usize> {
    let [before, after] = [row.checked_sub(1), Some(row + 1).filter(|row| *row < rows)];
    before.into_iter().chain(after)
}

/// What is written where a row becomes a piston.
fn without(rows: usize, replaced: usize) -> List {
    let entries = |row: usize| match row.abs_diff(replaced) {
        0 => Some([NO_ROW; _]),
        1..=2 => Some(listed(beside(rows, row).filter(|other| *other != replaced))),
        _ => None,
    };
    (0..rows).map(entries).collect()
}

/// A line of which a row becomes a piston, if there is such a row. The list that is handed in is no table's.
pub fn broken_line(rows: usize, replaced: usize) -> Trial {
    let (case, _) = line(rows);
    let is_there = replaced < rows;
    let answer = is_there.then(|| without(rows, replaced)).ok_or(Refusal { number: 5, row: replaced });
    Trial { call: Call::replace(&case, replaced, &piston(replaced)), case, answer }
}

/// It feeds nothing and carries nothing, and no arm leads to it.
fn piston(row: usize) -> Row {
    Row::new(Kind::Piston, place(row))
}

/// Lines up to the longest. Each is built, and rows at both ends and in the middle are replaced.
pub fn full_lines() -> impl Iterator<Item = Trial> {
    [9, 256, 257, MOST_ROWS - 1, MOST_ROWS].into_iter().flat_map(|rows| {
        let (case, list) = line(rows);
        let places = [0, 1, 2, 3, rows / 2, rows - 4, rows - 3, rows - 2, rows - 1];
        let of_case = (case.clone(), list.clone());
        let replaced = places.into_iter().flat_map(move |row| {
            let (case, list) = &of_case;
            replacing(case, row, &piston(row), list, &without(rows, row))
        });
        [built(case, list)].into_iter().chain(replaced)
    })
}
