//! Tables with rows in any order, which look-ups take as they are.

use redstone::{MOST_ROWS, ROW_BYTES};

use crate::generate::{self, BENCH_PROFILE, Case};
use crate::random::Random;
use crate::table::{Position, coordinates};

type Packed = [u8; ROW_BYTES];

/// A row of nothing but a position and a kind, which may be any number.
fn packed([x, y, z]: Position, kind: u8) -> Packed {
    let mut row = [0; ROW_BYTES];
    for (at, coordinate) in [(0, x), (4, y), (8, z)] {
        row[at..at + 4].copy_from_slice(&coordinate.to_le_bytes());
    }
    row[12] = kind;
    row
}

type Order = (&'static str, fn(&mut Random, &mut [Packed]));

/// What is done to rows that stand in order, each with its share.
const ORDERS: [(usize, Order); 8] = [
    (15, ("in order", |_, _| ())),
    (10, ("in order, positions repeated", positions_repeated)),
    (20, ("shuffled", Random::shuffle)),
    (10, ("shuffled, positions repeated", shuffled_positions_repeated)),
    (15, ("two rows swapped", two_rows_swapped)),
    (20, ("one row displaced", one_row_displaced)),
    (5, ("reversed", |_, rows| rows.reverse())),
    (5, ("the last rows first", the_last_rows_first)),
];

/// The case of a seed: the rows of an accepted table, or numbered ones, in some order. Now and then the last is cut
/// short.
pub fn case(seed: u64) -> Case {
    let random = &mut Random::new(!seed);
    let mut case = if random.percent(50) { generate::case(seed) } else { numbered(random) };
    let (sort, order) = random.weighted(&ORDERS);
    let (rows, _) = case.table.as_chunks_mut();
    if !rows.is_empty() {
        order(random, rows);
    }
    if random.percent(20) {
        cut_last_row(random, &mut case.table);
    }
    Case { seed, sort, ..case }
}

/// Rows in order whose kinds tell them apart, as far as a byte can. Where the coordinates are few, some stand at one
/// position.
fn numbered(random: &mut Random) -> Case {
    let axes = [(); 3].map(|()| random.pick(&COORDINATES));
    let kinds = (1..=u8::MAX).cycle().take(row_count(random));
    let row = |kind| packed(axes.map(|coordinate| coordinate(random)), kind);
    let mut rows: Vec<_> = kinds.map(row).collect();
    rows.sort_by_key(|row| coordinates(row));
    Case::of_bytes(&BENCH_PROFILE, rows.as_flattened())
}

/// What the coordinates of an axis are taken from.
const COORDINATES: [fn(&mut Random) -> i32; 5] = [
    |_| -1,
    |random| random.within(-2, 2),
    |random| random.within(-40, 40),
    |random| random.pick(&[i32::MIN, i32::MIN + 1, -1, 0, 1, i32::MAX - 1, i32::MAX]),
    |random| random.bits() as i32,
];

fn row_count(random: &mut Random) -> usize {
    match random.below(100) {
        0..60 => random.below(9),
        60..90 => random.below(65),
        90..98 => random.below(MOST_ROWS + 1),
        _ => MOST_ROWS + random.below(513),
    }
}

/// Leaves some bytes of the last row, so that it is none.
fn cut_last_row(random: &mut Random, table: &mut Vec<u8>) {
    let cut = 1 + random.below(ROW_BYTES - 1);
    table.truncate(table.len().saturating_sub(cut));
}

fn any_row(random: &mut Random, rows: &[Packed]) -> usize {
    random.below(rows.len())
}

fn positions_repeated(random: &mut Random, rows: &mut [Packed]) {
    for row in 0..rows.len() {
        if random.percent(20) {
            let other = rows[any_row(random, rows)];
            rows[row][..12].copy_from_slice(&other[..12]);
        }
    }
    rows.sort_by_key(|row| coordinates(row));
}

fn shuffled_positions_repeated(random: &mut Random, rows: &mut [Packed]) {
    positions_repeated(random, rows);
    random.shuffle(rows);
}

fn two_rows_swapped(random: &mut Random, rows: &mut [Packed]) {
    rows.swap(any_row(random, rows), any_row(random, rows));
}

fn one_row_displaced(random: &mut Random, rows: &mut [Packed]) {
    let (from, to) = (any_row(random, rows), any_row(random, rows));
    if from < to {
        rows[from..=to].rotate_left(1);
    } else {
        rows[to..=from].rotate_right(1);
    }
}

fn the_last_rows_first(random: &mut Random, rows: &mut [Packed]) {
    rows.rotate_left(any_row(random, rows));
}

/// The sorts of small table, by the number of their rows.
const SMALL: [&str; 6] = ["no rows", "one row", "two rows", "three rows", "four rows", "five rows"];

/// Every table of at most five rows at the corners of a cube about 0, where a corner may have any number of them. The
/// rows have kinds 1 to 5, the first of them 1.
pub fn small_cases() -> impl Iterator<Item = Case> {
    let of_length = |rows: u32| (0..CORNERS.pow(rows)).map(move |number| small_case(rows, number));
    (0..SMALL.len() as u32).flat_map(of_length)
}

const CORNERS: usize = 8;

/// The digits of the number, to the base of eight, are the rows' corners.
fn small_case(rows: u32, number: usize) -> Case {
    let row = |row: u32| packed(corner(number / CORNERS.pow(row) % CORNERS), row as u8 + 1);
    let table: Vec<_> = (0..rows).map(row).collect();
    Case { sort: SMALL[rows as usize], ..Case::of_bytes(&BENCH_PROFILE, table.as_flattened()) }
}

fn corner(number: usize) -> Position {
    [4, 2, 1].map(|bit| if number & bit == 0 { -1 } else { 1 })
}
