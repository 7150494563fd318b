//! Damaged copies of accepted cases, and damaged states and lengths. What they are refused for, if at all, is for documents
//! 01 and 02 to say.

use redstone::{FARTHEST, Kind, MOST_ROWS, ROW_BYTES, Row};

use crate::generate::{BULB, Case, TORCH};
use crate::random::Random;

type Damage = (&'static str, fn(&mut Random, &mut Case));

/// The sorts of damage, each with its share.
const DAMAGES: [(usize, Damage); 18] = [
    (10, ("field byte", field_byte)),
    (10, ("kind", kind)),
    (10, ("value not given", value_not_given)),
    (10, ("given byte", given_byte)),
    (20, ("level of a comparator", level_of_a_comparator)),
    (10, ("coordinate at or past the end", coordinate)),
    (10, ("table cut short", cut_short)),
    (10, ("table made longer", made_longer)),
    (10, ("rows swapped", rows_swapped)),
    (10, ("position twice", position_twice)),
    (10, ("row left out", row_left_out)),
    (1, ("rows at the most or above", many_rows)),
    (10, ("profile length", profile_length)),
    (10, ("profile of Air", profile_of_air)),
    (10, ("profile of the torch", profile_of_the_torch)),
    (10, ("profile of the bulb", profile_of_the_bulb)),
    (10, ("profile byte", profile_byte)),
    (10, ("any byte", any_byte)),
];

/// A copy with one damage, or now and then two, of which the first that document 01 tests for counts.
pub fn damaged(good: &Case, random: &mut Random) -> Case {
    let mut case = good.clone();
    if random.percent(25) {
        let (_, damage) = random.weighted(&DAMAGES);
        damage(random, &mut case);
    }
    let (sort, damage) = random.weighted(&DAMAGES);
    damage(random, &mut case);
    case.sort = sort;
    case
}

/// The first byte of a row, if there is one.
fn any_row(random: &mut Random, case: &Case) -> Option<usize> {
    let rows = case.table.len() / ROW_BYTES;
    (rows > 0).then(|| ROW_BYTES * random.below(rows))
}

/// Writes to a byte of a row whose place in the row is one of these.
fn set_byte(random: &mut Random, case: &mut Case, places: &[usize], values: &[u8]) {
    let (place, value) = (random.pick(places), random.pick(values));
    if let Some(row) = any_row(random, case) {
        case.table[row + place] = value;
    }
}

fn field_byte(random: &mut Random, case: &mut Case) {
    let places: Vec<usize> = (12..ROW_BYTES).collect();
    let any = random.byte();
    set_byte(random, case, &places, &[0, 1, 2, 3, 4, 6, 7, 12, 13, 128, 254, 255, any]);
}

/// The kinds about the ends, of which a bulb is one where the profile has a byte for it, and a comparator, to which a level
/// means more than to others.
fn kind(random: &mut Random, case: &mut Case) {
    set_byte(random, case, &[12], &[0, 1, 6, 12, 13, 13, 14, 255]);
}

/// The byte that says "given" is 0 over a value that is not.
fn value_not_given(random: &mut Random, case: &mut Case) {
    let (given, last) = random.pick(&[
        (15, 16),
        (17, 18),
        (19, 20),
        (19, 21),
        (19, 22),
        (23, 24),
        (23, 25),
        (23, 26),
        (23, 27),
    ]);
    if let Some(row) = any_row(random, case) {
        case.table[row + given] = 0;
        case.table[row + last] = random.pick(&[0, 1, 1, 255]);
    }
}

fn given_byte(random: &mut Random, case: &mut Case) {
    let any = random.byte();
    set_byte(random, case, &[15, 17, 19, 23], &[0, 1, 2, 255, any]);
}

/// A level about the last and above it, on up to three comparators, or on rows that become such.
fn level_of_a_comparator(random: &mut Random, case: &mut Case) {
    for _ in 0..random.pick(&[1, 1, 2, 3]) {
        let Some(row) = comparator(random, case).or_else(|| any_row(random, case)) else { return };
        case.table[row + 12] = Kind::Comparator.code();
        case.table[row + 15] = 1;
        case.table[row + 16] = overdriven_level(random);
    }
}

/// Most often a level above 15.
pub fn overdriven_level(random: &mut Random) -> u8 {
    let any = random.byte();
    random.pick(&[15, 16, 17, 31, 127, 128, 200, 254, 255, any])
}

/// The first byte of a comparator's row, if there is one.
fn comparator(random: &mut Random, case: &Case) -> Option<usize> {
    let rows = case.table.chunks_exact(ROW_BYTES).enumerate();
    let comparators = rows.filter(|(_, row)| row[12] == Kind::Comparator.code());
    let places: Vec<_> = comparators.map(|(row, _)| ROW_BYTES * row).collect();
    (!places.is_empty()).then(|| random.pick(&places))
}

fn coordinate(random: &mut Random, case: &mut Case) {
    let any = random.bits() as i32;
    let value = random.pick(&[FARTHEST, -FARTHEST, FARTHEST + 1, -FARTHEST - 1, i32::MIN, i32::MAX, any]);
    let at = random.pick(&[0, 4, 8]);
    if let Some(row) = any_row(random, case) {
        case.table[row + at..row + at + 4].copy_from_slice(&value.to_le_bytes());
    }
}

fn cut_short(random: &mut Random, case: &mut Case) {
    let left = random.below(case.table.len() + 1);
    let left = random.pick(&[left, case.table.len().saturating_sub(1)]);
    case.table.truncate(left);
}

fn made_longer(random: &mut Random, case: &mut Case) {
    let more = random.pick(&[1, 16, 31, 32, 33]);
    let value = random.pick(&[0, 1, 255]);
    case.table.resize(case.table.len() + more, value);
}

fn rows_swapped(random: &mut Random, case: &mut Case) {
    if let (Some(one), Some(other)) = (any_row(random, case), any_row(random, case)) {
        for at in 0..ROW_BYTES {
            case.table.swap(one + at, other + at);
        }
    }
}

fn position_twice(random: &mut Random, case: &mut Case) {
    if let (Some(one), Some(other)) = (any_row(random, case), any_row(random, case)) {
        case.table.copy_within(one..one + 12, other);
    }
}

fn row_left_out(random: &mut Random, case: &mut Case) {
    if let Some(row) = any_row(random, case) {
        case.table.drain(row..row + ROW_BYTES);
    }
}

fn many_rows(random: &mut Random, case: &mut Case) {
    let rows = random.pick(&[MOST_ROWS - 1, MOST_ROWS, MOST_ROWS + 1, 2 * MOST_ROWS]);
    case.table = redstone::table((0..rows).map(|x| Row::new(Kind::Solid, [x as i32, 0, 0])));
}

fn profile_length(random: &mut Random, case: &mut Case) {
    let length = random.pick(&[0, 1, 12, 13, 13, 14, 14, 15, 26, 27, 28]);
    case.profile.resize(length, 0);
}

fn profile_of_air(random: &mut Random, case: &mut Case) {
    if let Some(air) = case.profile.first_mut() {
        *air = random.pick(&[1, 31, 32, 255]);
    }
}

fn profile_of_the_torch(random: &mut Random, case: &mut Case) {
    profile_of(TORCH, random, case);
}

fn profile_of_the_bulb(random: &mut Random, case: &mut Case) {
    profile_of(BULB, random, case);
}

/// A byte about the ends of the values, with the torch's and without.
fn profile_of(kind: usize, random: &mut Random, case: &mut Case) {
    let any = random.byte();
    if let Some(byte) = case.profile.get_mut(kind) {
        *byte = random.pick(&[0, 31, 32, 33, 63, 64, 65, 255, any]);
    }
}

fn profile_byte(random: &mut Random, case: &mut Case) {
    if !case.profile.is_empty() {
        let at = random.below(case.profile.len());
        let any = random.byte();
        case.profile[at] = random.pick(&[31, 32, 33, 63, 64, 255, any]);
    }
}

fn any_byte(random: &mut Random, case: &mut Case) {
    if !case.table.is_empty() {
        let at = random.below(case.table.len());
        case.table[at] = random.byte();
    }
}

/// A level about the last and above it, on up to three comparators, if there are any, of a device column or a state that has
/// so many bytes for a row.
pub fn overdrive(random: &mut Random, rows: &[Row], bytes: &mut [u8], width: usize) {
    let mut comparators: Vec<_> =
        rows.iter().enumerate().filter(|(_, row)| row.kind() == Kind::Comparator).collect();
    let most = random.pick(&[1, 1, 2, 3]);
    random.keep(&mut comparators, most);
    for (row, _) in comparators {
        bytes[width * row] = overdriven_level(random);
    }
}

/// Another length of a device column, a state or an output column.
pub fn other_length(random: &mut Random, length: usize) -> usize {
    random.pick(&[0, length + 1, length.saturating_sub(1), length + 16, 2 * length])
}

/// Another length or another byte of a device column or a state.
pub fn damage_bytes(random: &mut Random, bytes: &mut Vec<u8>) {
    if bytes.is_empty() || random.percent(30) {
        bytes.resize(other_length(random, bytes.len()), 0);
    } else {
        let at = random.below(bytes.len());
        let any = random.byte();
        bytes[at] = random.pick(&[0, 1, 2, 3, 16, 128, 255, any]);
    }
}

/// Every byte of a case's table and of its profile set to every value.
pub fn single_bytes(case: Case) -> impl Iterator<Item = Case> {
    let parts: [fn(&mut Case) -> &mut Vec<u8>; 2] = [|case| &mut case.table, |case| &mut case.profile];
    parts.into_iter().flat_map(move |part| {
        let mut case = case.clone();
        let bytes = part(&mut case).len();
        (0..bytes).flat_map(move |at| {
            let case = case.clone();
            (0..=u8::MAX).map(move |value| {
                let mut case = case.clone();
                part(&mut case)[at] = value;
                case
            })
        })
    })
}
