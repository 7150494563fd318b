//! Calls from a seed, often with a fault or two, and accepted tables with rows that replace others one after the other.

use redstone::{Arm, Kind, ROW_BYTES, Row};

use super::reading::{NO_ROW, Read, WIDTH};
use super::{Call, LIST, Replacement};
use crate::compare::Answers;
use crate::damage::{damaged, other_length, overdriven_level};
use crate::generate::{self, Case, any_arms, any_row, with_arms};
use crate::lent::unlike_entries;
use crate::random::Random;
use crate::refusals::check;
use crate::table::{Position, coordinates, rows};

/// The call of a seed.
pub fn generated(seed: u64) -> (Case, Call) {
    let random = &mut Random::new(!seed);
    let mut case = any_case(random, seed);
    if random.percent(12) {
        case = damaged(&case, random);
    }
    let replacement = random.sometimes(75, |random| any_replacement(random, &case));
    let mut list = any_list(random, &case);
    if random.percent(6) {
        let length = other_length(random, list.len());
        list.resize(length, NO_ROW);
    }
    (case, Call { replacement, list })
}

/// An accepted case, now and then of much dust.
fn any_case(random: &mut Random, seed: u64) -> Case {
    let case = with_arms(random, generate::case(seed));
    if random.percent(12) { with_more_dust(random, case) } else { case }
}

/// The case with dust in the place of other rows, of which some has arms up, and by whose profile dust carries dust.
fn with_more_dust(random: &mut Random, mut case: Case) -> Case {
    case.profile[usize::from(Kind::RedstoneWire.code())] = random.pick(&[1, 17, 31]);
    let share = random.pick(&[40, 70, 95]);
    let more = |row: Row| {
        let arms = random.sometimes(50, any_arms).unwrap_or([Some(Arm::Up); 4]);
        let is_dust = random.percent(share);
        if is_dust { row.with_kind(Kind::RedstoneWire).with_arms(arms) } else { row }
    };
    case.table = redstone::table(rows(&case.table).into_iter().map(more));
    case
}

/// Most often a row of the table, and one at its position that may be put there.
fn any_replacement(random: &mut Random, case: &Case) -> Replacement {
    let row = random.below(case.rows().max(1));
    let old = case.table.chunks_exact(ROW_BYTES).nth(row);
    let at = old.map_or([0; 3], coordinates);
    let new_row = any_new_row(random, at, old.and_then(|old| Row::try_from(old).ok()));
    let mut replacement = Replacement { row: row as u16, new_row: new_row.bytes().into() };
    for damage in DAMAGES {
        if random.percent(3) {
            damage(random, &mut replacement);
        }
    }
    replacement
}

/// Any row, dust with any arms, a plain row of any kind, or the old one as it was or with another kind.
fn any_new_row(random: &mut Random, at: Position, old: Option<Row>) -> Row {
    let any = any_row(random, at);
    let old = old.unwrap_or(any);
    match random.below(10) {
        0..3 => any,
        3..6 => Row::new(Kind::RedstoneWire, at).with_arms(random.sometimes(40, any_arms)),
        6..8 => Row::new(random.pick(Kind::ALL), at),
        8 => old.with_kind(random.pick(Kind::ALL)),
        _ => old,
    }
}

type Damage = fn(&mut Random, &mut Replacement);

const DAMAGES: [Damage; 5] = [
    |random, replacement| {
        let any = random.below(100);
        let length = random.pick(&[0, 31, 33, 64, any]);
        replacement.new_row.resize(length, 0);
    },
    |random, replacement| {
        let value = random.byte();
        set(random, replacement, 12..ROW_BYTES, value);
    },
    |random, replacement| {
        let value = random.byte_below(4);
        set(random, replacement, 0..12, value);
    },
    |random, replacement| {
        let any = random.bits() as u16;
        replacement.row = random.pick(&[replacement.row.wrapping_add(1), 1_023, 1_024, u16::MAX, any]);
    },
    |random, replacement| {
        if let Some(row) = replacement.new_row.first_chunk_mut::<ROW_BYTES>() {
            row[12] = Kind::Comparator.code();
            row[15] = 1;
            row[16] = overdriven_level(random);
        }
    },
];

/// Sets one of these bytes of the new row, if there are so many.
fn set(random: &mut Random, replacement: &mut Replacement, places: std::ops::Range<usize>, value: u8) {
    let at = places.start + random.below(places.len());
    replacement.new_row.get_mut(at).into_iter().for_each(|byte| *byte = value);
}

/// The table's own list as often as a wrong one, which may be nearly right.
fn any_list(random: &mut Random, case: &Case) -> Vec<u16> {
    let entries = WIDTH * case.rows();
    match random.below(12) {
        0..6 => right_list(case),
        6..8 => {
            let mut list = right_list(case);
            for _ in 0..random.below(5) * usize::from(entries > 0) {
                let at = random.below(entries);
                list[at] = random.bits() as u16;
            }
            list
        }
        8 => unlike_entries(entries),
        9 => vec![random.pick(&[0, NO_ROW]); entries],
        _ => (0..entries).map(|_| random.below(case.rows() + 1) as u16).collect(),
    }
}

/// The list of an accepted table. A refused one has none.
fn right_list(case: &Case) -> Vec<u16> {
    Read::new(case).answer(&Call::build(case)).buffers[LIST].entries.clone()
}

/// An accepted case, and rows that replace others of it one after the other, if it has any.
pub fn edits(seed: u64) -> (Case, Vec<Replacement>) {
    let random = &mut Random::new(!seed);
    let case = any_case(random, seed);
    let edits = edits_of(random, &case, 16);
    (case, edits)
}

/// So many.
pub fn edits_of(random: &mut Random, case: &Case, count: usize) -> Vec<Replacement> {
    let rows = rows(&case.table);
    let edit = |_| {
        let row = random.below(rows.len());
        let old = rows[row];
        let new_row = any_new_row(random, old.position(), Some(old));
        let is_good = check(&case.profile, &new_row.bytes()).is_ok();
        let new_row = if is_good { new_row } else { new_row.with_kind(Kind::RedstoneWire) };
        Replacement { row: row as u16, new_row: new_row.bytes().into() }
    };
    if rows.is_empty() { Vec::new() } else { (0..count).map(edit).collect() }
}
