//! Calls from a seed: two tables that have rows in common or have none, and often a fault or two.

use redstone::{FARTHEST, ROW_BYTES, Row, table};

use super::trials::{Layout, of_counts};
use super::{Merge, OUT_BYTES};
use crate::damage::damaged;
use crate::generate::{self, BENCH_PROFILE_WITH_BULB, Case};
use crate::random::Random;
use crate::table::{Position, back, moved_row, positions, rows};

/// A call, and how its tables stand to each other.
pub struct Generated {
    pub sort: &'static str,
    pub merge: Merge,
}

type Sort = (&'static str, fn(&mut Random) -> Merge);

/// How two tables stand to each other, each with its share.
const SORTS: [(usize, Sort); 7] = [
    (40, ("parts of a table", parts)),
    (15, ("parts that clash", clashing)),
    (10, ("a table and itself", with_itself)),
    (10, ("side by side", side_by_side)),
    (10, ("one over the other", one_over_the_other)),
    (14, ("anywhere", anywhere)),
    (1, ("about the most rows", about_the_most)),
];

type Damage = fn(&mut Random, &mut Merge);

/// What is done to a call, each with its share.
const DAMAGES: [(usize, Damage); 6] = [
    (70, |_, _| ()),
    (8, |random, merge| damage_table(random, &mut merge.first)),
    (8, |random, merge| damage_table(random, &mut merge.second)),
    (4, damage_offset),
    (5, damage_out),
    (5, |random, merge| {
        damage_table(random, &mut merge.first);
        damage_table(random, &mut merge.second);
        damage_out(random, merge);
    }),
];

/// The call of a seed.
pub fn generated(seed: u64) -> Generated {
    let random = &mut Random::new(seed);
    let (sort, make) = random.weighted(&SORTS);
    let mut merge = make(random);
    merge.out.filling = random.byte();
    for _ in 0..2 {
        random.weighted(&DAMAGES)(random, &mut merge);
    }
    Generated { sort, merge }
}

fn any_table(random: &mut Random) -> Vec<u8> {
    generate::case(random.bits()).table
}

/// The rows of a table in two parts, the second moved away. Some are in both.
fn parts(random: &mut Random) -> Merge {
    let (mut first, mut second) = (Vec::new(), Vec::new());
    let (in_both, in_first) = (random.pick(&[0, 20, 50, 90, 100]), random.pick(&[0, 30, 50, 100]));
    for row in rows(&any_table(random)) {
        let is_in_both = random.percent(in_both);
        let is_in_first = random.percent(in_first);
        first.extend((is_in_both || is_in_first).then_some(row));
        second.extend((is_in_both || !is_in_first).then_some(row));
    }
    let offset = offset_to(random, &second);
    let second = second.iter().map(|row| moved_row(row, back(offset)));
    Merge::new(table(first), table(second), offset)
}

/// An offset by which these rows may have come where they are.
fn offset_to(random: &mut Random, rows: &[Row]) -> Position {
    [0, 1, 2].map(|axis| {
        let along = rows.iter().map(|row| row.position()[axis]);
        let low = along.clone().max().unwrap_or(-FARTHEST) - FARTHEST;
        let high = along.min().unwrap_or(FARTHEST) + FARTHEST;
        let any = random.within(low, high);
        let near = random.within(-3, 3).clamp(low, high);
        random.pick(&[0, near, near, any, low, high])
    })
}

/// Parts of a table of which one has another byte in a row.
fn clashing(random: &mut Random) -> Merge {
    let mut merge = parts(random);
    let table = if random.percent(50) { &mut merge.first } else { &mut merge.second };
    if !table.is_empty() {
        let row = random.below(table.len() / ROW_BYTES);
        let any = 12 + random.below(ROW_BYTES - 12);
        let byte = random.pick(&[12, 13, 14, 28, 29, any]);
        table[ROW_BYTES * row + byte] = random.pick(&[0, 1, 1, 2, 3]);
    }
    merge
}

fn with_itself(random: &mut Random) -> Merge {
    let table = any_table(random);
    let offset = [(); 3].map(|()| random.pick(&[0, 0, 0, 0, 1, -1]));
    Merge::new(&table[..], &table[..], offset)
}

/// The least and the greatest coordinate of a table along an axis, or 0 where it has no rows.
fn extent(table: &[u8], axis: usize) -> [i32; 2] {
    let along = || positions(table).map(|position| position[axis]);
    [along().min().unwrap_or(0), along().max().unwrap_or(0)]
}

/// The second begins where the first ends along an axis.
fn side_by_side(random: &mut Random) -> Merge {
    let [first, second] = [(); 2].map(|()| any_table(random));
    let beside = random.below(3);
    let offset = [0, 1, 2].map(|axis| {
        let ([low, high], [from, _]) = (extent(&first, axis), extent(&second, axis));
        if axis == beside { high + 1 - from } else { low - from }
    });
    Merge::new(first, second, offset)
}

/// The corners of both are about the same.
fn one_over_the_other(random: &mut Random) -> Merge {
    let [first, second] = [(); 2].map(|()| any_table(random));
    let offset = [0, 1, 2].map(|axis| {
        let ([low, _], [from, _]) = (extent(&first, axis), extent(&second, axis));
        low - from + random.within(-2, 2)
    });
    Merge::new(first, second, offset)
}

/// Often by an offset that leaves the second on the ground.
fn anywhere(random: &mut Random) -> Merge {
    let [first, second] = [(); 2].map(|()| any_table(random));
    let offset = [0, 1, 2].map(|axis| {
        let [low, high] = extent(&second, axis);
        let any = random.within(-2_000_000, 2_000_000);
        let lands = random.within(-FARTHEST - low, FARTHEST - high);
        random.pick(&[0, lands, lands, lands, -FARTHEST - low, FARTHEST - high, FARTHEST + 1 - high, any])
    });
    Merge::new(first, second, offset)
}

/// Solid blocks, some 1,024 of them together.
fn about_the_most(random: &mut Random) -> Merge {
    let together = 1_020 + random.below(9);
    let shared = random.below(together + 1);
    let first = shared + random.below(together - shared + 1);
    let second = together - first + shared;
    let offset = [(); 3].map(|()| random.within(-3, 3));
    of_counts([first, second, shared], random.pick(&Layout::ALL), offset)
}

fn damage_table(random: &mut Random, table: &mut Vec<u8>) {
    *table = damaged(&Case::of_bytes(&BENCH_PROFILE_WITH_BULB, table), random).table;
}

fn damage_offset(random: &mut Random, merge: &mut Merge) {
    let ends = [1_999_999, 2_000_000, 2_000_001, i32::MAX];
    let along = random.pick(&ends);
    merge.offset[random.below(3)] = random.pick(&[along, -along, i32::MIN]);
}

fn damage_out(random: &mut Random, merge: &mut Merge) {
    let any = random.below(2 * OUT_BYTES);
    merge.out.bytes = random.pick(&[
        0,
        32,
        OUT_BYTES - ROW_BYTES,
        OUT_BYTES - 1,
        OUT_BYTES + 1,
        OUT_BYTES + ROW_BYTES,
        any,
    ]);
}
