//! Calls with their answers by hand: every holder and offset, and buffers and profiles of every length and value.

use redstone::{FARTHEST, Kind, MOST_ROWS, ROW_BYTES, Row, Shape};

use super::{Clear, Trial};
use crate::damage;
use crate::generate::{BENCH_PROFILE_WITH_BULB, Case, NEEDING, SUPPORTING, TORCH};
use crate::refusals::Refusal;
use crate::table::{Position, UNDER, is_on_ground, moved, step};

fn refused(number: u32) -> Result<Vec<u16>, Refusal> {
    Err(Refusal { number, row: 0 })
}

/// The bench profile with another byte for a kind.
fn profile(kind: usize, byte: u8) -> [u8; 14] {
    let mut profile = BENCH_PROFILE_WITH_BULB;
    profile[kind] = byte;
    profile
}

/// Every kind on every kind in every shape, by every byte for the lower one's kind. The lower one's support is itself.
pub fn holders() -> impl Iterator<Item = Trial> {
    let bytes = |kind| 0..=if kind == Kind::RedstoneTorch { 63 } else { 31 };
    let kinds = Kind::ALL.iter().flat_map(move |kind| bytes(*kind).map(|byte| (*kind, byte)));
    let holders = kinds.flat_map(|(kind, byte)| Shape::ALL.iter().map(move |shape| (kind, byte, *shape)));
    holders.flat_map(|(kind, byte, shape)| {
        let holds = SUPPORTING.contains(&shape) || shape == Shape::Plain && byte % 2 == 1;
        let pass = move |kind| u16::from(NEEDING.contains(&kind) && !holds);
        Kind::ALL.iter().map(move |held| {
            let holder = Row::new(kind, [0; 3]).with_shape(shape).with_support([0; 3]);
            let rows = [holder, Row::new(*held, [0, 1, 0]).with_support([0, -1, 0])];
            let case = Case::new("every holder", profile(kind.code().into(), byte), rows);
            Trial::new(case, Ok(vec![pass(kind), pass(*held)]))
        })
    })
}

/// All positions that are at most one away on each axis, the middle among them.
fn around() -> impl Iterator<Item = Position> {
    (0..27).map(|number| [number / 9 - 1, number / 3 % 3 - 1, number % 3 - 1])
}

/// A row in the middle and at every corner of the ground, with every support and with none, and a block at every position
/// beside it.
pub fn offsets() -> impl Iterator<Item = Trial> {
    let corners =
        (0..8).map(|number| [4, 2, 1].map(|bit| if number & bit == 0 { -FARTHEST } else { FARTHEST }));
    let middles = corners.chain([[0; 3]]);
    let beside =
        |middle| around().filter(|step| *step != [0; 3]).map(move |step| (middle, moved(middle, step)));
    let blocks = middles.flat_map(beside).filter(|(_, block)| is_on_ground(*block));
    blocks.flat_map(|(middle, block)| {
        let supports = around().map(Some).chain([None]);
        supports.zip(NEEDING.into_iter().cycle()).map(move |(support, kind)| {
            let is_held = support.is_some_and(|step| moved(middle, step) == block);
            let support = support.map(|step| step.map(|along| along as i8));
            let row = Row::new(kind, middle).with_support(support);
            let rows = vec![(Row::new(Kind::Solid, block), 0), (row, u16::from(!is_held))];
            Trial::of_rows("every offset", &BENCH_PROFILE_WITH_BULB, rows)
        })
    })
}

/// So many rows, of which every third is dust in the air.
fn every_third(rows: usize) -> (Case, Vec<u16>) {
    let goes = |row: usize| row % 3 == 1;
    let row = |row: usize| {
        let kind = if goes(row) { Kind::RedstoneWire } else { Kind::Solid };
        Row::new(kind, [row as i32, 0, 0]).with_support([0, -1, 0])
    };
    let case = Case::new("every third row", BENCH_PROFILE_WITH_BULB, (0..rows).map(row));
    (case, (0..rows).map(|row| u16::from(goes(row))).collect())
}

/// Lengths of either buffer about the right one, that of the other and twice the right one, and of both about the right
/// ones, on tables of several sizes.
pub fn lengths() -> impl Iterator<Item = Trial> {
    [0, 1, 2, 5, MOST_ROWS - 1, MOST_ROWS].into_iter().flat_map(|rows| {
        let (case, passes) = every_third(rows);
        let bytes = ROW_BYTES * rows;
        let of_kept = near(bytes, 70).chain([rows, 2 * bytes]).map(move |kept| [kept, rows]);
        let of_passes = near(rows, 70).chain([bytes, 2 * rows]).map(move |passes| [bytes, passes]);
        let of_both = near(bytes, 1).flat_map(move |kept| near(rows, 1).map(move |passes| [kept, passes]));
        of_kept.chain(of_passes).chain(of_both).map(move |lengths| {
            let [kept, entries] = lengths;
            let answer = if lengths == [bytes, rows] { Ok(passes.clone()) } else { refused(7) };
            Trial { case: case.clone(), clear: Clear::of_lengths(kept, entries), answer }
        })
    })
}

/// The numbers from so many less to so many more.
fn near(number: usize, by: usize) -> impl Iterator<Item = usize> {
    number.saturating_sub(by)..=number + by
}

/// Buffers that have every value before, on tables of which all rows, some and none are kept.
pub fn fillings() -> impl Iterator<Item = Trial> {
    let [all_kept, none_kept] = [(Kind::Solid, 0), (Kind::Lever, 1)].map(|(kind, pass)| {
        let rows = [0, 1, 2].map(|x| Row::new(kind, [x, 0, 0]));
        (Case::new("three of a kind", BENCH_PROFILE_WITH_BULB, rows), vec![pass; 3])
    });
    let trials = [0, 1, 2, 40].into_iter().map(every_third).chain([all_kept, none_kept]);
    trials.flat_map(|(case, passes)| {
        (0..=u8::MAX).map(move |value| {
            let mut trial = Trial::new(case.clone(), Ok(passes.clone()));
            trial.clear.kept.fill(value);
            trial.clear.passes.fill(u16::from_le_bytes([value; 2]));
            trial
        })
    })
}

/// A tower in the air and a torch on a block, in which every value is given that can be.
fn small_table() -> Case {
    let all_given = |kind, position: Position, support: Position| {
        Row::new(kind, position)
            .with_power_level(0)
            .with_delay(0)
            .with_support(step([0; 3], support))
            .with_arms([None; 4])
    };
    let rows = [
        all_given(Kind::Comparator, [0, 1, 0], UNDER).with_shape(Shape::Glass),
        all_given(Kind::RedstoneWire, [0, 2, 0], UNDER).with_shape(Shape::TopSlab),
        all_given(Kind::RedstoneLamp, [1, 0, 0], [0; 3]),
        all_given(Kind::RedstoneTorch, [1, 1, 0], UNDER),
    ];
    Case::new("single bytes", BENCH_PROFILE_WITH_BULB, rows)
}

/// Every byte of a small table and of its profile set to every value.
pub fn single_bytes() -> impl Iterator<Item = Case> {
    damage::single_bytes(small_table())
}

/// Every byte of a profile of every value. Two levers on a solid block stay where solid blocks hold and levers do.
pub fn profile_bytes() -> impl Iterator<Item = Trial> {
    let levers = [[0, 1, 0], [0, 2, 0]].map(|at| Row::new(Kind::Lever, at).with_support([0, -1, 0]));
    let kinds =
        (0..BENCH_PROFILE_WITH_BULB.len()).flat_map(|kind| (0..=u8::MAX).map(move |byte| (kind, byte)));
    kinds.map(move |(kind, byte)| {
        let mut profile = profile(LEVER, 1);
        profile[kind] = byte;
        let highest = match kind {
            0 => 0,
            TORCH => 63,
            _ => 31,
        };
        let passes = match [SOLID, LEVER].map(|kind| profile[kind] % 2) {
            [0, _] => [0, 1, 2],
            [_, 0] => [0, 0, 1],
            _ => [0, 0, 0],
        };
        let answer = if byte <= highest { Ok(passes.to_vec()) } else { refused(1) };
        let rows = [Row::new(Kind::Solid, [0; 3])].into_iter().chain(levers);
        Trial::new(Case::new("profile bytes", profile, rows), answer)
    })
}

const SOLID: usize = Kind::Solid.code() as usize;
const LEVER: usize = Kind::Lever.code() as usize;

/// Profiles of every length up to 40 and of some others.
pub fn profile_lengths() -> impl Iterator<Item = Trial> {
    (0..=40).chain([255, 256, 269, 270, 4_096, 65_549, 65_550]).map(|length| {
        let mut profile = BENCH_PROFILE_WITH_BULB.to_vec();
        profile.resize(length, 0);
        let (case, passes) = every_third(5);
        let answer = if [13, 14].contains(&length) { Ok(passes) } else { refused(1) };
        Trial::new(Case { profile, ..case }, answer)
    })
}
