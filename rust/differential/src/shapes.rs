//! Rows in a shape, up to as many as a table may have.

use redstone::{Facing, Kind, Row};

use crate::generate::any_row;
use crate::random::Random;
use crate::table::{ABOVE, Position, UNDER, back, moved};

/// A row on a solid block.
fn on_a_block(row: Row) -> [Row; 2] {
    [Row::new(Kind::Solid, moved(row.position(), UNDER)), row]
}

fn dust(at: Position) -> Row {
    Row::new(Kind::RedstoneWire, at)
}

/// The cells of a box from its corner of low coordinates on, every so many cells.
pub fn lattice(extent: [i32; 3], apart: i32) -> impl Iterator<Item = Position> {
    let planes = (0..extent[0]).flat_map(move |x| (0..extent[1]).map(move |y| [x, y]));
    planes.flat_map(move |[x, y]| (0..extent[2]).map(move |z| [x, y, z].map(|along| apart * along)))
}

/// So many times a source and fifteen dust, on blocks: first a redstone block, and from then on repeaters that are on. 32 rows
/// each.
pub fn lit_line(sources: i32) -> Vec<Row> {
    let cell = |x: i32| match (x, x % 16) {
        (0, _) => Row::new(Kind::RedstoneBlock, [0, 1, 0]),
        (_, 0) => Row::new(Kind::Repeater, [x, 1, 0]).with_facing(Facing::East).with_powered(true),
        _ => dust([x, 1, 0]),
    };
    (0..16 * sources).map(cell).flat_map(on_a_block).collect()
}

/// So many flights of fifteen steps down from a redstone block, each with dust on it: 31 rows each, and one more under the first.
pub fn stairs(flights: i32) -> Vec<Row> {
    let flight = |z: i32| {
        let steps = (1..=15).flat_map(move |step| on_a_block(dust([step, -step, z])));
        steps.chain([Row::new(Kind::RedstoneBlock, [0, -1, z])])
    };
    let flights = (0..flights).flat_map(|number| flight(2 * number));
    flights.chain([Row::new(Kind::Solid, [0, -2, 0])]).collect()
}

/// A plane of dust with a redstone block in the middle.
pub fn plane([wide, long]: [i32; 2]) -> Vec<Row> {
    let middle = [wide / 2, 0, long / 2];
    let cell = |at| if at == middle { Row::new(Kind::RedstoneBlock, at) } else { dust(at) };
    lattice([wide, 1, long], 1).map(cell).collect()
}

/// Dust with nothing beside it.
pub fn apart(extent: [i32; 3]) -> Vec<Row> {
    lattice(extent, 2).map(dust).collect()
}

/// Dust in every other cell of a box, with nothing beside it and dust above and below the cells beside.
pub fn floating(extent: [i32; 3]) -> Vec<Row> {
    lattice(extent, 1).filter(|at| at.iter().sum::<i32>() % 2 == 0).map(dust).collect()
}

/// The steps to the corners of a cell.
pub const CORNERS: [Position; 8] =
    [[-1, -1, -1], [-1, -1, 1], [-1, 1, -1], [-1, 1, 1], [1, -1, -1], [1, -1, 1], [1, 1, -1], [1, 1, 1]];

/// Solid blocks, and at a corner of each, by turns, a lever that is on and holds on to it.
pub fn levers([wide, long]: [i32; 2]) -> Vec<Row> {
    let pair = |(block, corner): (Position, &Position)| {
        let lever = Row::new(Kind::Lever, moved(block, *corner)).with_powered(true);
        [Row::new(Kind::Solid, block), lever.with_support(back(*corner).map(|along| along as i8))]
    };
    lattice([wide, 1, long], 3).zip(CORNERS.iter().cycle()).flat_map(pair).collect()
}

/// So many lines of fifteen dust side by side, on blocks, each behind a comparator of a level of its own up to 15. 32 rows each.
pub fn comparators(lines: i32) -> Vec<Row> {
    let comparator = |z: i32| {
        let level = 1 + 7 * z % 15;
        Row::new(Kind::Comparator, [0, 1, z]).with_facing(Facing::East).with_power_level(level as u8)
    };
    let line = move |z| (1..=15).map(move |x| dust([x, 1, z])).chain([comparator(z)]);
    (0..lines).flat_map(line).flat_map(on_a_block).collect()
}

/// A full box in which each cell is dust with a chance of so many in a thousand, and else of any other kind but a bulb, with
/// any fields.
pub fn dense(seed: u64, extent: [i32; 3], dusty: usize) -> Vec<Row> {
    let random = &mut Random::new(seed);
    let others: Vec<_> = Kind::ALL
        .iter()
        .copied()
        .filter(|kind| ![Kind::RedstoneWire, Kind::CopperBulb].contains(kind))
        .collect();
    let cell = |at| {
        let kind = if random.below(1000) < dusty { Kind::RedstoneWire } else { random.pick(&others) };
        let row = any_row(random, at).with_kind(kind);
        row.with_power_level(row.power_level().map(|level| level.min(15)))
    };
    lattice(extent, 1).map(cell).collect()
}

/// Columns of dust and blocks by turns, from a lever on.
pub fn towers([wide, high, long]: [i32; 3]) -> Vec<Row> {
    let cell = |at: Position| match at[1] % 2 {
        0 => dust(at),
        _ => Row::new(Kind::Solid, at),
    };
    let lever = |at: Position| Row::new(Kind::Lever, at).with_powered(true).with_support([0, 1, 0]);
    let feet = lattice([wide, 1, long], 1).map(lever);
    feet.chain(lattice([wide, high, long], 1).map(|at| cell(moved(at, ABOVE)))).collect()
}
