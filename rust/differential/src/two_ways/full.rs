//! Tables of as many rows as there may be, in every shape.

use redstone::{FARTHEST, Facing, Kind, MOST_ROWS, Row};

use crate::generate::{self, BENCH_PROFILE_WITH_BULB, Case, any_row};
use crate::random::Random;
use crate::shapes;
use crate::table::{Position, moved, moved_row};

/// Every row supports, receives and drives, and a torch charges the block above it.
const ALL_PROFILE: [u8; 14] = [0, 31, 31, 31, 63, 31, 31, 31, 31, 31, 31, 31, 31, 31];
/// No row does.
const NO_PROFILE: [u8; 14] = [0; 14];

/// Each shape by the bench profile with the bulb; every third by a profile of which every kind has all and by one of which no
/// kind has anything, too; and the lit ends of lines by all three.
pub fn full_tables() -> impl Iterator<Item = Case> {
    let bench = shapes().into_iter().map(|(sort, rows)| full(sort, BENCH_PROFILE_WITH_BULB, rows));
    let others = [ALL_PROFILE, NO_PROFILE].into_iter().flat_map(|profile| {
        shapes().into_iter().step_by(3).map(move |(sort, rows)| full(sort, profile, rows))
    });
    let lit = [BENCH_PROFILE_WITH_BULB, ALL_PROFILE, NO_PROFILE]
        .map(|profile| full("the ends of every line, the last ones lit", profile, lit_ends()));
    bench.chain(others).chain(lit)
}

fn full(sort: &'static str, profile: [u8; 14], rows: Vec<Row>) -> Case {
    let case = Case::new(sort, profile, rows);
    assert!([MOST_ROWS - 1, MOST_ROWS].contains(&case.rows()), "{sort}: {} rows", case.rows());
    case
}

type Shape = (&'static str, Vec<Row>);

fn shapes() -> Vec<Shape> {
    let line = |dust| generate::Case::line("line", dust);
    let table_rows = |case: Case| crate::table::rows(&case.table);
    vec![
        ("a line on blocks", table_rows(line(511))),
        ("a line to the South", lined([0, 0, 1], Kind::RedstoneWire)),
        ("a line up", lined([0, 1, 0], Kind::RedstoneWire)),
        ("a line from its first row on", lit_from(0)),
        ("a line from its last row back", lit_from(MOST_ROWS as i32 - 2)),
        ("a line lit all along", shapes::lit_line(32)),
        ("a line of blocks", lined([1, 0, 0], Kind::Solid)),
        ("stairs", shapes::stairs(33)),
        ("a plane", shapes::plane([32, 32])),
        ("a plane to the end of the ground", at_the_end(shapes::plane([32, 32]))),
        ("a plane on blocks", plane_on_blocks()),
        ("a wall to the East", cells([32, 32, 1])),
        ("a wall to the South", cells([1, 32, 32])),
        ("a cube of dust", cells([8, 16, 8])),
        ("a cube of all kinds", shapes::dense(0, [8, 16, 8], 300)),
        ("a cube of dust and blocks", checkered()),
        ("a column of dust and blocks", shapes::towers([1, 1_023, 1])),
        ("columns of dust and blocks", shapes::towers([4, 31, 8])),
        ("dust with nothing beside it", shapes::apart([16, 4, 16])),
        ("dust in every other cell", shapes::floating([16, 8, 16])),
        ("scattered", scattered()),
        ("the ends of every line", ends_of_lines()),
        ("devices", devices()),
        ("levers at corners", shapes::levers([16, 32])),
        ("comparators of many levels", shapes::comparators(32)),
    ]
}

/// Rows of a kind one after the other, and a redstone block as the first.
fn lined(step: Position, kind: Kind) -> Vec<Row> {
    let place = |number: i32| step.map(|along| along * number);
    let others = (1..MOST_ROWS as i32).map(|number| Row::new(kind, place(number)));
    others.chain([Row::new(Kind::RedstoneBlock, [0; 3])]).collect()
}

/// A line of dust to the South, of which one has a lever: the last row above the first dust, and else the first row under it.
fn lit_from(number: i32) -> Vec<Row> {
    let dust = (0..MOST_ROWS as i32 - 1).map(|z| Row::new(Kind::RedstoneWire, [0, 0, z]));
    let at = [0, if number == 0 { 1 } else { -1 }, number];
    dust.chain([Row::new(Kind::Lever, at).with_powered(true)]).collect()
}

/// The rows moved so that the farthest of them are at the end of the ground along every axis.
fn at_the_end(rows: Vec<Row>) -> Vec<Row> {
    let farthest = |axis: usize| rows.iter().map(|row| row.position()[axis]).max().unwrap_or(0);
    let step = [0, 1, 2].map(|axis| FARTHEST - farthest(axis));
    rows.iter().map(|row| moved_row(row, step)).collect()
}

fn plane_on_blocks() -> Vec<Row> {
    let dust = shapes::plane([16, 32]);
    let block = |row: &Row| Row::new(Kind::Solid, moved(row.position(), [0, -1, 0]));
    dust.iter().map(block).chain(dust.iter().copied()).collect()
}

/// A full box of dust with a few sources of several levels.
fn cells(extent: Position) -> Vec<Row> {
    let cell = |(number, at): (usize, Position)| match number % 97 {
        0 => Row::new(Kind::Lever, at).with_powered(true).with_power_level((number % 16) as u8),
        _ => Row::new(Kind::RedstoneWire, at),
    };
    shapes::lattice(extent, 1).enumerate().map(cell).collect()
}

/// Dust and solid blocks by turns along every axis, and a few levers.
fn checkered() -> Vec<Row> {
    let cell = |(number, at): (usize, Position)| match (number % 61, at.iter().sum::<i32>() % 2) {
        (0, _) => Row::new(Kind::Lever, at).with_powered(true).with_support([0, 1, 0]),
        (_, 0) => Row::new(Kind::RedstoneWire, at),
        _ => Row::new(Kind::Solid, at),
    };
    shapes::lattice([8, 16, 8], 1).enumerate().map(cell).collect()
}

/// Pairs of rows, more than a thousand cells apart along x.
fn scattered() -> Vec<Row> {
    let random = &mut Random::new(10);
    let pair = |number: i32| {
        let at = [2_000 * number - FARTHEST, 0, 0].map(|along| along + random.within(0, 900));
        [at, moved(at, [0, 0, 1])].map(|at| any_row(random, at))
    };
    (0..MOST_ROWS as i32 / 2).flat_map(pair).collect()
}

/// Of lines side by side the first cell, the last and those beside them: dust and redstone blocks by turns.
fn ends_of_lines() -> Vec<Row> {
    let ends = [-FARTHEST, 1 - FARTHEST, FARTHEST - 1, FARTHEST];
    let lines = shapes::lattice([16, 16, 1], 1);
    let line = |[x, y, _]: Position| {
        ends.map(|z| {
            let kind = if (x + y) % 2 == i32::from(z > 0) { Kind::RedstoneWire } else { Kind::RedstoneBlock };
            Row::new(kind, [x, y, z])
        })
    };
    lines.flat_map(line).collect()
}

/// The same cells: dust, and in every other line a redstone block before the last cell. No power comes to the first cells.
fn lit_ends() -> Vec<Row> {
    let cell = |row: Row| {
        let [_, y, z] = row.position();
        let is_source = y % 2 == 0 && z == FARTHEST - 1;
        Row::new(if is_source { Kind::RedstoneBlock } else { Kind::RedstoneWire }, row.position())
    };
    ends_of_lines().into_iter().map(cell).collect()
}

/// Repeaters, comparators, torches, levers, lamps and bulbs in every facing, side by side.
fn devices() -> Vec<Row> {
    let kinds = [
        Kind::Repeater,
        Kind::Comparator,
        Kind::RedstoneTorch,
        Kind::Lever,
        Kind::RedstoneLamp,
        Kind::CopperBulb,
        Kind::Button,
    ];
    let cell = |(number, at): (usize, Position)| {
        Row::new(kinds[number % kinds.len()], at)
            .with_facing(Facing::ALL[number % Facing::ALL.len()])
            .with_powered(number % 5 < 3)
            .with_power_level((number % 16) as u8)
            .with_support(
                shapes::CORNERS[number % 8].map(|along| if number % 3 == 0 { along as i8 } else { 0 }),
            )
    };
    shapes::lattice([8, 16, 8], 1).enumerate().map(cell).collect()
}
