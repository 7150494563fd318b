//! Tables of rows that hold each other up, or would.

use std::collections::BTreeSet;

use redstone::{Kind, Row, Shape};

use super::Sort;
use super::rows::{any_step, device, floor};
use super::sorts::{Plan, origin};
use crate::random::Random;
use crate::table::{ABOVE, Position, UNDER, is_on_ground, moved, step};

/// The kinds that need support.
pub const NEEDING: [Kind; 5] =
    [Kind::RedstoneWire, Kind::RedstoneTorch, Kind::Repeater, Kind::Comparator, Kind::Lever];

/// The shapes that support components, whatever the kind, and those that do not.
pub const SUPPORTING: [Shape; 4] = [Shape::TopSlab, Shape::DoubleSlab, Shape::TopStairs, Shape::Glass];
pub const NOT_SUPPORTING: [Shape; 2] = [Shape::BottomSlab, Shape::BottomStairs];

/// The sorts of table, each with its share.
pub const SORTS: [(usize, Sort); 10] = [
    (200, ("leaning box", leaning_box)),
    (180, ("towers", towers)),
    (150, ("rings", rings)),
    (100, ("pairs", pairs)),
    (180, ("room without floor", room_without_floor)),
    (80, ("all stands", all_stands)),
    (80, ("all falls", all_falls)),
    (20, ("hundreds of leaning rows", large_leaning_box)),
    (5, ("long tower", long_tower)),
    (5, ("long ring", long_ring)),
];

/// A row that needs support, held by what is at a position.
fn leaning(random: &mut Random, at: Position, support: Option<Position>, shape: Shape) -> Row {
    Row::new(random.pick(&NEEDING), at)
        .with_powered(random.pick(&[None, Some(false), Some(true)]))
        .with_support(support.map(|support| step(at, support)))
        .with_shape(shape)
}

/// Most often one that holds.
fn shape(random: &mut Random) -> Shape {
    match random.below(20) {
        0..17 => holding_shape(random),
        17 => random.pick(&NOT_SUPPORTING),
        _ => Shape::Plain,
    }
}

fn holding_shape(random: &mut Random) -> Shape {
    random.pick(&SUPPORTING)
}

fn any_offset(random: &mut Random) -> Position {
    [(); 3].map(|()| random.within(-1, 1))
}

/// Places each beside the one before, none of them twice, as far as the way is free.
fn walk(random: &mut Random, from: Position, most: usize, turns: usize) -> Vec<Position> {
    let (mut places, mut taken) = (vec![from], BTreeSet::from([from]));
    let (mut at, mut along) = (from, any_offset(random));
    for _ in 1..2 * most {
        let next = moved(at, along);
        if places.len() < most && is_on_ground(next) && taken.insert(next) {
            places.push(next);
            at = next;
        }
        if at != next || random.percent(turns) {
            along = any_offset(random);
        }
    }
    places
}

/// A row for each place, held by the one before it.
fn put_tower(random: &mut Random, plan: &mut Plan, places: &[Position], shape: fn(&mut Random) -> Shape) {
    for pair in places.windows(2) {
        let shape = shape(random);
        plan.put(leaning(random, pair[1], Some(pair[0]), shape));
    }
}

/// What the lowest row of a tower is: a block, or a row that nothing holds.
fn foot(random: &mut Random, at: Position) -> Row {
    match random.below(4) {
        0 => leaning(random, at, None, Shape::Glass),
        1 => leaning(random, at, Some(moved(at, UNDER)), Shape::Glass),
        2 => floor(random, at),
        _ => device(random, at),
    }
}

fn towers(random: &mut Random) -> Vec<Row> {
    let from = origin(random, 4);
    let mut plan = Plan::default();
    for _ in 0..random.within(1, 4) {
        let at = moved(from, [(); 3].map(|()| random.within(0, 4)));
        let (most, turns) = (random.pick(&[2, 3, 4, 6, 10, 20]), random.pick(&[0, 20, 60]));
        let places = walk(random, at, most, turns);
        put_tower(random, &mut plan, &places, shape);
        plan.put(foot(random, at));
    }
    plan.rows()
}

/// Where the rows of a ring stand, out along a line and back beside it: how far along, and how far beside. Each is beside the
/// one before, and the first beside the last.
pub fn ring_places(rows: usize) -> impl DoubleEndedIterator<Item = [i32; 2]> {
    let (out, back) = ((rows - rows / 2) as i32, (rows / 2) as i32);
    (0..out).map(|along| [along, 0]).chain((0..back).rev().map(|along| [along, 1]))
}

/// A ring along any two axes, either way round.
fn round(random: &mut Random, from: Position, rows: usize) -> Vec<Position> {
    let axes = random.pick(&[[0, 1], [0, 2], [1, 0], [1, 2], [2, 0], [2, 1]]);
    let place = |[along, beside]: [i32; 2]| {
        let mut at = from;
        at[axes[0]] += along;
        at[axes[1]] += beside;
        at
    };
    let mut places: Vec<_> = ring_places(rows).map(place).collect();
    if random.percent(50) {
        places.reverse();
    }
    places
}

fn put_ring(random: &mut Random, plan: &mut Plan, places: &[Position], shape: fn(&mut Random) -> Shape) {
    put_tower(random, plan, places, shape);
    let shape = shape(random);
    plan.put(leaning(random, places[0], places.last().copied(), shape));
}

/// Rings, most of them whole, with towers on them.
fn rings(random: &mut Random) -> Vec<Row> {
    let from = origin(random, 12);
    let mut plan = Plan::default();
    for _ in 0..random.within(1, 2) {
        let at = moved(from, [(); 3].map(|()| random.within(0, 3)));
        let rows = random.pick(&[1, 2, 3, 4, 5, 6, 8, 11, 16]);
        let ring = round(random, at, rows);
        for _ in 0..random.below(3) {
            let (on, most) = (random.pick(&ring), random.pick(&[2, 3, 5]));
            let places = walk(random, on, most, 30);
            put_tower(random, &mut plan, &places, shape);
        }
        let shape = random.pick(&[holding_shape, holding_shape, shape]);
        put_ring(random, &mut plan, &ring, shape);
    }
    plan.rows()
}

/// Rows that hold each other two by two, and some that hold themselves.
fn pairs(random: &mut Random) -> Vec<Row> {
    let from = origin(random, 8);
    let mut plan = Plan::default();
    for _ in 0..random.within(1, 8) {
        let at = moved(from, [(); 3].map(|()| random.within(0, 4)));
        let other = moved(at, any_offset(random));
        for [one, other] in [[at, other], [other, at]] {
            let shape = shape(random);
            plan.put(leaning(random, one, Some(other), shape));
        }
    }
    plan.rows()
}

/// Devices on blocks of which many are missing, and devices on those.
fn room_without_floor(random: &mut Random) -> Vec<Row> {
    let [x, y, z] = origin(random, 6);
    let mut plan = Plan::default();
    let missing = random.pick(&[0, 10, 50, 90, 100]);
    let wide = random.within(1, 6);
    for (dx, dz) in (0..wide).flat_map(|dx| (0..4).map(move |dz| (dx, dz))) {
        let at = [x + dx, y, z + dz];
        if !random.percent(missing) {
            plan.put(floor(random, at));
        }
        plan.put(device(random, moved(at, ABOVE)));
        if random.percent(30) {
            let over = moved(moved(at, ABOVE), ABOVE);
            let shape = shape(random);
            plan.put(leaning(random, over, Some(moved(over, UNDER)), shape));
        }
    }
    plan.rows()
}

/// One tower of so many rows at most, on such a foot.
fn one_tower(
    random: &mut Random,
    most: usize,
    shape: fn(&mut Random) -> Shape,
    foot: fn(&mut Random, Position) -> Row,
) -> Vec<Row> {
    let (from, turns) = (origin(random, 0), random.pick(&[0, 5, 40]));
    let mut plan = Plan::default();
    let places = walk(random, from, most, turns);
    put_tower(random, &mut plan, &places, shape);
    plan.put(foot(random, from));
    plan.rows()
}

fn few_rows(random: &mut Random) -> usize {
    random.pick(&[1, 2, 5, 12])
}

fn all_stands(random: &mut Random) -> Vec<Row> {
    let most = few_rows(random);
    one_tower(random, most, holding_shape, |_, at| Row::new(Kind::Solid, at).with_shape(Shape::DoubleSlab))
}

fn all_falls(random: &mut Random) -> Vec<Row> {
    let most = few_rows(random);
    one_tower(random, most, shape, |random, at| leaning(random, at, None, Shape::Glass))
}

/// Cells of which most have a row that needs support and has it from any cell beside it, or from itself.
fn leaning_cells(random: &mut Random, extent: Position) -> Vec<Row> {
    let from = origin(random, extent.into_iter().max().unwrap_or(0) - 1);
    let share = random.pick(&[50, 80, 100]);
    let mut plan = Plan::default();
    let cells = (0..extent[0]).flat_map(|x| (0..extent[1]).map(move |y| [x, y]));
    for cell in cells.flat_map(|[x, y]| (0..extent[2]).map(move |z| [x, y, z])) {
        if random.percent(share) {
            plan.put(cell_row(random, moved(from, cell)));
        }
    }
    plan.rows()
}

fn cell_row(random: &mut Random, at: Position) -> Row {
    let shape = shape(random);
    match random.below(20) {
        0 => device(random, at),
        1 => floor(random, at),
        2 => leaning(random, at, None, shape),
        3..6 => leaning(random, at, None, shape).with_support(any_step(random)),
        _ => {
            let support = moved(at, any_offset(random));
            leaning(random, at, Some(support), shape)
        }
    }
}

fn leaning_box(random: &mut Random) -> Vec<Row> {
    let extent = random.pick(&[[2, 1, 1], [1, 3, 1], [2, 2, 2], [5, 1, 2], [3, 3, 3], [4, 2, 3], [2, 6, 2]]);
    leaning_cells(random, extent)
}

fn large_leaning_box(random: &mut Random) -> Vec<Row> {
    let extent = random.pick(&[[7, 4, 7], [9, 6, 9], [20, 2, 5], [3, 40, 3], [16, 4, 16]]);
    leaning_cells(random, extent)
}

fn many_rows(random: &mut Random) -> usize {
    random.pick(&[100, 128, 200, 255, 256, 257, 300, 700, 1_023, 1_024])
}

fn long_tower(random: &mut Random) -> Vec<Row> {
    let most = many_rows(random);
    one_tower(random, most, holding_shape, foot)
}

/// Whole, or with a row anywhere that holds nothing.
fn long_ring(random: &mut Random) -> Vec<Row> {
    let from = origin(random, 1_024);
    let rows = many_rows(random);
    let (ring, mut plan) = (round(random, from, rows), Plan::default());
    put_ring(random, &mut plan, &ring, holding_shape);
    if random.percent(50) {
        let broken = random.below(rows);
        plan.put(leaning(random, ring[broken], Some(ring[(broken + rows - 1) % rows]), Shape::BottomSlab));
    }
    plan.rows()
}
