//! Tables in which levels come by several ways, at once or one after the other.

use redstone::{Arm, FARTHEST, Facing, Kind, Row, Shape};

use super::Sort;
use super::rows::{any_row, any_step, dust, floor, source};
use super::sorts::{Plan, origin};
use crate::random::Random;
use crate::table::{ABOVE, HORIZONTAL, Position, UNDER, back, moved, step};

/// The sorts of table, each with its share.
pub const SORTS: [(usize, Sort); 7] = [
    (30, ("field of dust", field)),
    (20, ("winding line", winding)),
    (20, ("hills", hills)),
    (20, ("power under dust", power_under_dust)),
    (25, ("lines to one block", lines_to_one_block)),
    (15, ("supports at corners", corners)),
    (20, ("ends of the ground", ends)),
];

/// Something that gives dust beside it one of a few levels, so that some come by several ways.
fn leveled(random: &mut Random, position: Position) -> Row {
    let level = random.pick(&[1, 2, 3, 5, 8, 14, 15]);
    match random.below(8) {
        0 => Row::new(Kind::RedstoneBlock, position),
        1..3 => Row::new(Kind::Comparator, position)
            .with_facing(random.pick(&Facing::ALL[..4]))
            .with_power_level(level),
        3 => source(random, position),
        _ => Row::new(Kind::Lever, position).with_powered(true).with_power_level(level),
    }
}

/// The cells of a plane, from a corner on.
fn cells([wide, long]: [i32; 2]) -> impl Iterator<Item = Position> {
    (0..wide).flat_map(move |x| (0..long).map(move |z| [x, 0, z]))
}

/// Dust side by side with sources in it, some of it on blocks.
fn field(random: &mut Random) -> Vec<Row> {
    let from = origin(random, 8);
    let extent = random.pick(&[[3, 3], [5, 5], [2, 9], [9, 3], [7, 7]]);
    let [dusty, floored] = [[60, 85, 100], [0, 30, 100]].map(|shares| random.pick(&shares));
    let mut plan = Plan::default();
    for at in cells(extent).map(|cell| moved(from, cell)) {
        if random.percent(dusty) {
            plan.put(dust(random, at));
        }
        if random.percent(floored) {
            plan.put(floor(random, moved(at, UNDER)));
        }
    }
    put_sources(random, &mut plan, from, extent);
    plan.rows()
}

/// One or more, in cells of a plane.
fn put_sources(random: &mut Random, plan: &mut Plan, from: Position, [wide, long]: [i32; 2]) {
    for _ in 0..random.within(1, 4) {
        let cell = [random.within(0, wide - 1), 0, random.within(0, long - 1)];
        plan.put(leveled(random, moved(from, cell)));
    }
}

/// A line of dust that goes to and fro, with a source at its start and a few more at its turns.
fn winding(random: &mut Random) -> Vec<Row> {
    let mut at = origin(random, 16);
    let mut plan = Plan::default();
    let (turns, ahead, floored) = (random.within(1, 5), random.within(2, 7), random.pick(&[0, 50, 100]));
    plan.put(leveled(random, moved(at, [-1, 0, 0])));
    for turn in 0..turns {
        let along = [if turn % 2 == 0 { 1 } else { -1 }, 0, 0];
        for step in vec![along; ahead as usize].into_iter().chain([[0, 0, 1]; 2]) {
            plan.put(dust(random, at));
            if random.percent(floored) {
                plan.put(floor(random, moved(at, UNDER)));
            }
            at = moved(at, step);
        }
        if random.percent(30) {
            plan.put(leveled(random, moved(at, ABOVE)));
        }
    }
    plan.put(if random.percent(50) { dust(random, at) } else { floor(random, at) });
    plan.rows()
}

/// Blocks of several heights with dust on them, and sources here and there.
fn hills(random: &mut Random) -> Vec<Row> {
    let from = origin(random, 8);
    let extent = random.pick(&[[2, 5], [4, 4], [6, 3]]);
    let mut plan = Plan::default();
    for cell in cells(extent) {
        let at = moved(moved(from, cell), [0, random.within(0, 2), 0]);
        plan.put(floor(random, at));
        let over = moved(at, ABOVE);
        plan.put(if random.percent(85) { dust(random, over) } else { leveled(random, over) });
    }
    plan.rows()
}

/// A line of dust on blocks of which many have power of their own, from switches below and beside them.
fn power_under_dust(random: &mut Random) -> Vec<Row> {
    let from = origin(random, 16);
    let mut plan = Plan::default();
    plan.put(leveled(random, moved(from, [-1, 1, 0])));
    for along in 0..random.within(2, 15) {
        let block = moved(from, [along, 0, 0]);
        plan.put(floor(random, block));
        plan.put(dust(random, moved(block, ABOVE)));
        if random.percent(35) {
            put_power(random, &mut plan, block);
        }
    }
    plan.rows()
}

/// A switch on a block, or on a block beside it.
fn put_power(random: &mut Random, plan: &mut Plan, block: Position) {
    let sides = [UNDER, HORIZONTAL[0], HORIZONTAL[2]];
    let mut holder = block;
    if random.percent(60) {
        holder = moved(block, random.pick(&sides));
        plan.put(Row::new(Kind::Solid, holder));
    }
    let side = random.pick(&sides);
    let switch = Row::new(Kind::Lever, moved(holder, side)).with_support(step(side, [0; 3]));
    plan.put(switch.with_powered(true).with_power_level(random.pick(&[1, 2, 3, 8, 14, 15])));
}

/// Lines of several lengths that lead to one block, most of them with the same level at its side; and often such a level, or one
/// more or less, through another block.
fn lines_to_one_block(random: &mut Random) -> Vec<Row> {
    let block = origin(random, 16).map(|along| along.max(8 - FARTHEST));
    let mut plan = Plan::default();
    let (level, share) = (random.within(1, 6), random.pick(&[25, 70]));
    for side in 0..HORIZONTAL.len() {
        if random.percent(share) {
            put_line(random, &mut plan, block, side, level);
        }
    }
    if random.percent(share) {
        put_line(random, &mut plan, moved(block, ABOVE), 0, level);
        plan.put(dust(random, moved(block, ABOVE)));
    }
    if random.percent(60) {
        let (holder, at) = (moved(block, UNDER), moved(moved(block, UNDER), UNDER));
        let other = (level + random.within(-1, 1)).max(1);
        plan.put(Row::new(Kind::Solid, holder));
        plan.put(
            Row::new(Kind::Lever, at)
                .with_support([0, 1, 0])
                .with_powered(true)
                .with_power_level(other as u8),
        );
    }
    plan.put(floor(random, block));
    plan.rows()
}

/// Dust from beside a block outwards, with arms along the line, and a source by which its first has such a level.
fn put_line(random: &mut Random, plan: &mut Plan, from: Position, side: usize, level: i32) {
    let (mut arms, length) = ([Some(Arm::None); 4], random.within(1, 6));
    [side, (side + 2) % 4].into_iter().for_each(|along| arms[along] = Some(Arm::Side));
    let mut at = from;
    for _ in 0..length {
        at = moved(at, HORIZONTAL[side]);
        plan.put(Row::new(Kind::RedstoneWire, at).with_arms(arms));
    }
    let level = level + length - 1 + random.pick(&[0, 0, 0, 1]);
    plan.put(
        Row::new(Kind::Lever, moved(at, HORIZONTAL[side])).with_powered(true).with_power_level(level as u8),
    );
}

/// Switches and torches that hold on to any cell around them, among blocks.
fn corners(random: &mut Random) -> Vec<Row> {
    let from = origin(random, 4);
    let mut plan = Plan::default();
    for _ in 0..random.within(4, 24) {
        let at = moved(from, [(); 3].map(|()| random.within(0, 3)));
        let kind =
            random.pick(&[Kind::Lever, Kind::Lever, Kind::Button, Kind::PressurePlate, Kind::RedstoneTorch]);
        let support = [(); 3].map(|()| random.pick(&[-1, 0, 1]));
        let support = if random.percent(10) { [0; 3] } else { support };
        let shape = random.pick(&[Shape::Plain, Shape::Plain, Shape::DoubleSlab]);
        plan.put(match random.below(10) {
            0..4 => floor(random, at),
            4..6 => dust(random, at),
            6 => any_row(random, at).with_support(any_step(random)),
            _ => Row::new(kind, at).with_powered(random.percent(85)).with_support(support).with_shape(shape),
        });
    }
    plan.rows()
}

/// Rows about the farthest cells of the ground, which would be neighbours if a line went on where the next begins.
fn ends(random: &mut Random) -> Vec<Row> {
    let mut plan = Plan::default();
    let axis = random.below(3);
    let start = [(); 3].map(|()| random.pick(&[-FARTHEST, 0, FARTHEST - 2]));
    for _ in 0..random.within(4, 20) {
        let mut at = moved(start, [(); 3].map(|()| random.within(0, 2)));
        at[axis] = random.pick(&[FARTHEST, FARTHEST, FARTHEST - 1, -FARTHEST, -FARTHEST, 1 - FARTHEST]);
        let inward = back(at.map(i32::signum));
        plan.put(match random.below(8) {
            0..4 => dust(random, at),
            4 => leveled(random, at),
            5 => leveled(random, at).with_support(inward.map(|along| along as i8)),
            6 => floor(random, at),
            _ => any_row(random, at),
        });
    }
    plan.rows()
}
