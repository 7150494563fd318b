//! Tables of comparators, each with something at its back and often at its sides.

use redstone::{Facing, Kind, Row};

use super::rows::{any_level, dust, source};
use super::sorts::{Plan, origin};
use crate::random::Random;
use crate::table::{HORIZONTAL, Position, moved};

/// A line of comparators from something that gives a level to something that takes it.
pub fn comparators(random: &mut Random) -> Vec<Row> {
    let mut at = origin(random, 8);
    let mut plan = Plan::default();
    let facing = random.below(HORIZONTAL.len());
    let step = HORIZONTAL[facing];
    plan.put(leveled(random, at));
    for _ in 0..random.within(1, 4) {
        at = moved(at, step);
        plan.put(comparator(random, at, facing));
        if random.percent(70) {
            put_at_side(random, &mut plan, at, facing);
        }
        if random.percent(40) {
            at = moved(at, step);
            plan.put(between(random, at));
        }
    }
    let at = moved(at, step);
    plan.put(if random.percent(50) { dust(random, at) } else { Row::new(Kind::RedstoneLamp, at) });
    plan.rows()
}

fn comparator(random: &mut Random, position: Position, facing: usize) -> Row {
    Row::new(Kind::Comparator, position)
        .with_facing(Facing::ALL[facing])
        .with_powered(random.pick(&[None, Some(false), Some(true)]))
        .with_power_level(random.sometimes(40, |random| any_level(random, Kind::Comparator)))
        .with_subtract(random.percent(50))
}

/// Something at one side or the other, often a comparator that points there and has a source of its own.
fn put_at_side(random: &mut Random, plan: &mut Plan, at: Position, facing: usize) {
    let side = (facing + random.pick(&[1, 3])) % 4;
    let beside = moved(at, HORIZONTAL[side]);
    if random.percent(40) {
        plan.put(comparator(random, beside, (side + 2) % 4));
        plan.put(leveled(random, moved(beside, HORIZONTAL[side])));
    } else {
        plan.put(leveled(random, beside));
    }
}

/// A block or dust between two comparators, by which a level comes through or ends.
fn between(random: &mut Random, position: Position) -> Row {
    match random.below(3) {
        0 => dust(random, position),
        1 => Row::new(Kind::Solid, position),
        _ => leveled(random, position),
    }
}

/// Most often a switch that is on and has a level.
fn leveled(random: &mut Random, position: Position) -> Row {
    if random.percent(25) {
        return source(random, position);
    }
    let kind = random.pick(&[Kind::Lever, Kind::Button, Kind::PressurePlate]);
    let level = random.byte_below(18);
    Row::new(kind, position).with_powered(random.percent(80)).with_power_level(level)
}
