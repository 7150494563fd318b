//! Tables of torches, each with something over it.

use redstone::{Arm, Facing, Kind, Row, Shape};

use super::rows::{BELOW, any_delay, any_row, any_shape, any_step, device, dust, floor};
use super::sorts::{Plan, origin};
use crate::random::Random;
use crate::table::{ABOVE, HORIZONTAL, Position, moved};

/// Towers side by side, and now and then a torch that its own charge puts out.
pub fn torches(random: &mut Random) -> Vec<Row> {
    let at = origin(random, 8);
    let mut plan = Plan::default();
    let apart = random.within(1, 3);
    for number in 0..random.within(1, 3) {
        tower(random, &mut plan, moved(at, [apart * number, 0, 0]));
    }
    if random.percent(25) {
        clock(random, &mut plan, at);
    }
    plan.rows()
}

/// A block, and over it torches, each with a block over it and often with something that reads this block.
fn tower(random: &mut Random, plan: &mut Plan, foot: Position) {
    plan.put(floor(random, foot));
    let mut at = foot;
    for _ in 0..random.within(1, 3) {
        at = moved(at, ABOVE);
        plan.put(torch(random, at));
        at = moved(at, ABOVE);
        if random.percent(90) {
            plan.put(cover(random, at));
        }
        for _ in 0..random.below(3) {
            plan.put(reader(random, at));
        }
    }
}

/// A torch, lit more often than not, that stands, hangs on a wall or from the block above, or has no support field.
fn torch(random: &mut Random, position: Position) -> Row {
    let support = match random.below(8) {
        0..4 => Some(BELOW),
        4..6 => Some(any_step(random)),
        6 => Some([0, 1, 0]),
        _ => None,
    };
    Row::new(Kind::RedstoneTorch, position)
        .with_powered(random.pick(&[None, None, Some(true), Some(false)]))
        .with_support(support)
        .with_shape(any_shape(random))
}

/// A block over a torch, which receives strong power under most profiles, or any other.
fn cover(random: &mut Random, position: Position) -> Row {
    match random.below(10) {
        0..4 => Row::new(Kind::Solid, position),
        4..6 => Row::new(Kind::RedstoneLamp, position),
        6..8 => Row::new(random.pick(Kind::ALL), position).with_shape(random.pick(Shape::ALL)),
        8 => device(random, position),
        _ => any_row(random, position),
    }
}

/// Something on a block or beside it that the block's power may reach.
pub fn reader(random: &mut Random, block: Position) -> Row {
    let side = random.below(HORIZONTAL.len());
    let step = HORIZONTAL[side];
    let (outward, beside) = (Facing::ALL[side], moved(block, step));
    let place = |kind| Row::new(kind, beside);
    match random.below(8) {
        0 => dust(random, moved(block, ABOVE)),
        1 => place(Kind::RedstoneWire).with_arms([Some(Arm::Side); 4]),
        2 => place(Kind::Repeater).with_facing(outward).with_delay(random.sometimes(50, any_delay)),
        3 => place(Kind::Comparator).with_facing(outward).with_subtract(random.percent(30)),
        4 => {
            place(Kind::Comparator).with_facing(Facing::ALL[(side + 1) % 4]).with_subtract(random.percent(30))
        }
        5 => place(Kind::RedstoneTorch).with_support(back(step)),
        6 => place(random.pick(&[Kind::RedstoneLamp, Kind::Solid])),
        _ => device(random, beside),
    }
}

/// A torch at the side of a block, a block over it, and dust from there down to the first block.
fn clock(random: &mut Random, plan: &mut Plan, at: Position) {
    let step = random.pick(&HORIZONTAL);
    let beside = moved(at, step);
    let over = moved(beside, ABOVE);
    plan.put(Row::new(Kind::Solid, at));
    plan.put(Row::new(Kind::RedstoneTorch, beside).with_support(back(step)));
    plan.put(Row::new(random.pick(&[Kind::Solid, Kind::RedstoneLamp]), over));
    plan.put(dust(random, moved(over, ABOVE)));
    plan.put(dust(random, moved(at, ABOVE)));
}

/// The support of what hangs on the block that the step led away from.
pub fn back(step: Position) -> [i8; 3] {
    step.map(|step| -step as i8)
}
