//! Tables of bulbs, and bulbs in any table.

use redstone::{Arm, Facing, Kind, Row};

use super::rows::{BELOW, any_delay, any_shape, dust, source};
use super::sorts::{Plan, origin, put_clock};
use super::torches::{back, reader};
use crate::random::Random;
use crate::table::{ABOVE, HORIZONTAL, Position, UNDER, moved};

/// Bulbs side by side, each with something that feeds it and often with something that reads it.
pub fn bulbs(random: &mut Random) -> Vec<Row> {
    let at = origin(random, 8);
    let mut plan = Plan::default();
    let apart = random.within(1, 4);
    for number in 0..random.within(1, 3) {
        let bulb = moved(at, [apart * number, 0, 0]);
        if random.percent(50) {
            plan.put(reader(random, bulb));
        }
        for _ in 0..random.pick(&[1, 1, 1, 2]) {
            feed(random, &mut plan, bulb);
        }
        let bulb = Row::new(Kind::CopperBulb, bulb).with_shape(any_shape(random));
        plan.put(lit_by_chance(random, bulb));
    }
    plan.rows()
}

/// Power for the block at a position, each way that there is. Most of it comes and goes.
fn feed(random: &mut Random, plan: &mut Plan, block: Position) {
    let side = random.below(HORIZONTAL.len());
    let step = HORIZONTAL[side];
    let (inward, beside) = (Facing::ALL[(side + 2) % 4], moved(block, step));
    let place = |kind| Row::new(kind, beside);
    match random.below(13) {
        0..3 => plan.put(switch(random, beside).with_support(back(step))),
        3 => plan.put(place(Kind::RedstoneBlock)),
        4 => {
            plan.put(place(Kind::Repeater).with_facing(inward).with_delay(random.sometimes(50, any_delay)));
            plan.put(changing(random, moved(beside, step)));
        }
        5 => {
            plan.put(place(Kind::Comparator).with_facing(inward).with_subtract(random.percent(30)));
            plan.put(changing(random, moved(beside, step)));
        }
        6 => {
            plan.put(dust(random, moved(block, ABOVE)));
            plan.put(changing(random, moved(beside, ABOVE)));
        }
        7 => {
            plan.put(place(Kind::RedstoneWire).with_arms([Some(Arm::Side); 4]));
            plan.put(changing(random, moved(beside, step)));
        }
        8 => plan.put(Row::new(Kind::RedstoneTorch, moved(block, UNDER)).with_support(BELOW)),
        9 => {
            plan.put(place(Kind::Solid));
            plan.put(switch(random, moved(beside, ABOVE)).with_support(BELOW));
        }
        _ => put_clock(random, plan, moved(block, [0, 0, -1])),
    }
}

/// A switch more often than any other source.
fn changing(random: &mut Random, position: Position) -> Row {
    if random.percent(70) { switch(random, position) } else { source(random, position) }
}

fn switch(random: &mut Random, position: Position) -> Row {
    let kind = random.pick(&[Kind::Lever, Kind::Button, Kind::PressurePlate]);
    Row::new(kind, position).with_powered(random.pick(&[None, Some(false), Some(true)]))
}

fn lit_by_chance(random: &mut Random, bulb: Row) -> Row {
    bulb.with_powered(random.pick(&[None, Some(false), Some(true)]))
}

/// The rows with bulbs in the place of some lamps and solid blocks.
pub fn placed(random: &mut Random, mut rows: Vec<Row>) -> Vec<Row> {
    for row in &mut rows {
        let share = match row.kind() {
            Kind::RedstoneLamp => 60,
            Kind::Solid => 15,
            _ => 0,
        };
        if random.percent(share) {
            *row = lit_by_chance(random, row.with_kind(Kind::CopperBulb));
        }
    }
    rows
}

/// The rows with lamps in the place of bulbs.
pub fn replaced(mut rows: Vec<Row>) -> Vec<Row> {
    for row in rows.iter_mut().filter(|row| row.kind() == Kind::CopperBulb) {
        *row = row.with_kind(Kind::RedstoneLamp);
    }
    rows
}
