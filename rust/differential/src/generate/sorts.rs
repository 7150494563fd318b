//! Sorts of table.

use std::collections::BTreeMap;

use redstone::{Arm, FARTHEST, Facing, Kind, Row};

use super::rows::{any_delay, any_row, device, dust, floor, source};
use crate::random::Random;
use crate::table::{ABOVE, HORIZONTAL, Position, UNDER, is_on_ground, moved};

/// Rows by position: in the table's order, one to a position, none out of range.
#[derive(Default)]
pub struct Plan(BTreeMap<Position, Row>);

impl Plan {
    pub fn put(&mut self, row: Row) {
        if is_on_ground(row.position()) {
            self.0.insert(row.position(), row);
        }
    }

    pub fn rows(self) -> Vec<Row> {
        self.0.into_values().collect()
    }
}

/// A corner of low coordinates with `room` more to each coordinate's end, and often one of the ends.
pub fn origin(random: &mut Random, room: i32) -> Position {
    [(); 3].map(|()| match random.below(12) {
        0 => FARTHEST - room,
        1 => -FARTHEST,
        2 => random.within(-FARTHEST, FARTHEST - room),
        _ => random.within(-3, 3),
    })
}

fn filled_box(random: &mut Random, extent: Position, share: usize) -> Vec<Row> {
    let [x, y, z] = origin(random, extent.into_iter().max().unwrap_or(0) - 1);
    let mut plan = Plan::default();
    for dx in 0..extent[0] {
        for dy in 0..extent[1] {
            for dz in 0..extent[2] {
                if random.percent(share) {
                    plan.put(any_row(random, [x + dx, y + dy, z + dz]));
                }
            }
        }
    }
    plan.rows()
}

pub fn dense_box(random: &mut Random) -> Vec<Row> {
    let extent = random.pick(&[[1, 2, 1], [2, 2, 1], [2, 2, 2], [2, 3, 2], [3, 2, 3], [3, 3, 3], [4, 3, 4]]);
    let share = random.pick(&[25, 50, 75, 90, 100]);
    filled_box(random, extent, share)
}

pub fn large_box(random: &mut Random) -> Vec<Row> {
    let extent = random.pick(&[[7, 4, 7], [20, 2, 5], [9, 6, 9], [3, 40, 3]]);
    let share = random.pick(&[60, 80, 100]);
    filled_box(random, extent, share)
}

pub fn full_box(random: &mut Random) -> Vec<Row> {
    filled_box(random, [16, 4, 16], 100)
}

pub fn sparse(random: &mut Random) -> Vec<Row> {
    let mut plan = Plan::default();
    for _ in 0..random.within(1, 20) {
        let position = if random.percent(30) {
            origin(random, 0)
        } else {
            [(); 3].map(|()| random.within(-FARTHEST, FARTHEST))
        };
        plan.put(any_row(random, position));
        if random.percent(50) {
            let step = random.pick(&HORIZONTAL);
            plan.put(any_row(random, moved(position, step)));
        }
    }
    plan.rows()
}

/// Lays a path of dust on blocks, its steps as `rise` says, with sources and devices at its ends and beside it.
fn path(random: &mut Random, length: i32, turns: usize, rise: fn(&mut Random) -> i32) -> Vec<Row> {
    let mut plan = Plan::default();
    let mut at = origin(random, 0);
    let mut step = random.pick(&HORIZONTAL);
    plan.put(source(random, moved(at, step.map(|d| -d))));
    for _ in 0..length {
        plan.put(floor(random, moved(at, UNDER)));
        plan.put(dust(random, at));
        if random.percent(10) {
            let side = random.pick(&HORIZONTAL);
            plan.put(device(random, moved(at, side)));
        }
        if random.percent(10) {
            plan.put(floor(random, moved(at, ABOVE)));
        }
        if random.percent(turns) {
            step = random.pick(&HORIZONTAL);
        }
        at = moved(moved(at, step), [0, rise(random), 0]);
    }
    plan.put(device(random, at));
    plan.rows()
}

pub fn dust_line(random: &mut Random) -> Vec<Row> {
    let length = random.within(1, 18);
    path(random, length, 12, |_| 0)
}

pub fn staircase(random: &mut Random) -> Vec<Row> {
    let length = random.within(2, 10);
    path(random, length, 25, |random| random.pick(&[-1, -1, 0, 1, 1, 1]))
}

/// A floor with devices on it and here and there a block above.
pub fn devices(random: &mut Random) -> Vec<Row> {
    let [x, y, z] = origin(random, 4);
    let mut plan = Plan::default();
    let wide = random.within(1, 5);
    for dx in 0..wide {
        for dz in 0..random.within(1, 4) {
            plan.put(floor(random, [x + dx, y, z + dz]));
            plan.put(device(random, [x + dx, y + 1, z + dz]));
            if random.percent(15) {
                plan.put(device(random, [x + dx, y + 2, z + dz]));
            }
        }
    }
    plan.rows()
}

/// A torch that its own output, led round through a repeater, puts out; and here and there a block beside.
pub fn clock(random: &mut Random) -> Vec<Row> {
    let at = origin(random, 2);
    let mut plan = Plan::default();
    for _ in 0..random.below(4) {
        let beside = [(); 3].map(|()| random.within(-1, 2));
        plan.put(device(random, moved(at, beside)));
    }
    put_clock(random, &mut plan, at);
    plan.rows()
}

/// Its torch at a position, and its block at the next to the South.
pub fn put_clock(random: &mut Random, plan: &mut Plan, at: Position) {
    let place = |kind, step| Row::new(kind, moved(at, step));
    let (east, west) = (Some(Arm::Side), Some(Arm::Side));
    let delay = random.sometimes(80, any_delay);
    for row in [
        place(Kind::RedstoneTorch, [0, 0, 0]).with_support([0, 0, 1]),
        place(Kind::Repeater, [1, 0, 0]).with_facing(Facing::East).with_delay(delay),
        place(Kind::RedstoneWire, [2, 0, 0]),
        place(Kind::RedstoneWire, [2, 0, 1]),
        place(Kind::RedstoneWire, [1, 0, 1]).with_arms([None, east, None, west]),
        place(random.pick(&[Kind::Solid, Kind::RedstoneLamp]), [0, 0, 1]),
    ] {
        plan.put(row);
    }
}
