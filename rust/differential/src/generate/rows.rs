//! Single rows from random numbers.

use redstone::{Arm, Facing, Kind, Row, Shape};

use crate::random::Random;
use crate::table::Position;

/// The step to the support of what stands.
pub const BELOW: [i8; 3] = [0, -1, 0];

/// A row of any kind with any fields.
pub fn any_row(random: &mut Random, position: Position) -> Row {
    let kind = match random.below(10) {
        0..4 => Kind::RedstoneWire,
        4..6 => Kind::Solid,
        _ => random.pick(Kind::ALL),
    };
    Row::new(kind, position)
        .with_facing(any_facing(random))
        .with_powered(random.pick(&[None, Some(false), Some(true)]))
        .with_power_level(random.sometimes(35, |random| any_level(random, kind)))
        .with_delay(random.sometimes(35, any_delay))
        .with_support(random.sometimes(65, any_step))
        .with_arms(random.sometimes(20, any_arms))
        .with_shape(any_shape(random))
        .with_subtract(random.percent(30))
}

/// Twice as often a horizontal one as any other, or as none.
fn any_facing(random: &mut Random) -> Option<Facing> {
    Facing::try_from(random.pick(&[0, 1, 1, 2, 2, 3, 3, 4, 4, 5, 6])).ok()
}

/// A comparator's ends at 15.
pub fn any_level(random: &mut Random, kind: Kind) -> u8 {
    let any = random.byte();
    match kind {
        Kind::Comparator => random.pick(&[0, 1, 2, 7, 14, 15, any % 16]),
        _ => random.pick(&[0, 1, 2, 7, 14, 15, 16, 200, 255, any]),
    }
}

pub fn any_delay(random: &mut Random) -> u8 {
    random.pick(&[0, 1, 2, 3, 4, 5, 9, 255])
}

pub fn any_step(random: &mut Random) -> [i8; 3] {
    if random.percent(60) { BELOW } else { [(); 3].map(|()| random.pick(&[-1, 0, 1])) }
}

pub fn any_arms(random: &mut Random) -> [Option<Arm>; 4] {
    [(); 4].map(|()| random.pick(&[None, Some(Arm::None), Some(Arm::Side), Some(Arm::Up)]))
}

pub fn any_shape(random: &mut Random) -> Shape {
    if random.percent(65) { Shape::Plain } else { random.pick(Shape::ALL) }
}

/// A block that dust may lie on.
pub fn floor(random: &mut Random, position: Position) -> Row {
    let kind = random.pick(&[Kind::Solid, Kind::Solid, Kind::Solid, Kind::Transparent, Kind::RedstoneLamp]);
    Row::new(kind, position).with_shape(any_shape(random))
}

pub fn dust(random: &mut Random, position: Position) -> Row {
    let arms = random.sometimes(8, any_arms);
    Row::new(Kind::RedstoneWire, position).with_support(BELOW).with_arms(arms)
}

/// A block that gives power, or may.
pub fn source(random: &mut Random, position: Position) -> Row {
    let kind = random.pick(&[
        Kind::RedstoneBlock,
        Kind::Lever,
        Kind::Button,
        Kind::PressurePlate,
        Kind::RedstoneTorch,
        Kind::Repeater,
        Kind::Comparator,
    ]);
    Row::new(kind, position)
        .with_facing(random.pick(&Facing::ALL[..4]))
        .with_powered(random.pick(&[None, Some(false), Some(true), Some(true), Some(true)]))
        .with_power_level(random.sometimes(50, |random| any_level(random, kind)))
        .with_delay(random.sometimes(50, any_delay))
        .with_support(any_step(random))
        .with_subtract(random.percent(30))
}

pub fn device(random: &mut Random, position: Position) -> Row {
    match random.below(10) {
        0..4 => source(random, position),
        4..7 => dust(random, position),
        7 => Row::new(Kind::RedstoneLamp, position),
        8 => floor(random, position),
        _ => any_row(random, position),
    }
}
