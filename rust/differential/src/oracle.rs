//! The original's side of a comparison.

use original::world::{Block, BlockKind, Facing, Pos, WireConnection, World};
use original::{Profile, Profiled};
use redstone::{Arm, Row, Shape};

use crate::generate::Case;
use crate::refusals::{self, Refusal};
use crate::table::{self, Position};

/// The original's world for an accepted case; for another the refusal and no rows.
pub struct Oracle<'a> {
    pub case: &'a Case,
    pub refusal: Result<(), Refusal>,
    pub rows: Vec<Row>,
    world: Profiled<World>,
}

/// The original's world of these rows, which answers by the profile. Every world is made here.
pub fn world(profile: &[u8], rows: &[Row]) -> Profiled<World> {
    let mut bytes = Profile::default();
    bytes[..profile.len()].copy_from_slice(profile);
    let mut world = World::new();
    for row in rows {
        world.set(pos(row.position()), block(row));
    }
    Profiled::new(bytes, world)
}

impl<'a> Oracle<'a> {
    pub fn new(case: &'a Case) -> Self {
        match refusals::check(&case.profile, &case.table) {
            Ok(()) => Self::of_any_levels(case),
            refusal => Self { case, refusal, rows: Vec::new(), world: world(&[], &[]) },
        }
    }

    /// The original's world for a case that number 10 alone may refuse: to the original no comparator is overdriven.
    pub fn of_any_levels(case: &'a Case) -> Self {
        let rows = table::rows(&case.table);
        let world = world(&case.profile, &rows);
        Self { case, refusal: Ok(()), rows, world }
    }

    /// The world, with this case's profile in force.
    pub fn world(&self) -> &World {
        self.world.get()
    }

    /// What is made of a copy of the world and answers by this case's profile, too.
    pub fn made<T>(&self, make: impl FnOnce(World) -> T) -> Profiled<T> {
        self.world.map(|world| make(world.clone()))
    }

    /// The number of the row at a position that the world has.
    pub fn row_at(&self, at: Pos) -> usize {
        self.rows
            .binary_search_by_key(&[at.x, at.y, at.z], Row::position)
            .expect("the world's positions are the rows'")
    }
}

pub fn pos([x, y, z]: Position) -> Pos {
    Pos::new(x, y, z)
}

pub const KINDS: [BlockKind; 14] = [
    BlockKind::Air,
    BlockKind::Solid,
    BlockKind::Transparent,
    BlockKind::RedstoneWire,
    BlockKind::RedstoneTorch,
    BlockKind::Repeater,
    BlockKind::Comparator,
    BlockKind::Lever,
    BlockKind::Button,
    BlockKind::PressurePlate,
    BlockKind::RedstoneLamp,
    BlockKind::RedstoneBlock,
    BlockKind::Piston,
    BlockKind::CopperBulb,
];

const FACINGS: [Facing; 6] =
    [Facing::North, Facing::East, Facing::South, Facing::West, Facing::Up, Facing::Down];

/// The facing of a number as in byte 13.
pub fn facing(number: u32) -> Option<Facing> {
    FACINGS.get((number as usize).wrapping_sub(1)).copied()
}

/// Its number, and 0 for none.
pub fn facing_number(facing: Option<Facing>) -> u32 {
    let at = FACINGS.iter().position(|other| Some(*other) == facing);
    at.map_or(0, |at| at as u32 + 1)
}

pub fn arm(connection: WireConnection) -> Arm {
    match connection {
        WireConnection::None => Arm::None,
        WireConnection::Side => Arm::Side,
        WireConnection::Up => Arm::Up,
    }
}

fn connection(arm: Arm) -> WireConnection {
    match arm {
        Arm::None => WireConnection::None,
        Arm::Side => WireConnection::Side,
        Arm::Up => WireConnection::Up,
    }
}

pub fn connection_number(connection: WireConnection) -> u32 {
    arm(connection).code().into()
}

/// The original's block for a row. The shape becomes a name and a property as Minecraft reports them.
fn block(row: &Row) -> Block {
    let mut block = Block::new(KINDS[usize::from(row.kind().code())]);
    let (name, properties) = shape(row.shape());
    block.observed_name = name.map(str::to_owned);
    let mode = row.subtract().then_some(("mode", "subtract"));
    block.observed_properties =
        properties.into_iter().chain(mode).map(|(key, value)| (key.to_owned(), value.to_owned())).collect();
    block.facing = row.facing().and_then(|other| facing(other.code().into()));
    block.powered = row.powered();
    block.power_level = row.power_level();
    block.delay = row.delay();
    block.support_offset = row.support().map(|step| pos(step.map(i32::from)));
    block.wire_connections = row.arms().map(|arms| {
        let entries = FACINGS.into_iter().zip(arms);
        entries.filter_map(|(facing, arm)| Some((facing, connection(arm?)))).collect()
    });
    block
}

type Property = (&'static str, &'static str);

fn shape(shape: Shape) -> (Option<&'static str>, Option<Property>) {
    match shape {
        Shape::Plain => (None, None),
        Shape::BottomSlab => (Some("minecraft:x_slab"), Some(("type", "bottom"))),
        Shape::TopSlab => (Some("minecraft:x_slab"), Some(("type", "top"))),
        Shape::DoubleSlab => (Some("minecraft:x_slab"), Some(("type", "double"))),
        Shape::BottomStairs => (Some("minecraft:x_stairs"), Some(("half", "bottom"))),
        Shape::TopStairs => (Some("minecraft:x_stairs"), Some(("half", "top"))),
        Shape::Glass => (Some("minecraft:glass"), None),
    }
}
