//! Dust, its arms and where it transmits, read from document 01 a second time and apart from the proved code.

use std::collections::BTreeMap;

use redstone::{Arm, Kind, Row, Shape};

use crate::table::{ABOVE, HORIZONTAL, Position, UNDER, back, moved};

/// The arms of a dust to the North, East, South and West.
pub type Arms = [Option<Arm>; 4];

/// The rows of a table by position, and its profile.
pub struct Blocks<'a> {
    pub profile: &'a [u8],
    rows: BTreeMap<Position, Row>,
}

impl<'a> Blocks<'a> {
    pub fn new(profile: &'a [u8], rows: impl IntoIterator<Item = Row>) -> Self {
        Self { profile, rows: rows.into_iter().map(|row| (row.position(), row)).collect() }
    }

    pub fn at(&self, at: Position) -> Option<&Row> {
        self.rows.get(&at)
    }

    pub fn has_dust(&self, at: Position) -> bool {
        self.at(at).is_some_and(is_dust)
    }
}

pub fn is_dust(row: &Row) -> bool {
    row.kind() == Kind::RedstoneWire
}

pub fn opposite(side: usize) -> usize {
    (side + 2) % 4
}

/// The entry that a row stores for a side.
pub fn entry(row: &Row, side: usize) -> Option<Arm> {
    row.arms().and_then(|arms| arms[side])
}

/// "An arm is the stored entry, or inferred where there is no entry, even in a stored set."
pub fn arm(blocks: &Blocks, dust: &Row, side: usize) -> Option<Arm> {
    match entry(dust, side) {
        Some(stored) => (stored != Arm::None).then_some(stored),
        None => inferred(blocks, dust, side),
    }
}

/// "Dust or a connecting component beside gives Side; a block beside with a rise, dust on top of it and no blocker above
/// this dust gives that rise; empty beside with dust below it gives Side; else None."
pub fn inferred(blocks: &Blocks, dust: &Row, side: usize) -> Option<Arm> {
    let beside = moved(dust.position(), HORIZONTAL[side]);
    match blocks.at(beside) {
        Some(block) if is_dust(block) || connects(block, side) => Some(Arm::Side),
        Some(block) => rise(blocks.profile, block)
            .filter(|_| blocks.has_dust(moved(beside, ABOVE)))
            .filter(|_| !blocks.at(moved(dust.position(), ABOVE)).is_some_and(blocks_rise)),
        None => blocks.has_dust(moved(beside, UNDER)).then_some(Arm::Side),
    }
}

/// "Lever, button, plate, torch and redstone block connect; repeater and comparator only along their facing."
fn connects(block: &Row, side: usize) -> bool {
    match block.kind() {
        Kind::Lever | Kind::Button | Kind::PressurePlate | Kind::RedstoneTorch | Kind::RedstoneBlock => true,
        Kind::Repeater | Kind::Comparator => {
            let facing = block.facing().map_or(0, |facing| usize::from(facing.code()));
            [side + 1, opposite(side) + 1].contains(&facing)
        }
        _ => false,
    }
}

/// "Wire rise is Up where components are supported"; "other shapes replace".
pub fn rise(profile: &[u8], block: &Row) -> Option<Arm> {
    match block.shape() {
        Shape::Plain => (profile[usize::from(block.kind().code())] % 2 == 1).then_some(Arm::Up),
        Shape::TopSlab | Shape::TopStairs => Some(Arm::Side),
        Shape::DoubleSlab | Shape::Glass => Some(Arm::Up),
        Shape::BottomSlab | Shape::BottomStairs => None,
    }
}

/// "Only Solid blocks a rise from above"; of the other shapes the double slab.
fn blocks_rise(block: &Row) -> bool {
    block.shape() == Shape::DoubleSlab || block.shape() == Shape::Plain && block.kind() == Kind::Solid
}

/// Value 16 of the profile; of the other shapes the double slab.
pub fn drives_dust(profile: &[u8], block: &Row) -> bool {
    match block.shape() {
        Shape::Plain => profile[usize::from(block.kind().code())] & 16 != 0,
        shape => shape == Shape::DoubleSlab,
    }
}

/// The rules by which dust transmits.
#[derive(Clone, Copy, Debug, Eq, Ord, PartialEq, PartialOrd)]
pub enum Rule {
    Horizontal,
    Rise,
    FallThroughConductor,
}

/// Two dust, of which the sink is beside the source, or above or below the cell beside it.
pub struct Pair<'a> {
    pub blocks: &'a Blocks<'a>,
    pub source: &'a Row,
    pub sink: &'a Row,
    /// The side of the source that the sink is at.
    pub side: usize,
    /// How much higher the sink is.
    pub height: i32,
}

impl<'a> Pair<'a> {
    /// Nothing where they are not so, or are not dust.
    pub fn new(blocks: &'a Blocks, source: &'a Row, sink: &'a Row) -> Option<Self> {
        let [x, height, z] = moved(sink.position(), back(source.position()));
        let side = HORIZONTAL.iter().position(|step| *step == [x, 0, z])?;
        let is_pair = is_dust(source) && is_dust(sink) && height.abs() <= 1;
        is_pair.then_some(Self { blocks, source, sink, side, height })
    }

    /// "Horizontal, sink beside and both have the arm; Rise, sink above the cell beside, whose rise equals the source's arm;
    /// FallThroughConductor, sink below the cell beside, the block under the source drives dust and its rise equals the
    /// sink's arm back."
    pub fn rule(&self) -> Option<Rule> {
        let (rule, holds) = match self.height {
            0 => (Rule::Horizontal, self.arm().is_some() && self.arm_back().is_some()),
            1 => (Rule::Rise, self.rise_beside().is_some_and(|rise| self.arm() == Some(rise))),
            _ => (
                Rule::FallThroughConductor,
                self.is_on_conductor() && self.rise_under().is_some_and(|rise| self.arm_back() == Some(rise)),
            ),
        };
        holds.then_some(rule)
    }

    /// The source's arm towards the sink.
    pub fn arm(&self) -> Option<Arm> {
        arm(self.blocks, self.source, self.side)
    }

    /// The sink's arm towards the source.
    pub fn arm_back(&self) -> Option<Arm> {
        arm(self.blocks, self.sink, opposite(self.side))
    }

    /// The rise of the block beside the source.
    pub fn rise_beside(&self) -> Option<Arm> {
        self.block(HORIZONTAL[self.side]).and_then(|block| rise(self.blocks.profile, block))
    }

    /// The rise of the block under the source.
    pub fn rise_under(&self) -> Option<Arm> {
        self.block(UNDER).and_then(|block| rise(self.blocks.profile, block))
    }

    /// Whether the block under the source drives dust.
    pub fn is_on_conductor(&self) -> bool {
        self.block(UNDER).is_some_and(|block| drives_dust(self.blocks.profile, block))
    }

    fn block(&self, step: Position) -> Option<&Row> {
        self.blocks.at(moved(self.source.position(), step))
    }
}
