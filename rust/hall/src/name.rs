//! What blocks are called in sentences, and where they stand.

use redstone::{Facing, Kind, Row};
use redstone_text::position_text;

/// x, y and z.
pub type Position = [i32; 3];

/// The word for a kind, as sentences and expectations have it.
#[must_use]
pub fn kind_name(kind: Kind) -> &'static str {
    match kind {
        Kind::Solid => "solid block",
        Kind::Transparent => "transparent block",
        Kind::RedstoneWire => "dust",
        Kind::RedstoneTorch => "torch",
        Kind::Repeater => "repeater",
        Kind::Comparator => "comparator",
        Kind::Lever => "lever",
        Kind::Button => "button",
        Kind::PressurePlate => "plate",
        Kind::RedstoneLamp => "lamp",
        Kind::RedstoneBlock => "redstone block",
        Kind::Piston => "piston",
        Kind::CopperBulb => "bulb",
        other => other.name(),
    }
}

/// A block with its place, as in `lamp 12,1,0`.
#[must_use]
pub fn block_name(row: &Row) -> String {
    format!("{} {}", kind_name(row.kind()), position_text(row.position()))
}

/// Whether a switch sets the kind.
#[must_use]
pub fn is_switch(kind: Kind) -> bool {
    matches!(kind, Kind::Lever | Kind::Button | Kind::PressurePlate)
}

/// The number of the row at a position, of rows in the table's order.
#[must_use]
pub fn find(rows: &[Row], position: Position) -> Option<usize> {
    rows.binary_search_by_key(&position, Row::position).ok()
}

/// The step that a facing points along.
#[must_use]
pub fn step(facing: Facing) -> Position {
    match facing {
        Facing::North => [0, 0, -1],
        Facing::East => [1, 0, 0],
        Facing::South => [0, 0, 1],
        Facing::West => [-1, 0, 0],
        Facing::Up => [0, 1, 0],
        Facing::Down => [0, -1, 0],
    }
}

/// A position moved by a step.
#[must_use]
pub fn moved(position: Position, step: Position) -> Position {
    [0, 1, 2].map(|axis| position[axis].saturating_add(step[axis]))
}

/// A number and its noun, as in `1 block`, `2 blocks` and `3 passes`.
#[must_use]
pub fn counted(number: usize, noun: &str) -> String {
    let end = match number {
        1 => "",
        _ if noun.ends_with('s') => "es",
        _ => "s",
    };
    format!("{number} {noun}{end}")
}
