//! The rows of packed tables, and positions.

use redstone::{FARTHEST, ROW_BYTES, Row};

/// x, y, z.
pub type Position = [i32; 3];

/// The steps to the North, East, South and West.
pub const HORIZONTAL: [Position; 4] = [[0, 0, -1], [1, 0, 0], [0, 0, 1], [-1, 0, 0]];

/// The steps up and down.
pub const ABOVE: Position = [0, 1, 0];
pub const UNDER: Position = [0, -1, 0];

/// The rows of an accepted table.
pub fn rows(table: &[u8]) -> Vec<Row> {
    redstone::rows(table).expect("an accepted table")
}

/// The positions of the rows that a table has whole, in any order.
pub fn positions(table: &[u8]) -> impl Iterator<Item = Position> {
    table.chunks_exact(ROW_BYTES).map(coordinates)
}

/// The position at the front of a row's bytes.
pub fn coordinates(row: &[u8]) -> Position {
    [0, 4, 8].map(|at| i32::from_le_bytes([row[at], row[at + 1], row[at + 2], row[at + 3]]))
}

/// Whether no coordinate is past the farthest.
pub fn is_on_ground(at: Position) -> bool {
    at.iter().all(|along| (-FARTHEST..=FARTHEST).contains(along))
}

/// The position a step away.
pub fn moved(from: Position, step: Position) -> Position {
    [0, 1, 2].map(|axis| from[axis] + step[axis])
}

/// The step back.
pub fn back(step: Position) -> Position {
    step.map(|along| -along)
}

/// The step from a position to one at most one away on each axis, as a support offset.
pub fn step(from: Position, to: Position) -> [i8; 3] {
    moved(to, back(from)).map(|along| along as i8)
}

/// The row a step away.
pub fn moved_row(row: &Row, step: Position) -> Row {
    row.with_position(moved(row.position(), step))
}
