//! Towers that fall a row a pass, and rings, of any number of rows.

use redstone::{Kind, MOST_ROWS, Row, Shape};

use super::Trial;
use crate::generate::{BENCH_PROFILE_WITH_BULB, NEEDING, SUPPORTING, ring_places};
use crate::table::{Position, UNDER, moved, step};

/// Where each row of a tower stands, from its foot on. Each is beside the one before.
#[derive(Clone, Copy, Debug)]
pub enum Way {
    /// Each row after the one that holds it in the table's order.
    Ahead,
    /// Each row before it.
    Back,
    /// Across corners.
    Across,
    /// After it and before it by turns.
    ByTurns,
    /// To and fro through a box, layer by layer.
    Winding,
}

impl Way {
    pub const ALL: [Self; 5] = [Self::Ahead, Self::Back, Self::Across, Self::ByTurns, Self::Winding];

    fn place(self, number: usize) -> Position {
        const WIDE: usize = 8;
        let along = number as i32;
        let to_and_fro = |number: usize| {
            let at = number % WIDE;
            (if (number / WIDE).is_multiple_of(2) { at } else { WIDE - 1 - at }) as i32
        };
        match self {
            Self::Ahead => [along, 0, 0],
            Self::Back => [-along, 0, 0],
            Self::Across => [along, -along, along],
            Self::ByTurns => [along % 2, along, 0],
            Self::Winding => [to_and_fro(number / WIDE), (number / WIDE / WIDE) as i32, to_and_fro(number)],
        }
    }
}

/// What the lowest row of a tower stands on.
#[derive(Clone, Copy, Debug)]
pub enum Foot {
    /// It has no support offset.
    Nothing,
    /// There is nothing at its offset.
    Air,
    /// A block that holds nothing.
    BottomSlab,
    Solid,
}

impl Foot {
    pub const ALL: [Self; 4] = [Self::Nothing, Self::Air, Self::BottomSlab, Self::Solid];

    /// The row under the lowest, if there is one.
    fn block(self) -> Option<Row> {
        let solid = Row::new(Kind::Solid, UNDER);
        match self {
            Self::Nothing | Self::Air => None,
            Self::BottomSlab => Some(solid.with_shape(Shape::BottomSlab)),
            Self::Solid => Some(solid),
        }
    }

    fn holds(self) -> bool {
        matches!(self, Self::Solid)
    }
}

/// A row that needs support and holds others. Kinds and shapes change from row to row.
fn link(number: usize, position: Position, support: Option<Position>) -> Row {
    Row::new(NEEDING[number % NEEDING.len()], position)
        .with_shape(SUPPORTING[number % SUPPORTING.len()])
        .with_support(support.map(|at| step(position, at)))
}

/// A tower of so many rows over its foot.
pub fn tower(rows: usize, way: Way, foot: Foot) -> Trial {
    let support = |number: usize| match (number.checked_sub(1), foot) {
        (Some(lower), _) => Some(way.place(lower)),
        (None, Foot::Nothing) => None,
        (None, _) => Some(moved(way.place(number), UNDER)),
    };
    let row = |number: usize| {
        let pass = if foot.holds() { 0 } else { number as u16 + 1 };
        (link(number, way.place(number), support(number)), pass)
    };
    let block = foot.block().map(|block| (block, 0));
    Trial::of_rows("tower", &BENCH_PROFILE_WITH_BULB, (0..rows).map(row).chain(block).collect())
}

/// Towers of every height up to 40, in every way and on every foot.
pub fn towers() -> impl Iterator<Item = Trial> {
    let ways = Way::ALL.into_iter().flat_map(|way| Foot::ALL.map(|foot| (way, foot)));
    ways.flat_map(|(way, foot)| (0..=40).map(move |rows| tower(rows, way, foot)))
}

/// Heights about the powers of two, up to as many rows as a table may have.
const HEIGHTS: [usize; 12] = [127, 128, 129, 255, 256, 257, 511, 512, 513, 1_022, 1_023, MOST_ROWS];

/// Towers of these heights in every way, by turns on every foot for which there is room.
pub fn long_towers() -> impl Iterator<Item = Trial> {
    let ways = HEIGHTS.into_iter().flat_map(|rows| Way::ALL.map(|way| (rows, way)));
    ways.zip(Foot::ALL.into_iter().cycle()).map(|((rows, way), foot)| {
        let foot = if rows == MOST_ROWS { Foot::Air } else { foot };
        tower(rows, way, foot)
    })
}

/// A ring of so many rows, each held by the one before it and the first by the last. Where one of them holds nothing, the
/// one after it goes in the first pass, and itself in the last.
fn ring(places: &[Position], holds_nothing: Option<usize>) -> Trial {
    let rows = places.len();
    let row = |number: usize| {
        let link = link(number, places[number], Some(places[(number + rows - 1) % rows]));
        let pass = holds_nothing.map_or(0, |broken| (number + rows - broken - 1) % rows + 1);
        (if holds_nothing == Some(number) { link.with_shape(Shape::Plain) } else { link }, pass as u16)
    };
    Trial::of_rows("ring", &BENCH_PROFILE_WITH_BULB, (0..rows).map(row).collect())
}

/// Rings of every size up to 40 and of larger ones, both ways round, whole and with one row that holds nothing.
pub fn rings() -> impl Iterator<Item = Trial> {
    let sizes = (1..=40).chain([128, 257, 1_023, MOST_ROWS]);
    let ways = sizes.flat_map(|rows| both_ways_round(rows).map(|places| (rows, places)));
    ways.flat_map(|(rows, places)| {
        [None, Some(0), Some(rows / 2), Some(rows - 1)].map(|broken| ring(&places, broken))
    })
}

fn both_ways_round(rows: usize) -> [Vec<Position>; 2] {
    let places = || ring_places(rows).map(|[along, beside]| [along, beside, 0]);
    [places().collect(), places().rev().collect()]
}
