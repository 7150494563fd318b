//! Every way in which a few rows can hold each other.

use redstone::{Kind, Row, Shape};

use crate::generate::{BENCH_PROFILE_WITH_BULB, Case, NEEDING, NOT_SUPPORTING, SUPPORTING};
use crate::table::{Position, step};

/// The axes along which the cells of a square stand beside each other.
type Plane = [usize; 2];

const CELLS: usize = 4;

fn place([one, other]: Plane, cell: usize) -> Position {
    let mut position = [0; 3];
    position[one] = cell as i32 / 2;
    position[other] = cell as i32 % 2;
    position
}

/// Other kinds and shapes from cell to cell: the kind that needs support, the shape in which it holds others, and that in
/// which it does not.
fn kind_and_shapes(cell: usize) -> (Kind, [Shape; 2]) {
    let not_supporting = [Shape::Plain, NOT_SUPPORTING[0], NOT_SUPPORTING[1], Shape::Plain];
    (NEEDING[cell], [SUPPORTING[cell], not_supporting[cell]])
}

/// What a cell may have: nothing, a block that holds or one that does not, and a row that needs support and has none, one
/// outside of the square or any of its cells.
fn choices(plane: Plane, cell: usize) -> Vec<Option<Row>> {
    let at = place(plane, cell);
    let (kind, shapes) = kind_and_shapes(cell);
    let of_cells = (0..CELLS).map(|other| Some(step(at, place(plane, other))));
    let supports = [None, Some([1, 1, 1])].into_iter().chain(of_cells);
    let row = |support, shape| Row::new(kind, at).with_support(support).with_shape(shape);
    let rows = supports.flat_map(|support| shapes.map(|shape| Some(row(support, shape))));
    let blocks = [Kind::Solid, Kind::PressurePlate].map(|kind| Some(Row::new(kind, at)));
    [None].into_iter().chain(blocks).chain(rows).collect()
}

/// Every choice for the four cells of a square, in each of the three planes.
pub fn squares() -> impl Iterator<Item = Case> {
    [[0, 1], [0, 2], [1, 2]].into_iter().flat_map(|plane| {
        let choices = [0, 1, 2, 3].map(|cell| choices(plane, cell));
        let ways = choices[0].len();
        (0..ways.pow(CELLS as u32)).map(move |number| {
            let chosen = (0..).zip(&choices).filter_map(|(cell, rows)| rows[number / ways.pow(cell) % ways]);
            Case::new("square", BENCH_PROFILE_WITH_BULB, chosen)
        })
    })
}

const CORNERS: usize = 6;

/// Six corners of a cube, each held by any of the six or by nothing. All of them hold.
pub fn cubes() -> impl Iterator<Item = Case> {
    let corner = |number: usize| [4, 2, 1].map(|bit| i32::from(number & bit != 0));
    let holders = CORNERS + 1;
    (0..holders.pow(CORNERS as u32)).map(move |number| {
        let rows = (0..CORNERS).map(|at| {
            let holder = number / holders.pow(at as u32) % holders;
            let support = (holder < CORNERS).then(|| step(corner(at), corner(holder)));
            let shape = SUPPORTING[at % SUPPORTING.len()];
            Row::new(NEEDING[at % NEEDING.len()], corner(at)).with_shape(shape).with_support(support)
        });
        Case::new("cube", BENCH_PROFILE_WITH_BULB, rows)
    })
}
