//! Rows at every distance from the one that is replaced.

use redstone::{FARTHEST, Kind, Row};

use super::reading::{NO_ROW, listed};
use super::{Call, Trial};
use crate::generate::{BENCH_PROFILE_WITH_BULB, Case};
use crate::table::{HORIZONTAL, Position, moved};

/// A row that is replaced by one of another kind, and a second one somewhere else. Neither kind connects or carries. By hand
/// the second one's entries are written if it is dust and at most two cells away on every axis.
fn two_rows(at: Position, step: Position, new: Kind, other: Kind) -> Trial {
    let old = kind(new == Kind::Piston);
    let rows = [Row::new(old, at), Row::new(other, moved(at, step))];
    let case = Case::new("two rows", BENCH_PROFILE_WITH_BULB, rows);
    let (replaced, second) = if step > [0; 3] { (0, 1) } else { (1, 0) };
    let feed_each_other = [new, other] == [Kind::RedstoneWire; 2] && HORIZONTAL.contains(&step);
    let entries = |feeder| if feed_each_other { listed([feeder]) } else { [NO_ROW; _] };
    let is_near = other == Kind::RedstoneWire && step.iter().all(|along| (-2..=2).contains(along));
    let mut written = vec![None; 2];
    written[replaced] = Some(entries(second));
    written[second] = is_near.then(|| entries(replaced));
    Trial { call: Call::replace(&case, replaced, &Row::new(new, at)), case, answer: Ok(written) }
}

/// The steps along each axis by one of these, but for none at all.
fn steps(along: &[i32]) -> impl Iterator<Item = Position> {
    let ways = along.len();
    let steps =
        (0..ways.pow(3)).map(move |number| [ways * ways, ways, 1].map(|digit| along[number / digit % ways]));
    steps.filter(|step| *step != [0; 3])
}

/// Dust and a piston at every distance up to four cells from a row that becomes dust or a piston.
pub fn every_distance() -> impl Iterator<Item = Trial> {
    let kinds = [Kind::RedstoneWire, Kind::Piston];
    let pairs = kinds.into_iter().flat_map(move |new| kinds.map(|other| (new, other)));
    pairs.flat_map(|(new, other)| {
        steps(&[-4, -3, -2, -1, 0, 1, 2, 3, 4]).map(move |step| two_rows([0; 3], step, new, other))
    })
}

/// Dust far away, also at distances whose low 8 or 16 bits are near: from the middle of the ground and from a corner.
pub fn far_distances() -> impl Iterator<Item = Trial> {
    const FROM_MIDDLE: [i32; 12] =
        [-1_000_000, -65_538, -65_536, -256, -2, 0, 2, 3, 255, 258, 65_536, 131_072];
    const FROM_CORNER: [i32; 8] = [0, 2, 3, 256, 65_536, 1_048_576, 1_999_998, 2_000_000];
    let from_middle = steps(&FROM_MIDDLE).map(|step| ([0; 3], step));
    let from_corner = steps(&FROM_CORNER).map(|step| ([-FARTHEST; 3], step));
    from_middle
        .chain(from_corner)
        .map(|(at, step)| two_rows(at, step, Kind::RedstoneWire, Kind::RedstoneWire))
}

/// The cells along an edge of a cube, and all of them.
const EDGE: usize = 7;
const CELLS: usize = EDGE.pow(3);

/// A cube of dust with pistons in it, of which nothing is fed but dust by dust beside it. Every cell is replaced in turn by
/// the other kind.
pub fn cubes() -> impl Iterator<Item = Trial> {
    (0..CELLS).map(in_cube)
}

/// The place of a cell, whose number is that of its row.
fn place(cell: usize) -> Position {
    [EDGE * EDGE, EDGE, 1].map(|digit| (cell / digit % EDGE) as i32)
}

fn kind(is_dust: bool) -> Kind {
    if is_dust { Kind::RedstoneWire } else { Kind::Piston }
}

fn in_cube(replaced: usize) -> Trial {
    let was_dust = |cell: usize| {
        let [x, y, z] = place(cell);
        (x + 2 * y + 4 * z) % 3 != 0
    };
    let is_dust = |cell: usize| was_dust(cell) != (cell == replaced);
    let apart =
        |one: usize, other: usize| [0, 1, 2].map(|axis| place(one)[axis].abs_diff(place(other)[axis]));
    let is_beside = |one, other| matches!(apart(one, other), [1, 0, 0] | [0, 0, 1]);
    let entries =
        |cell| listed((0..CELLS).filter(|other| is_dust(cell) && is_dust(*other) && is_beside(cell, *other)));
    let is_near = |cell| apart(replaced, cell).iter().all(|along| *along <= 2);
    let is_written = |cell| cell == replaced || is_dust(cell) && is_near(cell);
    let row = |cell: usize, is_dust| Row::new(kind(is_dust), place(cell));
    let case = Case::new("cube", BENCH_PROFILE_WITH_BULB, (0..CELLS).map(|cell| row(cell, was_dust(cell))));
    Trial {
        call: Call::replace(&case, replaced, &row(replaced, is_dust(replaced))),
        case,
        answer: Ok((0..CELLS).map(|cell| is_written(cell).then(|| entries(cell))).collect()),
    }
}
