//! Rows laid out by layer: what stands where, for pictures.

use std::collections::BTreeMap;
use std::ops::RangeInclusive;

use redstone::Row;

use crate::name::Position;

/// Layers share one extent as long as their cells are no more than this.
const MOST_SHARED_CELLS: i64 = 20_000;
/// Rows of a layer that are farther apart than this on both sides of a gap stand in pictures of their own.
const WIDEST_GAP: i32 = 6;

/// A picture's part of a layer: the rows with one y whose x and z lie in an extent.
#[derive(Clone, Debug, Eq, PartialEq)]
pub struct Layer {
    /// The height.
    pub y: i32,
    /// From West to East.
    pub xs: RangeInclusive<i32>,
    /// From North to South.
    pub zs: RangeInclusive<i32>,
    /// The number of the row at x and z.
    cells: BTreeMap<(i32, i32), usize>,
}

impl Layer {
    fn new(y: i32, rows: &[(Position, usize)]) -> Self {
        let cells = rows.iter().map(|&([x, _, z], number)| ((x, z), number)).collect();
        let positions = || rows.iter().map(|(position, _)| *position);
        Self { y, xs: range(positions().map(|[x, ..]| x)), zs: range(positions().map(|[.., z]| z)), cells }
    }

    /// The number of the row at x and z.
    #[must_use]
    pub fn row_at(&self, x: i32, z: i32) -> Option<usize> {
        self.cells.get(&(x, z)).copied()
    }

    /// The layer in parts of no more columns and lines than these. Parts without rows are left out.
    #[must_use]
    pub fn tiles(&self, columns: i32, lines: i32) -> Vec<Self> {
        let (columns, lines) = (parts_of(&self.xs, columns), parts_of(&self.zs, lines));
        let tiles = lines.iter().flat_map(|zs| columns.iter().map(|xs| self.part(xs, zs)));
        tiles.filter(|tile| !tile.cells.is_empty()).collect()
    }

    fn part(&self, xs: &RangeInclusive<i32>, zs: &RangeInclusive<i32>) -> Self {
        let inside = |((x, z), _): &((i32, i32), usize)| xs.contains(x) && zs.contains(z);
        Self { y: self.y, xs: xs.clone(), zs: zs.clone(), cells: self.rows().filter(inside).collect() }
    }

    /// The rows, by x and then z.
    pub fn rows(&self) -> impl Iterator<Item = ((i32, i32), usize)> {
        self.cells.iter().map(|(place, number)| (*place, *number))
    }
}

/// The layers of rows, from the lowest to the highest. They have one extent, unless that makes too large a picture: then
/// each has its own, and parts that are far apart have one each.
#[must_use]
pub fn layers(rows: &[Row]) -> Vec<Layer> {
    let mut by_height = BTreeMap::<i32, Vec<_>>::new();
    for (number, row) in rows.iter().enumerate() {
        by_height.entry(row.position()[1]).or_default().push((row.position(), number));
    }
    let positions = || rows.iter().map(Row::position);
    let (xs, zs) = (range(positions().map(|[x, ..]| x)), range(positions().map(|[.., z]| z)));
    let cells = width(&xs) * width(&zs) * by_height.len() as i64;
    if cells <= MOST_SHARED_CELLS {
        let shared =
            |(y, rows): (i32, Vec<_>)| Layer { xs: xs.clone(), zs: zs.clone(), ..Layer::new(y, &rows) };
        return by_height.into_iter().map(shared).collect();
    }
    let parts =
        by_height.into_iter().flat_map(|(y, rows)| parts(rows).into_iter().map(move |part| (y, part)));
    parts.map(|(y, part)| Layer::new(y, &part)).collect()
}

/// The parts of a layer between which there is a wide gap along x or along z.
fn parts(rows: Vec<(Position, usize)>) -> Vec<Vec<(Position, usize)>> {
    for axis in [0, 2] {
        let split = split_at_gaps(&rows, axis);
        if split.len() > 1 {
            return split.into_iter().flat_map(parts).collect();
        }
    }
    vec![rows]
}

fn split_at_gaps(rows: &[(Position, usize)], axis: usize) -> Vec<Vec<(Position, usize)>> {
    let mut sorted = rows.to_vec();
    sorted.sort_by_key(|(position, _)| position[axis]);
    let is_near =
        |one: &(Position, usize), next: &(Position, usize)| next.0[axis] - one.0[axis] <= WIDEST_GAP;
    sorted.chunk_by(is_near).map(<[_]>::to_vec).collect()
}

/// A range in parts of about the same width, none of them wider than this.
fn parts_of(range: &RangeInclusive<i32>, widest: i32) -> Vec<RangeInclusive<i32>> {
    let (start, end) = (*range.start(), *range.end());
    let width = end - start + 1;
    let parts = (width + widest - 1) / widest;
    let part = (width + parts - 1) / parts;
    (start..=end).step_by(part as usize).map(|first| first..=end.min(first + part - 1)).collect()
}

fn width(range: &RangeInclusive<i32>) -> i64 {
    i64::from(*range.end()) - i64::from(*range.start()) + 1
}

/// From the least to the largest; of none, one cell.
fn range(numbers: impl Iterator<Item = i32> + Clone) -> RangeInclusive<i32> {
    numbers.clone().min().unwrap_or(0)..=numbers.max().unwrap_or(0)
}

#[cfg(test)]
mod tests {
    use redstone::Kind;

    use super::*;

    fn layers_of(positions: &[Position]) -> Vec<(i32, RangeInclusive<i32>, RangeInclusive<i32>, usize)> {
        let rows: Vec<_> = positions.iter().map(|position| Row::new(Kind::Solid, *position)).collect();
        layers(&rows).into_iter().map(|layer| (layer.y, layer.xs, layer.zs, layer.cells.len())).collect()
    }

    #[test]
    fn layers_share_their_extent() {
        let layers = layers_of(&[[0, 0, 0], [2, 1, 3], [5, 1, -1]]);
        assert_eq!(layers, [(0, 0..=5, -1..=3, 1), (1, 0..=5, -1..=3, 2)]);
        assert_eq!(layers_of(&[]), []);
    }

    #[test]
    fn what_is_far_apart_stands_in_pictures_of_its_own() {
        let layers = layers_of(&[[0, 0, 0], [3, 0, 4], [0, 0, 500], [900_000, 0, 0], [0, 70_000, 0]]);
        let expected = [
            (0, 0..=3, 0..=4, 2),
            (0, 0..=0, 500..=500, 1),
            (0, 900_000..=900_000, 0..=0, 1),
            (70_000, 0..=0, 0..=0, 1),
        ];
        assert_eq!(layers, expected);
    }

    #[test]
    fn a_large_layer_is_cut_into_tiles() {
        let rows: Vec<_> = (0..70).map(|x| Row::new(Kind::Solid, [x, 0, x % 3])).collect();
        let layer = &layers(&rows)[0];
        let tiles: Vec<_> =
            layer.tiles(32, 2).into_iter().map(|tile| (tile.xs, tile.zs, tile.cells.len())).collect();
        assert_eq!(
            tiles,
            [
                (0..=23, 0..=1, 16),
                (24..=47, 0..=1, 16),
                (48..=69, 0..=1, 15),
                (0..=23, 2..=2, 8),
                (24..=47, 2..=2, 8),
                (48..=69, 2..=2, 7)
            ]
        );
        assert_eq!(layer.tiles(100, 100), std::slice::from_ref(layer));
    }

    /// Every row is in one layer, wherever the rows stand.
    #[test]
    fn no_row_is_left_out() {
        let corner = |number: i32| [number % 7 * 100_000, number % 3, -number * 977 % 1_000_003];
        let rows: Vec<_> = (0..1024).map(|number| Row::new(Kind::Solid, corner(number))).collect();
        let mut numbers: Vec<_> = layers(&rows)
            .iter()
            .flat_map(|layer| layer.rows().map(|(_, number)| number).collect::<Vec<_>>())
            .collect();
        numbers.sort_unstable();
        assert_eq!(numbers, (0..1024).collect::<Vec<_>>());
    }
}
