//! Positions to ask about.

use redstone::Row;

use crate::devices::is_switch;
use crate::random::Random;
use crate::table::{Position, moved};

/// The positions of at most `most` rows, taken at random, and beside each a position at most two cells away.
pub fn around(random: &mut Random, rows: &[Row], most: usize) -> Vec<Position> {
    let mut positions: Vec<_> = rows.iter().map(Row::position).collect();
    random.keep(&mut positions, most);
    let both = |at| [at, beside(random, at)];
    positions.into_iter().flat_map(both).collect()
}

pub fn beside(random: &mut Random, at: Position) -> Position {
    let step = [(); 3].map(|()| random.within(-2, 2));
    moved(at, step)
}

/// A switch's position as often as any row's, or now and then any.
pub fn any_position(random: &mut Random, rows: &[Row]) -> Position {
    let mut rows: Vec<_> = rows.iter().collect();
    if random.percent(50) && rows.iter().any(|row| is_switch(row)) {
        rows.retain(|row| is_switch(row));
    }
    if rows.is_empty() || random.percent(15) {
        [(); 3].map(|()| random.pick(&[0, 1, i32::MIN, i32::MAX]))
    } else {
        random.pick(&rows).position()
    }
}
