//! Tables written as rows of text, with something by hand beside each row.

use redstone::{Facing, Row};
use redstone_text::Table;

/// The profile, which is a line of its own or nothing for the bench profile with the bulb, and the rows, each with what is
/// written beside it. They are written as in docs/DIFFERENCES.md, and there is one row at least.
pub fn read<T: Copy>(what: &str, profile: &str, rows: &[(&str, T)]) -> (Vec<u8>, Vec<(Row, T)>) {
    let mut profile_bytes = Vec::new();
    let rows = rows.iter().map(|(line, beside)| {
        let text = [profile, line].join("\n");
        let table: Table = text.parse().unwrap_or_else(|error| panic!("{what}: {error}"));
        profile_bytes = table.profile;
        (table.rows[0], *beside)
    });
    let rows = rows.collect();
    (profile_bytes, rows)
}

/// A row after a quarter turn of its table, by which the North comes to the East.
pub fn turned(row: &Row) -> Row {
    let [x, y, z] = row.position();
    let support = row.support().map(|[x, y, z]| [-z, y, x]);
    let arms = row.arms().map(|[north, east, south, west]| [west, north, east, south]);
    let facing = row.facing().map(turned_facing);
    row.with_position([-z, y, x]).with_support(support).with_arms(arms).with_facing(facing)
}

fn turned_facing(facing: Facing) -> Facing {
    match facing {
        Facing::North => Facing::East,
        Facing::East => Facing::South,
        Facing::South => Facing::West,
        Facing::West => Facing::North,
        vertical => vertical,
    }
}
