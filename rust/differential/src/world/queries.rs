//! What both sides are asked about a case.

use redstone::{FARTHEST, ROW_BYTES, Row};

use super::{Name, WorldQuery};
use crate::generate::Case;
use crate::positions::around;
use crate::random::Random;
use crate::refusals;
use crate::table::{self, Position, moved};

/// Numbers that are no kind, among them ones whose low byte is.
const NO_KINDS: [u32; 7] = [14, 15, 255, 256, 257, 269, u32::MAX];

const FACES: [Position; 6] = [[1, 0, 0], [-1, 0, 0], [0, 1, 0], [0, -1, 0], [0, 0, 1], [0, 0, -1]];

/// Of a larger table the neighbours of this many rows are looked up, taken at random.
const MOST_ROWS_AROUND: usize = 20;

/// A refused case is asked of the functions that refuse, an accepted one of all.
pub fn queries(case: &Case) -> Vec<WorldQuery> {
    let mut random = Random::new(case.seed);
    let mut queries = support_queries(&mut random, case.table.len() / ROW_BYTES);
    if refusals::check(&case.profile, &case.table).is_ok() {
        let rows = table::rows(&case.table);
        queries.extend((0..rows.len()).map(WorldQuery::Traits));
        for at in positions(&mut random, &rows) {
            queries.extend([WorldQuery::Find(at), WorldQuery::KindAt(at)]);
        }
        queries.extend((0..=13).chain(NO_KINDS).map(WorldQuery::Properties));
        queries.push(any_name(&mut random));
        queries.push(any_offset(&mut random));
        queries.push(WorldQuery::Opposite(any_facing(&mut random)));
        queries.push(WorldQuery::HorizontalOffset { facing: any_facing(&mut random), axis: random.below(3) });
    }
    queries
}

fn support_queries(random: &mut Random, rows: usize) -> Vec<WorldQuery> {
    let other = random.pick(&[0, rows + 1, rows.saturating_sub(1), 2 * rows]);
    let mut lengths = vec![rows];
    lengths.extend(random.percent(10).then_some(other));
    let query = |entries| WorldQuery::SupportIssues { entries };
    lengths.into_iter().map(query).collect()
}

/// All rows' positions, the neighbours of some, and some positions at random.
fn positions(random: &mut Random, rows: &[Row]) -> Vec<Position> {
    let mut positions: Vec<_> = rows.iter().map(Row::position).collect();
    for at in around(random, rows, MOST_ROWS_AROUND) {
        positions.push(at);
        positions.extend(FACES.map(|step| moved(at, step)));
    }
    positions.extend((0..3).map(|_| any_position(random)));
    positions
}

fn any_position(random: &mut Random) -> Position {
    [(); 3].map(|()| any_coordinate(random))
}

fn any_coordinate(random: &mut Random) -> i32 {
    let near = random.within(-3, 3);
    let any = random.bits() as i32;
    random.pick(&[near, near, any, FARTHEST, -FARTHEST, i32::MIN, i32::MAX])
}

/// Sums inside 32 bits, and sums past either end.
fn any_offset(random: &mut Random) -> WorldQuery {
    WorldQuery::Offset { from: any_position(random), by: any_position(random), axis: random.below(4) }
}

/// A facing, none, or a number that is no facing.
fn any_facing(random: &mut Random) -> u32 {
    random.pick(&[0, 1, 2, 3, 4, 5, 6, 7, 255, 257, 262, u32::MAX])
}

/// Names that end as a shape's do, near misses, and bytes that are no text.
fn any_name(random: &mut Random) -> WorldQuery {
    const PREFIXES: [&[u8]; 6] = [b"", b"minecraft:", b"minecraft:oak", b"x", b"_slab", b"\xff"];
    const ENDINGS: [&[u8]; 18] = [
        b"_slab",
        b"_slab",
        b"_stairs",
        b"_stairs",
        b"glass",
        b"minecraft:glass",
        b"minecraft:tinted_glass",
        b"tinted_glass",
        b"slab",
        b"_slabs",
        b"_Slab",
        b"_stair",
        b"stairs",
        b"_stairs_slab",
        b"glass_pane",
        b"stained_glass",
        b"",
        b"_slab\xff",
    ];
    const VALUES: [&[u8]; 10] =
        [b"", b"top", b"top", b"double", b"bottom", b"to", b"topp", b"Top", b"doubled", b"top\xc3"];
    let mut name = [random.pick(&PREFIXES), random.pick(&ENDINGS)].concat();
    if random.percent(10) && !name.is_empty() {
        let at = random.below(name.len());
        name[at] = random.byte();
    }
    WorldQuery::ShapeOfName(Name {
        name,
        slab_type: random.pick(&VALUES).to_vec(),
        half: random.pick(&VALUES).to_vec(),
    })
}
