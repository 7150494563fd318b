//! Operations 1 to 6: traits, names, look-ups, supports, properties and positions.

use differential::compare::{Answer, Answers};
use differential::generate::{BENCH_PROFILE, BENCH_PROFILE_WITH_BULB, Case, TORCH};
use differential::oracle::Oracle;
use differential::random::Random;
use differential::table::{self, Position};
use differential::world::{self, Name, WorldQuery};
use redstone::{FARTHEST, Kind, Row, Shape, TORCH_CHARGES_ABOVE};

use super::record::Record;
use super::{MOST_ROWS, small_cases};

const TABLES: usize = 45;
/// Each look-up has its table with it, so these are the smaller ones.
const LOOK_UP_TABLES: usize = 45;
const MOST_LOOK_UP_ROWS: usize = 16;
const ROWS_LOOKED_UP: usize = 1;
const POSITIONS_LOOKED_UP: usize = 2;
const OFFSETS: usize = 60;

pub fn records(seed: u64, random: &mut Random) -> Vec<Record> {
    let tables: Vec<_> = small_cases(seed, MOST_ROWS).take(TABLES).chain(every_block()).collect();
    let mut records: Vec<_> = tables.iter().chain(&every_plain_block()).map(traits).collect();
    records.extend(names().chain(tables.iter().flat_map(any_names)).map(shape_of_name));
    for case in small_cases(seed, MOST_LOOK_UP_ROWS).take(LOOK_UP_TABLES) {
        records.extend(look_up_positions(random, &case).into_iter().map(|at| look_up(&case, at)));
    }
    let every_kind = &every_plain_block()[0];
    records.extend(row_positions(every_kind).into_iter().map(|at| look_up(every_kind, at)));
    records.extend(tables.iter().map(support_issues));
    records.extend(tables.iter().chain(&every_plain_block()).map(properties));
    records.extend((0..OFFSETS).map(|_| offset(any_position(random), any_position(random))));
    records
}

fn ask(case: &Case, query: WorldQuery) -> Answer {
    Oracle::new(case).answer(&query)
}

fn number<N: TryFrom<i128>>(case: &Case, query: WorldQuery) -> N {
    N::try_from(ask(case, query).number).ok().expect("an answer of the layout's width")
}

fn traits(case: &Case) -> Record {
    let numbers = (0..case.rows()).map(|row| number::<u16>(case, WorldQuery::Traits(row)));
    let numbers: Vec<_> = numbers.flat_map(u16::to_le_bytes).collect();
    Record::new(1).slice(&case.profile).slice(&case.table).slice(&numbers)
}

fn shape_of_name(name: Name) -> Record {
    let record = Record::new(2).slice(&name.name).slice(&name.slab_type).slice(&name.half);
    record.bytes(&[number(&no_rows(), WorldQuery::ShapeOfName(name))])
}

fn look_up(case: &Case, at: Position) -> Record {
    let row: u64 = number(case, WorldQuery::Find(at));
    let kind: u8 = number(case, WorldQuery::KindAt(at));
    Record::new(3).slice(&case.table).position(at).bytes(&row.to_le_bytes()).bytes(&[kind])
}

/// A refusal lists no rows.
pub fn support_issues(case: &Case) -> Record {
    let answer = ask(case, WorldQuery::SupportIssues { entries: case.rows() });
    let number = u32::try_from(answer.number).expect("an answer of the layout's width");
    let count = if answer.refusal().is_some() { 0 } else { number };
    let rows = &answer.buffers[0].entries[..count as usize];
    let list: Vec<_> = rows.iter().flat_map(|row| row.to_le_bytes()).collect();
    Record::new(4).slice(&case.profile).slice(&case.table).slice(&list).number(number)
}

fn properties(case: &Case) -> Record {
    let numbers: Vec<u8> = (0..14).map(|kind| number(case, WorldQuery::Properties(kind))).collect();
    Record::new(5).slice(&case.profile).bytes(&numbers)
}

fn offset(from: Position, by: Position) -> Record {
    let sum = [0, 1, 2].map(|axis| number(&no_rows(), WorldQuery::Offset { from, by, axis }));
    Record::new(6).position(from).position(by).position(sum)
}

/// Blocks side by side.
fn blocks(sort: &'static str, profile: [u8; 14], blocks: impl Iterator<Item = (Kind, Shape)>) -> Case {
    let row = |(x, (kind, shape))| Row::new(kind, [x, 0, 0]).with_shape(shape);
    Case::new(sort, profile, (0..).zip(blocks).map(row))
}

fn no_rows() -> Case {
    Case::new("no rows", BENCH_PROFILE, [])
}

/// Every kind in every shape, under the bench profile with the bulb: half of the kinds to a table.
fn every_block() -> impl Iterator<Item = Case> {
    let shapes = |kind: &'static Kind| Shape::ALL.iter().map(|shape| (*kind, *shape));
    let half = |kinds: &'static [Kind]| {
        blocks("every kind and shape", BENCH_PROFILE_WITH_BULB, kinds.iter().flat_map(shapes))
    };
    let (first, second) = Kind::ALL.split_at(Kind::ALL.len() / 2);
    [half(first), half(second)].into_iter()
}

/// Every kind in the plain shape, with every byte that a profile may have for it: the torch alone past 31.
fn every_plain_block() -> Vec<Case> {
    let every_kind = |byte| plain_blocks(all_kinds(byte), Kind::ALL);
    let torch = |byte| {
        let mut profile = all_kinds(byte);
        profile[TORCH] |= TORCH_CHARGES_ABOVE;
        plain_blocks(profile, &[Kind::RedstoneTorch])
    };
    (0..=31).map(every_kind).chain((0..=31).map(torch)).collect()
}

/// The profile with this byte for every kind but Air.
fn all_kinds(byte: u8) -> [u8; 14] {
    std::array::from_fn(|kind| if kind == 0 { 0 } else { byte })
}

fn plain_blocks(profile: [u8; 14], kinds: &[Kind]) -> Case {
    blocks("plain blocks", profile, kinds.iter().map(|kind| (*kind, Shape::Plain)))
}

/// Names with each ending that has a shape and some that have none, with each value of `type` and `half`.
fn names() -> impl Iterator<Item = Name> {
    const NAMES: [&str; 9] = [
        "minecraft:oak_slab",
        "minecraft:oak_stairs",
        "minecraft:glass",
        "minecraft:tinted_glass",
        "minecraft:stone",
        "minecraft:glass_pane",
        "minecraft:stairs_slab",
        "_stairs",
        "",
    ];
    const VALUES: [&str; 4] = ["", "top", "double", "bottom"];
    let pairs = VALUES.into_iter().flat_map(|slab_type| VALUES.map(|half| (slab_type, half)));
    NAMES.into_iter().flat_map(move |name| {
        pairs.clone().map(move |(slab_type, half)| Name {
            name: name.into(),
            slab_type: slab_type.into(),
            half: half.into(),
        })
    })
}

/// The names that a case asks about. The original's are text, so others are left out.
fn any_names(case: &Case) -> Vec<Name> {
    let is_text = |bytes: &[u8]| std::str::from_utf8(bytes).is_ok();
    let text = |query| match query {
        WorldQuery::ShapeOfName(name)
            if is_text(&name.name) && is_text(&name.slab_type) && is_text(&name.half) =>
        {
            Some(name)
        }
        _ => None,
    };
    world::queries(case).into_iter().filter_map(text).collect()
}

fn row_positions(case: &Case) -> Vec<Position> {
    table::rows(&case.table).iter().map(Row::position).collect()
}

/// The positions of some rows, and some of the positions that the case asks about.
fn look_up_positions(random: &mut Random, case: &Case) -> Vec<Position> {
    let asked = |query| match query {
        WorldQuery::Find(at) => Some(at),
        _ => None,
    };
    let mut rows = row_positions(case);
    let mut positions: Vec<_> = world::queries(case).into_iter().filter_map(asked).collect();
    random.keep(&mut rows, ROWS_LOOKED_UP);
    random.keep(&mut positions, POSITIONS_LOOKED_UP);
    [rows, positions].concat()
}

/// A position of the domain, often one of its ends. The sum of two stays inside 32 bits.
fn any_position(random: &mut Random) -> Position {
    [(); 3].map(|()| {
        let (near, far) = (random.within(-3, 3), random.within(-FARTHEST, FARTHEST));
        random.pick(&[near, near, far, FARTHEST, -FARTHEST])
    })
}
