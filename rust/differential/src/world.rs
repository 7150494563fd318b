//! blocks and world.rs: properties, traits, shapes of names, look-up, supports, positions and facings.

mod alterations;
mod queries;

use original::blocks::behavior_profile;
use original::world::{Block, BlockKind, BlockRedstoneTraits, Facing, OccupiedShape};
use redstone::Row;

use crate::compare::{Answer, Answers, Compared, Query, Tally, compare, same};
use crate::generate::Case;
use crate::lent::Lent;
use crate::oracle::{KINDS, Oracle, connection_number, facing, facing_number, pos};
use crate::probe::{
    NOTHING_THERE, Probe, answered, probe_find, probe_horizontal_offset, probe_kind_at, probe_offset,
    probe_opposite, probe_properties, probe_shape_of_name, probe_support_issues, probe_traits,
};
use crate::refusals::{Asked, ORDER, Refusal, Written, refuse};
use crate::table::Position;

pub use alterations::ALTERATIONS;
pub use queries::queries;

pub fn compare_case(case: &Case, actual: &dyn Answers<WorldQuery>, tally: &mut Tally) -> Compared {
    compare(queries(case), &Oracle::new(case), actual, tally)
}

#[derive(Debug)]
pub enum WorldQuery {
    Find(Position),
    KindAt(Position),
    Properties(u32),
    Traits(usize),
    ShapeOfName(Name),
    SupportIssues {
        entries: usize,
    },
    /// Any axis but x and y is z.
    Offset {
        from: Position,
        by: Position,
        axis: usize,
    },
    Opposite(u32),
    HorizontalOffset {
        facing: u32,
        axis: usize,
    },
}

/// A name with the values of its properties `type` and `half`, empty where they are missing.
#[derive(Debug)]
pub struct Name {
    pub name: Vec<u8>,
    pub slab_type: Vec<u8>,
    pub half: Vec<u8>,
}

impl Query for WorldQuery {
    fn function(&self) -> &'static str {
        match self {
            Self::Find(_) => "find",
            Self::KindAt(_) => "kind_at",
            Self::Properties(_) => "properties",
            Self::Traits(_) => "redstone_traits",
            Self::ShapeOfName(_) => "shape_of_name",
            Self::SupportIssues { .. } => "support_issues",
            Self::Offset { .. } => "offset",
            Self::Opposite(_) => "opposite",
            Self::HorizontalOffset { .. } => "horizontal_offset",
        }
    }
}

const NO_OFFSET: i32 = 2;

impl Answers<WorldQuery> for Probe<'_> {
    fn answer(&self, query: &WorldQuery) -> Answer {
        let Case { profile, table, .. } = self.0;
        match query {
            &WorldQuery::Find([x, y, z]) => probe_find(table, x, y, z).into(),
            &WorldQuery::KindAt([x, y, z]) => probe_kind_at(table, x, y, z).into(),
            &WorldQuery::Properties(kind) => probe_properties(profile, kind).into(),
            &WorldQuery::Traits(row) => probe_traits(profile, table, row as u64).into(),
            WorldQuery::ShapeOfName(Name { name, slab_type, half }) => {
                probe_shape_of_name(name, slab_type, half).into()
            }
            &WorldQuery::SupportIssues { entries } => {
                let list = |call: fn(&[u8], &[u8], &mut [u16]) -> u32| {
                    let mut column = Lent::untouched(entries);
                    let number = call(profile, table, column.entries());
                    Answer::with_buffers(number, [column.returned()])
                };
                same([probe_support_issues, editors_supports].map(list))
            }
            &WorldQuery::Offset { from: [x, y, z], by: [dx, dy, dz], axis } => {
                probe_offset(x, y, z, dx, dy, dz, axis as u32).into()
            }
            &WorldQuery::Opposite(facing) => probe_opposite(facing).into(),
            &WorldQuery::HorizontalOffset { facing, axis } => {
                probe_horizontal_offset(facing, axis as u32).into()
            }
        }
    }
}

fn editors_supports(profile: &[u8], table: &[u8], rows: &mut [u16]) -> u32 {
    answered(redstone::supports(profile, table, rows).map(|count| count as u32))
}

impl Answers<WorldQuery> for Oracle<'_> {
    fn answer(&self, query: &WorldQuery) -> Answer {
        match query {
            &WorldQuery::Find(at) => self.find(at).into(),
            &WorldQuery::KindAt(at) => (self.world().kind_at(pos(at)) as u32).into(),
            &WorldQuery::Properties(kind) => self.properties(kind).into(),
            &WorldQuery::Traits(row) => self.traits(&self.rows[row]).into(),
            WorldQuery::ShapeOfName(name) => shape_of_name(name).into(),
            &WorldQuery::SupportIssues { entries } => {
                let mut column = Lent::untouched(entries);
                let number = self.support_issues(column.entries());
                Answer::with_buffers(number.unwrap_or_else(Refusal::code), [column.returned()])
            }
            &WorldQuery::Offset { from, by, axis } => offset(from, by)[axis.min(2)].into(),
            &WorldQuery::Opposite(number) => facing_number(facing(number).map(Facing::opposite)).into(),
            &WorldQuery::HorizontalOffset { facing, axis } => horizontal_offset(facing, axis).into(),
        }
    }
}

impl Oracle<'_> {
    fn find(&self, at: Position) -> u64 {
        match self.world().get(pos(at)) {
            Some(_) => self.row_at(pos(at)) as u64,
            None => NOTHING_THERE,
        }
    }

    /// A kind that the original has not is of no properties.
    fn properties(&self, kind: u32) -> u32 {
        let Some(kind) = KINDS.get(kind as usize) else {
            return 0;
        };
        // To reach for the world is to put the profile in force.
        self.world();
        let properties = behavior_profile(*kind).properties;
        sum_of_bits([
            properties.supports_components,
            properties.receives_weak_power,
            properties.receives_strong_power,
            properties.repeater_reads_block_power,
            properties.strong_power_drives_dust,
        ])
    }

    fn traits(&self, row: &Row) -> u32 {
        let block = self.world().get(pos(row.position()));
        let traits = block.expect("the row's own block").redstone_traits();
        let rise = traits.wire_rise_connection;
        assert_eq!(traits.permits_wire_rise_beside, rise.is_some(), "the port keeps one of these two traits");
        let bits = sum_of_bits([
            traits.supports_dust_on_top,
            traits.conducts_weak_power,
            traits.conducts_strong_power,
            traits.strong_power_drives_dust,
            traits.blocks_wire_rise_when_above,
        ]);
        bits + 32 * rise.map_or(1, connection_number)
    }

    fn support_issues(&self, column: &mut [u16]) -> Result<u32, Refusal> {
        refuse(&ORDER, &supports_asked(self.case, column.len()))?;
        let issues = self.world().support_issues();
        for (entry, (at, ..)) in column.iter_mut().zip(&issues) {
            *entry = self.row_at(*at) as u16;
        }
        Ok(issues.len() as u32)
    }
}

/// What a refusal of the support list may fall on.
pub fn supports_asked(case: &Case, entries: usize) -> Asked<'_> {
    Asked { lent: vec![Written::column(entries)], ..Asked::new(&case.profile, &case.table) }
}

fn sum_of_bits(bits: [bool; 5]) -> u32 {
    bits.iter().rev().fold(0, |sum, bit| 2 * sum + u32::from(*bit))
}

/// The original knows shapes by their traits alone. On Air each shape's differ from all others'.
fn shape_of_name(name: &Name) -> u32 {
    let text = |bytes: &[u8]| String::from_utf8_lossy(bytes).into_owned();
    let mut block = Block::new(BlockKind::Air);
    block.observed_name = Some(text(&name.name));
    for (key, value) in [("type", &name.slab_type), ("half", &name.half)] {
        if !value.is_empty() {
            block.observed_properties.insert(key.to_owned(), text(value));
        }
    }
    let BlockRedstoneTraits { occupied_shape, supports_dust_on_top, blocks_wire_rise_when_above, .. } =
        block.redstone_traits();
    match (occupied_shape, supports_dust_on_top, blocks_wire_rise_when_above) {
        (OccupiedShape::Empty, ..) => 0,
        (OccupiedShape::BottomHalf, ..) => 1,
        (OccupiedShape::TopHalf, ..) => 2,
        (OccupiedShape::FullCube, _, true) => 3,
        (OccupiedShape::Partial, false, _) => 4,
        (OccupiedShape::Partial, true, _) => 5,
        (OccupiedShape::FullCube, _, false) => 6,
    }
}

/// Where the original's sum passes an end of 32 bits, document 01 stops there.
fn offset(from: Position, by: Position) -> Position {
    let fits = |axis: usize| from[axis].checked_add(by[axis]).is_some();
    if (0..3).all(fits) {
        let sum = pos(from).offset(by[0], by[1], by[2]);
        [sum.x, sum.y, sum.z]
    } else {
        [0, 1, 2].map(|axis| from[axis].saturating_add(by[axis]))
    }
}

fn horizontal_offset(number: u32, axis: usize) -> i32 {
    let offset = facing(number).and_then(Facing::horizontal_offset);
    offset.map_or(NO_OFFSET, |offset| [offset.x, offset.y, offset.z][axis])
}
