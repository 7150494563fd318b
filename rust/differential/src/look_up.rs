//! Look-ups on rows in any order, held to a second reading of document 02's Change 2.

mod misreadings;
#[cfg(not(no_original))]
mod original;
mod queries;

use std::cell::OnceCell;
use std::collections::BTreeSet;

use redstone::ROW_BYTES;

use crate::compare::{Answer, Answers, Query, same};
use crate::generate::Case;
use crate::probe::{
    NOTHING_THERE, Probe, probe_component_connects, probe_find, probe_infer, probe_kind_at, probe_port,
    probe_port_coordinate, probe_resolved, probe_transfer,
};
use crate::table::{Position, positions};

pub use misreadings::{MISREADINGS, MISREADINGS_AT_THE_ENDS, Misreading};
#[cfg(not(no_original))]
pub use original::{BY_POSITION, compare_with_original, has_world};
pub use queries::{queries, small_queries};

/// The number of the row found at a position.
pub type Find = fn(&[u8], Position) -> Option<usize>;

/// Change 2: the search is "to end at the first row at or past the position", and "answers that first row if it stands
/// at the position, else nothing".
pub fn first_at_or_past(table: &[u8], position: Position) -> Option<usize> {
    let (row, at) = positions(table).enumerate().find(|(_, at)| *at >= position)?;
    (at == position).then_some(row)
}

/// The search before Change 2, whose answers on rows in order "do not change".
pub fn first_that_stands(table: &[u8], position: Position) -> Option<usize> {
    positions(table).position(|at| at == position)
}

/// A call that takes a table as it is and looks positions up in it. Ports are numbered as in `connectivity`.
#[derive(Debug)]
pub enum LookUp {
    Find(Position),
    KindAt(Position),
    Port(Position, u32),
    PortCoordinate(Position, u32, u32),
    Connects(Position, u32),
    Infer(Position, u32),
    Resolved(Position, u32),
    Transfer(Position, Position),
}

impl Query for LookUp {
    fn function(&self) -> &'static str {
        match self {
            Self::Find(_) => "find",
            Self::KindAt(_) => "kind_at",
            Self::Port(..) => "port",
            Self::PortCoordinate(..) => "port_coordinate",
            Self::Connects(..) => "component_connects",
            Self::Infer(..) => "infer_wire_connection",
            Self::Resolved(..) => "resolved_wire_connection",
            Self::Transfer(..) => "dust_transfer",
        }
    }
}

impl Answers<LookUp> for Probe<'_> {
    fn answer(&self, query: &LookUp) -> Answer {
        let Case { profile, table, .. } = self.0;
        match *query {
            LookUp::Find(at @ [x, y, z]) => {
                let editors = redstone::find(table, at).map_or(NOTHING_THERE, |row| row as u64);
                same([probe_find(table, x, y, z), editors].map(Answer::from))
            }
            LookUp::KindAt([x, y, z]) => probe_kind_at(table, x, y, z).into(),
            LookUp::Port([x, y, z], port) => probe_port(table, x, y, z, port).into(),
            LookUp::PortCoordinate([x, y, z], port, axis) => {
                probe_port_coordinate(table, x, y, z, port, axis).into()
            }
            LookUp::Connects([x, y, z], facing) => probe_component_connects(table, x, y, z, facing).into(),
            LookUp::Infer([x, y, z], facing) => probe_infer(profile, table, x, y, z, facing).into(),
            LookUp::Resolved([x, y, z], facing) => probe_resolved(profile, table, x, y, z, facing).into(),
            LookUp::Transfer([x, y, z], [x2, y2, z2]) => {
                probe_transfer(profile, table, x, y, z, x2, y2, z2).into()
            }
        }
    }
}

/// What is expected where positions are looked up so. The functions over a look-up are by definition those of the rows
/// found, so they are to answer as on a table of these alone, which is in order.
pub struct Reading<'a> {
    case: &'a Case,
    find: Find,
    rows_found: OnceCell<Case>,
}

impl<'a> Reading<'a> {
    pub fn new(case: &'a Case, find: Find) -> Self {
        Self { case, find, rows_found: OnceCell::new() }
    }

    fn rows_found(&self) -> &Case {
        self.rows_found.get_or_init(|| rows_found(self.case, self.find))
    }
}

/// The case with the rows that are found at their own positions, in order.
fn rows_found(case: &Case, find: Find) -> Case {
    let own: BTreeSet<_> = positions(&case.table).collect();
    let rows = own.into_iter().filter_map(|at| row_found(&case.table, at, find));
    let table = rows.flatten().copied().collect();
    Case { table, ..case.clone() }
}

/// The bytes of the row found.
fn row_found(table: &[u8], at: Position, find: Find) -> Option<&[u8]> {
    find(table, at).and_then(|row| table.chunks(ROW_BYTES).nth(row))
}

impl Answers<LookUp> for Reading<'_> {
    fn answer(&self, query: &LookUp) -> Answer {
        match *query {
            LookUp::Find(at) => {
                (self.find)(&self.case.table, at).map_or(NOTHING_THERE, |row| row as u64).into()
            }
            LookUp::KindAt(at) => row_found(&self.case.table, at, self.find).map_or(0, |row| row[12]).into(),
            _ => Probe(self.rows_found()).answer(query),
        }
    }
}
