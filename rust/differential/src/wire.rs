//! wire.rs: arms, transfers and the redrawn table.

mod alterations;
mod queries;

use std::collections::BTreeMap;

use original::wire::{
    DustTransfer, HORIZONTAL, connects, dust_transfer, infer_wire_connection, resolved_wire_connection,
    update_wire_shapes,
};
use original::world::{Facing, WireConnection, World};
use redstone::{Arm, Row};

use crate::compare::{Answer, Answers, Compared, Query, Tally, compare, same};
use crate::generate::Case;
use crate::lent::Lent;
use crate::oracle::{Oracle, arm, connection_number, facing, pos};
use crate::probe::{
    Probe, answered, probe_component_connects, probe_infer, probe_redraw, probe_resolved, probe_transfer,
};
use crate::refusals::Refusal;
use crate::table::Position;

pub use alterations::ALTERATIONS;
pub use queries::queries;

pub fn compare_case(case: &Case, actual: &dyn Answers<WireQuery>, tally: &mut Tally) -> Compared {
    compare(queries(case), &Oracle::new(case), actual, tally)
}

#[derive(Debug)]
pub enum WireQuery {
    Connects(Position, u32),
    Infer(Position, u32),
    Resolved(Position, u32),
    Transfer(Position, Position),
    Redraw,
}

impl Query for WireQuery {
    fn function(&self) -> &'static str {
        match self {
            Self::Connects(..) => "component_connects",
            Self::Infer(..) => "infer_wire_connection",
            Self::Resolved(..) => "resolved_wire_connection",
            Self::Transfer(..) => "dust_transfer",
            Self::Redraw => "update_wire_shapes",
        }
    }
}

impl Answers<WireQuery> for Probe<'_> {
    fn answer(&self, query: &WireQuery) -> Answer {
        let Case { profile, table, .. } = self.0;
        match *query {
            WireQuery::Connects([x, y, z], facing) => probe_component_connects(table, x, y, z, facing).into(),
            WireQuery::Infer([x, y, z], facing) => probe_infer(profile, table, x, y, z, facing).into(),
            WireQuery::Resolved([x, y, z], facing) => probe_resolved(profile, table, x, y, z, facing).into(),
            WireQuery::Transfer([x, y, z], [x2, y2, z2]) => {
                probe_transfer(profile, table, x, y, z, x2, y2, z2).into()
            }
            WireQuery::Redraw => {
                let redraw = |call: fn(&[u8], &mut [u8]) -> u32| {
                    let mut table = Lent::new(table);
                    let number = call(profile, table.entries());
                    Answer::with_buffers(number, [table.returned()])
                };
                same([probe_redraw, editors_redraw].map(redraw))
            }
        }
    }
}

fn editors_redraw(profile: &[u8], table: &mut [u8]) -> u32 {
    answered(redstone::redraw(profile, table).map(|()| 0))
}

impl Answers<WireQuery> for Oracle<'_> {
    fn answer(&self, query: &WireQuery) -> Answer {
        match *query {
            WireQuery::Connects(at, number) => connects(self.world(), pos(at), horizontal(number)).into(),
            WireQuery::Infer(at, number) => {
                let arm = infer_wire_connection(self.world(), pos(at), horizontal(number));
                connection_number(arm).into()
            }
            WireQuery::Resolved(at, number) => {
                let arm = resolved_wire_connection(self.world(), pos(at), horizontal(number));
                connection_number(arm).into()
            }
            WireQuery::Transfer(source, sink) => {
                transfer_number(dust_transfer(self.world(), pos(source), pos(sink))).into()
            }
            WireQuery::Redraw => {
                let mut table = Lent::new(&self.case.table);
                let number = self.redraw(table.entries()).unwrap_or_else(Refusal::code);
                Answer::with_buffers(number, [table.returned()])
            }
        }
    }
}

impl Oracle<'_> {
    fn redraw(&self, table: &mut [u8]) -> Result<u32, Refusal> {
        self.refusal?;
        let mut world = self.world().clone();
        update_wire_shapes(&mut world);
        table.copy_from_slice(&redstone::table(self.rows.iter().map(|row| redrawn(&world, row))));
        Ok(0)
    }
}

/// A row with the arms that its block has now.
pub fn redrawn(world: &World, row: &Row) -> Row {
    let block = world.get(pos(row.position())).expect("the row's own block");
    row.with_arms(block.wire_connections.as_ref().map(arms))
}

fn arms(connections: &BTreeMap<Facing, WireConnection>) -> [Option<Arm>; 4] {
    HORIZONTAL.map(|facing| connections.get(&facing).map(|connection| arm(*connection)))
}

fn horizontal(number: u32) -> Facing {
    facing(number).expect("only facings are asked for")
}

fn transfer_number(transfer: Option<DustTransfer>) -> u32 {
    match transfer {
        None => 0,
        Some(DustTransfer::Horizontal) => 1,
        Some(DustTransfer::Rise) => 2,
        Some(DustTransfer::FallThroughConductor) => 3,
    }
}
