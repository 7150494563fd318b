//! electrical.rs and sim.rs, through the four calls of the editor's crate.

mod alterations;
mod edges;
mod queries;
mod runs;
mod simulator;
mod state;

use original::electrical::{InstantaneousElectricalState, PoweredBlockState, solve_instantaneous};
use original::world::World;
use redstone::ROW_BYTES;

use crate::bulb::READING;
use crate::compare::{Answer, Answers, Compared, Tally, compare};
use crate::generate::Case;
use crate::oracle::{Oracle, pos};
use crate::refusals::{ORDER, Refusal, refuse};
use crate::settling::{Buffers, Call, Input, LIMIT};
use crate::table::Position;

pub use alterations::ALTERATIONS;
pub use edges::{edges, single_bytes};
pub use queries::{fresh_devices, queries, settle_at_every_limit};
pub use runs::{OriginalRun, ProvedRun, Step, hundred_ticks, steps};
pub use simulator::Simulator;
pub use state::device_outputs;

pub fn compare_case(case: &Case, actual: &dyn Answers<Call>, tally: &mut Tally) -> Compared {
    let oracle = Oracle::new(case);
    compare(queries(case, &oracle), &oracle, actual, tally)
}

impl Answers<Call> for Oracle<'_> {
    fn answer(&self, call: &Call) -> Answer {
        let mut buffers = Buffers::for_call(self.case, call);
        let [_, table, state, columns @ ..] = buffers.entries();
        let number = match self.called(call, table, state) {
            Ok(settled) => {
                self.write_columns(&settled, columns);
                settled.iterations as u32
            }
            Err(refusal) => refusal.code(),
        };
        buffers.answer(number)
    }
}

impl Oracle<'_> {
    /// Refuses, or changes what the call changes and gives the settled numbers.
    fn called(
        &self,
        call: &Call,
        table: &mut [u8],
        state: &mut [u8],
    ) -> Result<InstantaneousElectricalState, Refusal> {
        refuse(&ORDER, &call.asked(self.case))?;
        match call.input {
            Input::Fresh { .. } => Ok(self.fresh(state)),
            Input::Settle { limit, .. } => self.settle(state, limit),
            Input::Tick { ticks, .. } => Ok(self.tick(state, ticks)),
            Input::Switch { at, powered, .. } => Ok(self.switch(state, at, powered, table)),
        }
    }

    pub fn settle(&self, devices: &[u8], limit: u32) -> Result<InstantaneousElectricalState, Refusal> {
        let devices = device_outputs(&self.rows, devices);
        solve_instantaneous(self.world(), &devices, limit as usize).map_err(|_| Refusal { number: 8, row: 0 })
    }

    /// Settling with the fresh devices.
    pub fn settle_fresh(&self) -> InstantaneousElectricalState {
        self.settle(&fresh_devices(self), LIMIT).expect(SETTLES)
    }

    fn fresh(&self, state: &mut [u8]) -> InstantaneousElectricalState {
        let simulator = self.started();
        state.copy_from_slice(&simulator.packed());
        simulator.settled()
    }

    /// The simulator, at its start.
    pub fn started(&self) -> Simulator<'_> {
        Simulator::started(self, READING)
    }

    /// The simulator, at a packed state.
    pub fn simulator(&self, state: &[u8]) -> Simulator<'_> {
        Simulator::at(self, state)
    }

    fn tick(&self, state: &mut [u8], ticks: u32) -> InstantaneousElectricalState {
        let mut simulator = self.simulator(state);
        let last = simulator.tick(ticks);
        state.copy_from_slice(&simulator.packed());
        last
    }

    fn switch(
        &self,
        state: &[u8],
        at: Position,
        powered: bool,
        table: &mut [u8],
    ) -> InstantaneousElectricalState {
        let mut simulator = self.simulator(state);
        let last = simulator.switch(at, powered);
        write_powered(table, simulator.world());
        last
    }

    fn write_columns(&self, settled: &InstantaneousElectricalState, [signal, weak, strong]: [&mut [u8]; 3]) {
        for (row, at) in self.rows.iter().map(|row| pos(row.position())).enumerate() {
            signal[row] = settled.signal(at);
            PoweredBlockState { weak: weak[row], strong: strong[row] } = settled.power(at);
        }
    }
}

/// Writes byte 14 of each row as a world has it.
fn write_powered(table: &mut [u8], world: &World) {
    for (row, (_, block)) in table.chunks_exact_mut(ROW_BYTES).zip(world.iter()) {
        row[14] = block.powered.map_or(0, |powered| 1 + u8::from(powered));
    }
}

pub const SETTLES: &str = "the original settles within its limit of 128";
