//! The original's simulator, and beside it the bulbs, which are plain blocks to the original.

use std::collections::BTreeMap;

use original::Profiled;
use original::electrical::{InstantaneousElectricalState, PoweredBlockState};
use original::sim::{RedstoneTickSimulator, TickState};
use original::world::{Pos, World};
use redstone::{Kind, Row, STATE_BYTES};

use super::SETTLES;
use super::state::{pack, unpack};
use crate::bulb::{Bulb, Power, READING, Reading, Switch, Tick};
use crate::oracle::{Oracle, pos};
use crate::table::Position;

pub struct Simulator<'a> {
    rows: &'a [Row],
    original: Profiled<RedstoneTickSimulator>,
    reading: Reading,
    bulbs: BTreeMap<Pos, Bulb>,
}

impl<'a> Simulator<'a> {
    /// At its start, where Change 4 is read so.
    pub fn started(oracle: &'a Oracle, reading: Reading) -> Self {
        let original = oracle.made(|world| RedstoneTickSimulator::new(world).expect(SETTLES));
        let settled = settled(original.get().snapshot());
        let fresh = |row: &Row| {
            let at = pos(row.position());
            (at, (reading.fresh)(row.powered(), power(&settled, at)))
        };
        let bulbs = oracle.rows.iter().filter(|row| is_bulb(row)).map(fresh).collect();
        Self { rows: &oracle.rows, original, reading, bulbs }
    }

    /// At a packed state.
    pub fn at(oracle: &'a Oracle, state: &[u8]) -> Self {
        let parts = unpack(&oracle.rows, state);
        let original = oracle.made(|world| RedstoneTickSimulator::from_parts(world, parts).expect(SETTLES));
        let rows = oracle.rows.iter().zip(state.chunks_exact(STATE_BYTES));
        let bulbs = rows.filter(|(row, _)| is_bulb(row));
        let bulbs = bulbs.map(|(row, state)| (pos(row.position()), Bulb::read(state))).collect();
        Self { rows: &oracle.rows, original, reading: READING, bulbs }
    }

    /// What it has settled to.
    pub fn settled(&self) -> InstantaneousElectricalState {
        settled(self.original.get().snapshot())
    }

    pub fn tick(&mut self, ticks: u32) -> InstantaneousElectricalState {
        let mut last = self.settled();
        if ticks == 0 {
            let no_tick = self.reading.no_tick;
            self.change_bulbs(|at, bulb| no_tick(bulb, power(&last, at)));
        }
        for left in (0..ticks).rev() {
            let next = settled(self.original.get_mut().advance_tick().expect(SETTLES));
            let tick = self.reading.tick;
            self.change_bulbs(|at, bulb| {
                tick(bulb, Tick { before: power(&last, at), after: power(&next, at), left })
            });
            last = next;
        }
        last
    }

    pub fn switch(&mut self, at: Position, powered: bool) -> InstantaneousElectricalState {
        let at = pos(at);
        let settled = settled(self.original.get_mut().set_powered(at, powered).expect(SETTLES));
        let switch = self.reading.switch;
        self.change_bulbs(|bulb_at, bulb| {
            let own = (bulb_at == at).then_some(powered);
            switch(bulb, Switch { after: power(&settled, bulb_at), own })
        });
        settled
    }

    fn change_bulbs(&mut self, change: impl Fn(Pos, Bulb) -> Bulb) {
        for (at, bulb) in &mut self.bulbs {
            *bulb = change(*at, *bulb);
        }
    }

    /// The state that it stands at.
    pub fn packed(&self) -> Vec<u8> {
        pack(self.rows, &self.original.get().parts(), &self.bulbs)
    }

    /// The original's own, of which the bulbs are told nothing.
    pub fn original(&mut self) -> &mut RedstoneTickSimulator {
        self.original.get_mut()
    }

    pub fn world(&self) -> &World {
        self.original.get().world()
    }
}

fn is_bulb(row: &Row) -> bool {
    row.kind() == Kind::CopperBulb
}

fn power(settled: &InstantaneousElectricalState, at: Pos) -> Power {
    let PoweredBlockState { weak, strong } = settled.power(at);
    Power { weak, strong }
}

fn settled(state: TickState) -> InstantaneousElectricalState {
    InstantaneousElectricalState {
        signal_levels: state.strengths,
        block_power: state.block_power,
        iterations: state.instantaneous_iterations,
    }
}
