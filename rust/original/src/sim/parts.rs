//! The simulator's private parts: what a packed state is read from and written to.

use std::collections::{BTreeMap, BTreeSet, VecDeque};

use super::RedstoneTickSimulator;
use crate::electrical::{DeviceOutputState, InstantaneousSolveDidNotConverge, solve_instantaneous};
use crate::world::{Pos, World};

#[derive(Clone, Debug, Default)]
pub struct Parts {
    pub tick: u64,
    pub repeater_powered: BTreeMap<Pos, bool>,
    pub repeater_queues: BTreeMap<Pos, VecDeque<bool>>,
    pub torch_lit: BTreeMap<Pos, bool>,
    pub torch_toggle_ticks: BTreeMap<Pos, VecDeque<u64>>,
    pub torch_burnout_candidates: BTreeSet<Pos>,
    pub comparator_output: BTreeMap<Pos, u8>,
    pub lamp_lit: BTreeMap<Pos, bool>,
    pub lamp_off_deadline: BTreeMap<Pos, u64>,
}

impl RedstoneTickSimulator {
    /// A simulator that stands at the given parts, settled.
    pub fn from_parts(world: World, parts: Parts) -> Result<Self, InstantaneousSolveDidNotConverge> {
        let devices = DeviceOutputState {
            repeater_powered: parts.repeater_powered,
            torch_lit: parts.torch_lit,
            comparator_output: parts.comparator_output,
        };
        let only = |(pos, level): (&Pos, &u8)| (*pos, VecDeque::from([*level]));
        Ok(Self {
            instantaneous: solve_instantaneous(&world, &devices, 128)?,
            world,
            tick: parts.tick,
            comparator_queues: devices.comparator_output.iter().map(only).collect(),
            repeater_powered: devices.repeater_powered,
            repeater_queues: parts.repeater_queues,
            torch_lit: devices.torch_lit,
            torch_toggle_ticks: parts.torch_toggle_ticks,
            torch_burnout_candidates: parts.torch_burnout_candidates,
            comparator_output: devices.comparator_output,
            lamp_lit: parts.lamp_lit,
            lamp_off_deadline: parts.lamp_off_deadline,
        })
    }

    #[must_use]
    pub fn parts(&self) -> Parts {
        Parts {
            tick: self.tick,
            repeater_powered: self.repeater_powered.clone(),
            repeater_queues: self.repeater_queues.clone(),
            torch_lit: self.torch_lit.clone(),
            torch_toggle_ticks: self.torch_toggle_ticks.clone(),
            torch_burnout_candidates: self.torch_burnout_candidates.clone(),
            comparator_output: self.comparator_output.clone(),
            lamp_lit: self.lamp_lit.clone(),
            lamp_off_deadline: self.lamp_off_deadline.clone(),
        }
    }

    #[must_use]
    pub fn world(&self) -> &World {
        &self.world
    }
}
