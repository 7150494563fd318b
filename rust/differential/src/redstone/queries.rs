//! The calls that both sides are asked to answer for a case.

use original::electrical::DeviceOutputState;
use redstone::{Kind, Row, STATE_BYTES};

use super::SETTLES;
use crate::damage::{damage_bytes, other_length, overdrive};
use crate::devices::{any_devices, any_state};
use crate::generate::Case;
use crate::oracle::{Oracle, pos};
use crate::positions::any_position;
use crate::random::Random;
use crate::settling::{Call, Input, LIMIT};

/// From this many rows on a table is asked for less.
pub const LARGE: usize = 100;

pub fn queries(case: &Case, oracle: &Oracle) -> Vec<Call> {
    let mut random = Random::new(case.seed);
    let rows = case.rows();
    let inputs = match oracle.refusal {
        Ok(()) => accepted_inputs(&mut random, oracle),
        Err(_) => refused_inputs(rows),
    };
    let fresh = Input::Fresh { state_bytes: STATE_BYTES * rows };
    let call = |input| damaged_sometimes(&mut random, &oracle.rows, Call { input, columns: [rows; 3] });
    inputs.into_iter().chain([fresh]).map(call).collect()
}

/// Each call, with a device column and a state that have only their length right.
fn refused_inputs(rows: usize) -> Vec<Input> {
    let state = vec![0; STATE_BYTES * rows];
    vec![
        Input::Settle { devices: vec![0; rows], limit: LIMIT },
        Input::Tick { state: state.clone(), tick: 0, ticks: 1 },
        Input::Switch { state, at: [0; 3], powered: true },
    ]
}

fn accepted_inputs(random: &mut Random, oracle: &Oracle) -> Vec<Input> {
    let mut inputs = settles(random, oracle);
    let states = [reached_state(random, oracle), any_state(random, &oracle.rows)];
    for state in states {
        inputs.push(tick(random, state.clone()));
        inputs.push(switch(random, oracle, state));
    }
    if oracle.rows.len() >= LARGE {
        random.keep(&mut inputs, 3);
    }
    inputs
}

/// Settling at the limit of the simulator, the highest, about the rounds needed, and at some small one.
fn settles(random: &mut Random, oracle: &Oracle) -> Vec<Input> {
    let mut inputs = Vec::new();
    for devices in [fresh_devices(oracle), any_devices(random, &oracle.rows)] {
        let rounds = oracle.settle(&devices, LIMIT).expect(SETTLES).iterations as u32;
        let few = random.below(21) as u32;
        let mut limits = vec![LIMIT, u32::MAX, rounds, rounds - 1, few];
        random.keep(&mut limits, 2);
        let settle = |limit| Input::Settle { devices: devices.clone(), limit };
        inputs.extend(limits.into_iter().map(settle));
    }
    inputs
}

/// Settling with some devices at each limit up to a few above the most rounds, and at the simulator's.
pub fn settle_at_every_limit(oracle: &Oracle) -> impl Iterator<Item = Call> {
    let devices = any_devices(&mut Random::new(oracle.case.seed), &oracle.rows);
    let columns = [oracle.rows.len(); 3];
    let settle = move |limit| Call { input: Input::Settle { devices: devices.clone(), limit }, columns };
    (0..=20).chain([LIMIT]).map(settle)
}

/// The device column of the fresh state.
pub fn fresh_devices(oracle: &Oracle) -> Vec<u8> {
    let outputs = DeviceOutputState::initially_lit(oracle.world());
    let device = |row: &Row| {
        let at = pos(row.position());
        match row.kind() {
            Kind::Repeater => outputs.repeater_powered[&at].into(),
            Kind::RedstoneTorch => outputs.torch_lit[&at].into(),
            Kind::Comparator => outputs.comparator_output[&at],
            _ => 0,
        }
    };
    oracle.rows.iter().map(device).collect()
}

/// A state that a run comes to while switches are thrown: at its end they may stand otherwise than in the table.
fn reached_state(random: &mut Random, oracle: &Oracle) -> Vec<u8> {
    let mut simulator = oracle.started();
    let ticks = if oracle.rows.len() >= LARGE { 1 } else { random.pick(&[0, 1, 2, 4, 8, 35]) };
    for _ in 0..ticks {
        if random.percent(30) {
            let at = any_position(random, &oracle.rows);
            simulator.switch(at, random.percent(50));
        }
        simulator.tick(1);
    }
    simulator.packed()
}

fn tick(random: &mut Random, state: Vec<u8>) -> Input {
    let ticks = random.pick(&[0, 1, 1, 1, 2, 3, 7]);
    let tick = random.pick(&[0, 1, 1000, u32::MAX - ticks, u32::MAX - ticks + ticks.min(1)]);
    Input::Tick { state, tick, ticks }
}

fn switch(random: &mut Random, oracle: &Oracle, state: Vec<u8>) -> Input {
    Input::Switch { state, at: any_position(random, &oracle.rows), powered: random.percent(50) }
}

/// Most calls as they are; of the others a length, a byte or a comparator's level is changed.
fn damaged_sometimes(random: &mut Random, rows: &[Row], mut call: Call) -> Call {
    if random.percent(10)
        && let Some((bytes, width)) = call.input.devices()
    {
        overdrive(random, rows, bytes, width);
    }
    if random.percent(8) {
        let column = random.below(3);
        call.columns[column] = other_length(random, call.columns[column]);
    }
    if random.percent(12) {
        match &mut call.input {
            Input::Fresh { state_bytes } => *state_bytes = other_length(random, *state_bytes),
            Input::Settle { devices: bytes, .. }
            | Input::Tick { state: bytes, .. }
            | Input::Switch { state: bytes, .. } => damage_bytes(random, bytes),
        }
    }
    call
}
