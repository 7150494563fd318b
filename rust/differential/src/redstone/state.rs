//! The packed state and device column of document 01, and the parts of the original's simulator that they stand for. The
//! original has no part of a bulb.

use std::collections::{BTreeMap, VecDeque};

use original::electrical::DeviceOutputState;
use original::sim::Parts;
use original::world::Pos;
use redstone::{Kind, Row, STATE_BYTES};

use crate::bulb::Bulb;
use crate::oracle::pos;

/// The original counts ticks from a start, the packed state back from now. Any number of ticks at least as large as
/// the farthest toggle kept serves as now.
const NOW: u64 = 1_000;
const FARTHEST_TOGGLE: u64 = 30;

pub fn device_outputs(rows: &[Row], devices: &[u8]) -> DeviceOutputState {
    let mut outputs = DeviceOutputState::default();
    for (row, device) in rows.iter().zip(devices) {
        set_device(&mut outputs, row, *device);
    }
    outputs
}

fn set_device(outputs: &mut DeviceOutputState, row: &Row, device: u8) {
    let at = pos(row.position());
    match row.kind() {
        Kind::Repeater => drop(outputs.repeater_powered.insert(at, device == 1)),
        Kind::RedstoneTorch => drop(outputs.torch_lit.insert(at, device == 1)),
        Kind::Comparator => drop(outputs.comparator_output.insert(at, device)),
        _ => {}
    }
}

/// The simulator's parts for a state.
pub fn unpack(rows: &[Row], state: &[u8]) -> Parts {
    let mut parts = Parts { tick: NOW, ..Parts::default() };
    let mut outputs = DeviceOutputState::default();
    for (row, state) in rows.iter().zip(state.chunks_exact(STATE_BYTES)) {
        set_device(&mut outputs, row, state[0]);
        match row.kind() {
            Kind::Repeater => unpack_queue(&mut parts, row, state),
            Kind::RedstoneTorch => unpack_toggles(&mut parts, pos(row.position()), state),
            Kind::RedstoneLamp => unpack_lamp(&mut parts, pos(row.position()), state),
            _ => {}
        }
    }
    parts.repeater_powered = outputs.repeater_powered;
    parts.torch_lit = outputs.torch_lit;
    parts.comparator_output = outputs.comparator_output;
    parts
}

fn unpack_queue(parts: &mut Parts, row: &Row, state: &[u8]) {
    let delay = row.delay().unwrap_or(1).clamp(1, 4);
    let queue = (0..delay).map(|bit| state[1] >> bit & 1 == 1).collect();
    parts.repeater_queues.insert(pos(row.position()), queue);
}

fn unpack_toggles(parts: &mut Parts, at: Pos, state: &[u8]) {
    let bits = u32::from_le_bytes([state[4], state[5], state[6], state[7]]);
    let ages = (0..=FARTHEST_TOGGLE).rev().filter(|age| bits >> age & 1 == 1);
    let toggles: VecDeque<_> = ages.map(|age| NOW - age).collect();
    if !toggles.is_empty() {
        parts.torch_toggle_ticks.insert(at, toggles);
    }
    if state[8] == 1 {
        parts.torch_burnout_candidates.insert(at);
    }
}

fn unpack_lamp(parts: &mut Parts, at: Pos, state: &[u8]) {
    parts.lamp_lit.insert(at, state[2] == 1);
    if state[3] > 0 {
        parts.lamp_off_deadline.insert(at, NOW + u64::from(state[3]));
    }
}

/// The state for the simulator's parts and the bulbs.
pub fn pack(rows: &[Row], parts: &Parts, bulbs: &BTreeMap<Pos, Bulb>) -> Vec<u8> {
    let bulb = |row: &Row| bulbs.get(&pos(row.position())).map(|bulb| bulb.bytes());
    rows.iter().flat_map(|row| bulb(row).unwrap_or_else(|| pack_row(row, parts))).collect()
}

fn pack_row(row: &Row, parts: &Parts) -> [u8; STATE_BYTES] {
    let at = pos(row.position());
    let mut state = [0; STATE_BYTES];
    match row.kind() {
        Kind::Repeater => {
            state[0] = parts.repeater_powered[&at].into();
            let queue = parts.repeater_queues[&at].iter().enumerate();
            state[1] = queue.map(|(bit, on)| u8::from(*on) << bit).sum();
        }
        Kind::RedstoneTorch => {
            state[0] = parts.torch_lit[&at].into();
            let toggles = parts.torch_toggle_ticks.get(&at).into_iter().flatten();
            let ages = toggles.map(|tick| parts.tick - tick).filter(|age| *age <= FARTHEST_TOGGLE);
            let bits: u32 = ages.map(|age| 1 << age).sum();
            state[4..8].copy_from_slice(&bits.to_le_bytes());
            state[8] = parts.torch_burnout_candidates.contains(&at).into();
        }
        Kind::Comparator => state[0] = parts.comparator_output[&at],
        Kind::RedstoneLamp => {
            state[2] = parts.lamp_lit[&at].into();
            state[3] = parts.lamp_off_deadline.get(&at).map_or(0, |deadline| (deadline - parts.tick) as u8);
        }
        _ => {}
    }
    state
}
