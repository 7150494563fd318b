//! Device columns and states from random numbers, and what is no device and can be thrown.

use redstone::{Kind, Row, STATE_BYTES};

use crate::random::Random;

/// Any valid device column.
pub fn any_devices(random: &mut Random, rows: &[Row]) -> Vec<u8> {
    rows.iter().map(|row| any_device(random, row.kind())).collect()
}

pub fn is_switch(row: &Row) -> bool {
    matches!(row.kind(), Kind::Lever | Kind::Button | Kind::PressurePlate)
}

pub fn any_device(random: &mut Random, kind: Kind) -> u8 {
    match kind {
        Kind::Repeater | Kind::RedstoneTorch => random.byte_below(2),
        Kind::Comparator => random.byte_below(16),
        _ => 0,
    }
}

/// The device column that a table starts with: "repeater from powered (missing false)", "torch from powered (missing true)",
/// "comparator from level, else 15 or 0 by powered".
pub fn first_devices(rows: &[Row]) -> Vec<u8> {
    rows.iter().map(first_device).collect()
}

fn first_device(row: &Row) -> u8 {
    let is_on = row.powered() == Some(true);
    match row.kind() {
        Kind::Repeater => is_on.into(),
        Kind::RedstoneTorch => (row.powered() != Some(false)).into(),
        Kind::Comparator => row.power_level().unwrap_or(if is_on { 15 } else { 0 }),
        _ => 0,
    }
}

/// Any state that documents 01 and 02 allow, whether a run comes to it or not.
pub fn any_state(random: &mut Random, rows: &[Row]) -> Vec<u8> {
    rows.iter().flat_map(|row| any_row_state(random, row)).collect()
}

fn any_row_state(random: &mut Random, row: &Row) -> [u8; STATE_BYTES] {
    let mut state = [0; STATE_BYTES];
    state[0] = any_device(random, row.kind());
    match row.kind() {
        Kind::Repeater => {
            let delay = row.delay().unwrap_or(1).clamp(1, 4);
            state[1] = random.byte_below(1 << delay) & !1 | state[0];
        }
        Kind::RedstoneTorch => {
            let toggles = (random.bits() & random.bits()) as u32 >> 1;
            state[4..8].copy_from_slice(&toggles.to_le_bytes());
            state[8] = (toggles.count_ones() >= 8 || random.percent(20)).into();
        }
        Kind::RedstoneLamp => {
            state[2] = random.byte_below(2);
            state[3] = random.byte_below(3) * state[2];
        }
        Kind::CopperBulb => {
            state[2] = random.byte_below(2);
            state[9] = random.byte_below(2);
        }
        _ => {}
    }
    state
}
