//! Trials from a seed, often with a fault or two.

use redstone::{ROW_BYTES, Row, STATE_BYTES};

use super::Switch;
use crate::compare::Answers;
use crate::damage::{damage_bytes, damaged, other_length, overdrive};
use crate::devices::any_state;
use crate::generate::{self, Case, with_arms};
use crate::positions::{any_position, beside};
use crate::probe::Probe;
use crate::random::Random;
use crate::refusals;
use crate::settling::{Call, Input, STATE};
use crate::table::{self, Position, is_on_ground, positions};

/// A case and a switch of it.
pub struct Generated {
    pub case: Case,
    pub switch: Switch,
    /// The same switch with another state.
    pub with_other_state: Switch,
    /// That one, often with faults of its state or its columns.
    pub with_faults: Switch,
}

/// The trial of a seed.
pub fn generated(seed: u64) -> Generated {
    let random = &mut Random::new(!seed);
    let mut case = with_arms(random, generate::case(seed));
    if random.percent(20) {
        case = damaged(&case, random);
    }
    let is_accepted = refusals::check(&case.profile, &case.table).is_ok();
    let rows = if is_accepted { table::rows(&case.table) } else { Vec::new() };
    let (at, powered) = (any_place(random, &case, &rows), any_power(random));
    let good = Switch::of(&case, at, powered);
    let mut switch = good.clone();
    if is_accepted {
        switch.state =
            if random.percent(30) { any_state(random, &rows) } else { reached_state(random, &case) };
    }
    damage(random, &rows, &mut switch, 8);
    let with_other_state = Switch { state: any_state(random, &rows), ..good };
    let mut with_faults = with_other_state.clone();
    damage(random, &rows, &mut with_faults, 40);
    Generated { case, switch, with_other_state, with_faults }
}

/// The place of a row or of none, near a row or at the ends of 32 bits.
pub(super) fn any_place(random: &mut Random, case: &Case, rows: &[Row]) -> Position {
    if rows.is_empty() && case.table.len() >= ROW_BYTES {
        let written: Vec<_> = positions(&case.table).collect();
        return random.pick(&written);
    }
    let at = any_position(random, rows);
    if is_on_ground(at) && random.percent(35) { beside(random, at) } else { at }
}

pub(super) fn any_power(random: &mut Random) -> u32 {
    let any = random.bits() as u32;
    random.pick(&[0, 0, 0, 1, 1, 2, 15, 256, u32::MAX, any])
}

/// The fresh state, or one that some ticks come to.
fn reached_state(random: &mut Random, case: &Case) -> Vec<u8> {
    let call = |input| Probe(case).answer(&Call { input, columns: [case.rows(); 3] }).bytes(STATE);
    let state = call(Input::Fresh { state_bytes: STATE_BYTES * case.rows() });
    match random.pick(&[0, 1, 2, 5]) {
        0 => state,
        ticks => call(Input::Tick { state, tick: 0, ticks }),
    }
}

/// Each of three damages in so many of a hundred switches.
fn damage(random: &mut Random, rows: &[Row], switch: &mut Switch, share: usize) {
    if random.percent(share) {
        overdrive(random, rows, &mut switch.state, STATE_BYTES);
    }
    if random.percent(share) {
        damage_bytes(random, &mut switch.state);
    }
    if random.percent(share) {
        let column = random.below(switch.columns.len());
        switch.columns[column] = other_length(random, switch.columns[column]);
    }
}
