//! Wrong readings of Change 3, which the comparison must report.

use redstone::{Kind, Shape};

use super::{Charge, Settling, charge};
use crate::generate::TORCH;
use crate::table::{ABOVE, HORIZONTAL, Position, UNDER};

pub struct Misreading {
    pub what: &'static str,
    pub charge: Charge,
}

pub const MISREADINGS: [Misreading; 23] = [
    Misreading { what: "no torch charges", charge: |_, _, _| 0 },
    Misreading {
        what: "torches charge without the value",
        charge: |settling, from, to| power(settling.is_lit_torch(from) && is_charged(settling, from, to)),
    },
    Misreading {
        what: "the value is 16",
        charge: |settling, from, to| {
            let has_value = settling.profile[TORCH] & 16 != 0;
            power(has_value && settling.is_lit_torch(from) && is_charged(settling, from, to))
        },
    },
    Misreading {
        what: "unlit torches charge, too",
        charge: |settling, from, to| {
            with_value(settling, settling.is_torch(from) && is_charged(settling, from, to))
        },
    },
    Misreading {
        what: "unlit torches alone charge",
        charge: |settling, from, to| {
            let is_unlit = settling.is_torch(from) && !settling.is_lit_torch(from);
            with_value(settling, is_unlit && is_charged(settling, from, to))
        },
    },
    Misreading {
        what: "a torch is lit by its field",
        charge: |settling, from, to| {
            let is_lit = settling.is_torch(from) && settling.rows[from].powered().unwrap_or(true);
            with_value(settling, is_lit && is_charged(settling, from, to))
        },
    },
    Misreading {
        what: "repeaters charge, too",
        charge: |settling, from, to| {
            let is_on = settling.rows[from].kind() == Kind::Repeater && settling.devices[from] == 1;
            let charged = with_value(settling, is_on && is_charged(settling, from, to));
            charged.max(charge(settling, from, to))
        },
    },
    Misreading {
        what: "the block below is charged",
        charge: |settling, from, to| towards(UNDER, settling, from, to),
    },
    Misreading {
        what: "the block below is charged, too",
        charge: |settling, from, to| towards(UNDER, settling, from, to).max(charge(settling, from, to)),
    },
    Misreading {
        what: "the blocks beside are charged, too",
        charge: |settling, from, to| {
            let beside = HORIZONTAL.map(|step| towards(step, settling, from, to));
            beside.into_iter().fold(charge(settling, from, to), u8::max)
        },
    },
    Misreading {
        what: "the block over the one above is charged, too",
        charge: |settling, from, to| towards([0, 2, 0], settling, from, to).max(charge(settling, from, to)),
    },
    Misreading {
        what: "the torch's support is charged",
        charge: |settling, from, to| {
            let support = settling.rows[from].support().map(|step| step.map(i32::from));
            support.map_or(0, |step| towards(step, settling, from, to))
        },
    },
    Misreading {
        what: "any block is charged",
        charge: |settling, from, to| {
            with_value(settling, settling.is_lit_torch(from) && settling.stands(to, ABOVE, from))
        },
    },
    Misreading {
        what: "a block that receives weak power is charged",
        charge: |settling, from, to| {
            let receives = match settling.rows[to].shape() {
                Shape::Plain => settling.kind_has(2, to),
                shape => shape == Shape::DoubleSlab,
            };
            with_value(settling, settling.is_lit_torch(from) && settling.stands(to, ABOVE, from) && receives)
        },
    },
    Misreading {
        what: "the block's shape does not count",
        charge: |settling, from, to| {
            let receives = settling.kind_has(4, to);
            with_value(settling, settling.is_lit_torch(from) && settling.stands(to, ABOVE, from) && receives)
        },
    },
    Misreading {
        what: "plain blocks alone are charged",
        charge: |settling, from, to| only(settling.rows[to].shape() == Shape::Plain, settling, from, to),
    },
    Misreading {
        what: "solid blocks alone are charged",
        charge: |settling, from, to| only(settling.rows[to].kind() == Kind::Solid, settling, from, to),
    },
    Misreading {
        what: "plain torches alone charge",
        charge: |settling, from, to| only(settling.rows[from].shape() == Shape::Plain, settling, from, to),
    },
    Misreading {
        what: "torches without a facing alone charge",
        charge: |settling, from, to| only(settling.rows[from].facing().is_none(), settling, from, to),
    },
    Misreading {
        what: "standing torches alone charge",
        charge: |settling, from, to| {
            only(settling.rows[from].support() == Some([0, -1, 0]), settling, from, to)
        },
    },
    Misreading {
        what: "a torch without a support field does not charge",
        charge: |settling, from, to| only(settling.rows[from].support().is_some(), settling, from, to),
    },
    Misreading {
        what: "a torch does not charge its own support",
        charge: |settling, from, to| {
            only(settling.rows[from].support() != Some([0, 1, 0]), settling, from, to)
        },
    },
    Misreading { what: "the charge is 14", charge: |settling, from, to| charge(settling, from, to).min(14) },
];

fn power(charges: bool) -> u8 {
    if charges { 15 } else { 0 }
}

fn with_value(settling: &Settling, charges: bool) -> u8 {
    power(settling.has_value() && charges)
}

/// Whether a row stands over another and receives strong power.
fn is_charged(settling: &Settling, from: usize, to: usize) -> bool {
    settling.stands(to, ABOVE, from) && settling.receives_strong(to)
}

/// The charge where the block this step away has it.
fn towards(step: Position, settling: &Settling, from: usize, to: usize) -> u8 {
    let stands = settling.stands(to, step, from);
    with_value(settling, settling.is_lit_torch(from) && stands && settling.receives_strong(to))
}

/// The charge where there is one under this condition alone.
fn only(condition: bool, settling: &Settling, from: usize, to: usize) -> u8 {
    if condition { charge(settling, from, to) } else { 0 }
}
