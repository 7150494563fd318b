//! The devices: what each gives, and the words for it.

use redstone::{Device, Kind};

/// A kind that ticks change.
#[derive(Debug)]
pub struct Sort {
    /// The kind.
    pub kind: Kind,
    /// What it gives.
    pub states: States,
}

/// What a device gives.
#[derive(Clone, Copy, Debug, Eq, PartialEq)]
pub enum States {
    /// A level.
    Levels,
    /// One of two states: each with its word, and with the verb for its beginning.
    Two {
        /// As in `off` and `on`.
        words: [&'static str; 2],
        /// As in `goes off` and `goes on`.
        verbs: [&'static str; 2],
    },
}

/// The states of what is switched.
pub const SWITCHED: States = States::Two { words: ["off", "on"], verbs: ["goes off", "goes on"] };

/// The devices, in the order in which a chart has them.
pub const SORTS: &[Sort] = &[
    Sort { kind: Kind::Repeater, states: SWITCHED },
    Sort {
        kind: Kind::RedstoneTorch,
        states: States::Two { words: ["out", "lit"], verbs: ["goes out", "lights up"] },
    },
    Sort { kind: Kind::Comparator, states: States::Levels },
    Sort {
        kind: Kind::RedstoneLamp,
        states: States::Two { words: ["dark", "lit"], verbs: ["goes out", "lights up"] },
    },
    Sort {
        kind: Kind::CopperBulb,
        states: States::Two { words: ["dark", "lit"], verbs: ["flips off", "flips on"] },
    },
];

/// The place of a kind among the devices.
pub fn place(kind: Kind) -> Option<usize> {
    SORTS.iter().position(|sort| sort.kind == kind)
}

/// What a device gives: a level, or 0 or 1. Other blocks have none.
pub fn given(device: Device) -> Option<u8> {
    match device {
        Device::None => None,
        Device::Lamp { lit, .. } | Device::Bulb { lit, .. } => Some(lit.into()),
        device => Some(device.byte()),
    }
}

/// Whether a device is a torch that is marked as a candidate for burning out.
pub fn is_candidate(device: Device) -> bool {
    matches!(device, Device::Torch { candidate: true, .. })
}
