//! The light of a bulb: a second reading of document 02's Change 4, over settled power from anywhere.

mod misreadings;
mod trials;

use redstone::STATE_BYTES;

pub use misreadings::{MISREADINGS, Misreading};
pub use trials::{FEEDERS, Feeder, TRIALS, Trial, beside_every_kind, bulbs};

/// What a state has of a bulb.
#[derive(Clone, Copy, Debug, Default, Eq, PartialEq)]
pub struct Bulb {
    /// Byte 2.
    pub light: bool,
    /// Byte 3, which wrong readings alone write.
    pub ticks_left: u8,
    /// Byte 9: "whether it had power after the last tick".
    pub had_power: bool,
}

impl Bulb {
    pub fn read(state: &[u8]) -> Self {
        Self { light: state[2] == 1, ticks_left: state[3], had_power: state[9] == 1 }
    }

    pub fn bytes(self) -> [u8; STATE_BYTES] {
        let mut state = [0; STATE_BYTES];
        state[2] = self.light.into();
        state[3] = self.ticks_left;
        state[9] = self.had_power.into();
        state
    }
}

/// The settled power at a bulb's own row.
#[derive(Clone, Copy, Debug)]
pub struct Power {
    pub weak: u8,
    pub strong: u8,
}

impl Power {
    pub fn is_there(self) -> bool {
        self.weak > 0 || self.strong > 0
    }
}

/// A tick as a bulb sees it.
pub struct Tick {
    /// The power before it, and after it has settled.
    pub before: Power,
    pub after: Power,
    /// How many ticks of the same call follow.
    pub left: u32,
}

/// A switch as a bulb sees it.
pub struct Switch {
    pub after: Power,
    /// What was switched, if it was the bulb's own row.
    pub own: Option<bool>,
}

/// What becomes of a bulb where the change is read so.
#[derive(Clone, Copy)]
pub struct Reading {
    /// By `powered` of its row and the settled power.
    pub fresh: fn(Option<bool>, Power) -> Bulb,
    pub tick: fn(Bulb, Tick) -> Bulb,
    /// By a call that has no ticks.
    pub no_tick: fn(Bulb, Power) -> Bulb,
    pub switch: fn(Bulb, Switch) -> Bulb,
}

/// Change 4: "Fresh light comes from powered, missing false; fresh byte 9 from settled power. After a tick settles, the
/// light flips exactly if power is there and byte 9 is 0; then byte 9 is written. A switch changes neither."
pub const READING: Reading = Reading {
    fresh: |powered, power| Bulb { light: powered == Some(true), ticks_left: 0, had_power: power.is_there() },
    tick: |bulb, tick| {
        let power = tick.after.is_there();
        let flips = power && !bulb.had_power;
        Bulb { light: bulb.light != flips, had_power: power, ..bulb }
    },
    no_tick: |bulb, _| bulb,
    switch: |bulb, _| bulb,
};
