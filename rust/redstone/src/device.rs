//! What a state holds of a row, in fields and in bytes.

use crate::field::{Allowed, BadField, Field};
use crate::{Kind, MOST_LEVEL, Row, STATE_BYTES};

const DEVICE: Field = Field { name: "device", at: 0 };
const QUEUE: Field = Field { name: "queue", at: 1 };
const LIT: Field = Field { name: "lit", at: 2 };
const TICKS_LEFT: Field = Field { name: "ticks left", at: 3 };
const TOGGLES: Field = Field { name: "toggles", at: 4 };
const CANDIDATE: Field = Field { name: "candidate", at: 8 };
const HAD_POWER: Field = Field { name: "had power", at: 9 };
const UNUSED: usize = 10;

/// A torch that has toggled this often is a candidate.
const MANY_TOGGLES: u32 = 8;

/// What a state holds of a row: the device that a block of the row's kind is.
///
/// ```
/// use redstone::{Device, Kind, Row, STATE_BYTES};
///
/// let lamp = Row::new(Kind::RedstoneLamp, [0, 0, 0]);
/// let mut bytes = [0; STATE_BYTES];
/// bytes[2] = 1;
/// assert_eq!(Device::read(&lamp, &bytes)?, Device::Lamp { lit: true, ticks_left: 0 });
///
/// bytes[3] = 3;
/// let bad = Device::read(&lamp, &bytes).unwrap_err();
/// assert_eq!(bad.to_string(), "ticks left (byte 3) is 3; it may be from 0 to 2");
/// # Ok::<(), redstone::BadField>(())
/// ```
#[derive(Clone, Copy, Debug, Eq, Hash, PartialEq)]
#[non_exhaustive]
pub enum Device {
    /// The block is no device: it has no state.
    None,
    /// A repeater.
    Repeater {
        /// Whether it gives 15.
        powered: bool,
        /// What it will give, a bit for each tick of its delay, the present one at bit 0.
        queue: u8,
    },
    /// A torch.
    Torch {
        /// Whether it gives 15.
        lit: bool,
        /// Bit j is 1 where it toggled j ticks ago, j from 0 to 30.
        toggles: u32,
        /// Whether eight or more toggle bits were ever set at once, so that in the game it would burn out.
        candidate: bool,
    },
    /// A comparator.
    Comparator {
        /// The level that it gives. The calls refuse one above [`MOST_LEVEL`].
        level: u8,
    },
    /// A lamp.
    Lamp {
        /// Whether it is lit.
        lit: bool,
        /// How many ticks a lit lamp without power stays lit, from 2 down; 0 with power.
        ticks_left: u8,
    },
    /// A copper bulb. A tick that leaves it with power flips its light, unless it had power before.
    Bulb {
        /// Whether it is lit.
        lit: bool,
        /// Whether it had power after the last tick; in a fresh state, whether it has power.
        had_power: bool,
    },
}

impl Device {
    /// Reads the bytes that a state has for a row.
    ///
    /// # Errors
    ///
    /// The first field that the device of this row cannot have, a comparator's level after all others.
    pub fn read(row: &Row, bytes: &[u8; STATE_BYTES]) -> Result<Self, BadField> {
        let device = Self::read_at_any_level(row, bytes)?;
        check_device_level(bytes)?;
        Ok(device)
    }

    /// The same, but for a comparator's level, for which the calls have a refusal of its own.
    pub(crate) fn read_at_any_level(row: &Row, bytes: &[u8; STATE_BYTES]) -> Result<Self, BadField> {
        let kind = row.kind();
        let device = read_device_byte(kind, DEVICE.byte(bytes))?;
        let queue = read_queue(row, bytes, device)?;
        let (lit, ticks_left) = read_light(kind, bytes)?;
        let (toggles, candidate) = read_torch(kind, bytes)?;
        let had_power = read_had_power(kind, bytes)?;
        for at in UNUSED..STATE_BYTES {
            Field { name: "unused", at }.zero(bytes, Allowed::Rule("it must be 0"))?;
        }
        Ok(match kind {
            Kind::Repeater => Self::Repeater { powered: device != 0, queue },
            Kind::RedstoneTorch => Self::Torch { lit: device != 0, toggles, candidate },
            Kind::Comparator => Self::Comparator { level: device },
            Kind::RedstoneLamp => Self::Lamp { lit, ticks_left },
            Kind::CopperBulb => Self::Bulb { lit, had_power },
            _ => Self::None,
        })
    }

    /// The bytes that a state has for the row.
    #[must_use]
    pub fn bytes(&self) -> [u8; STATE_BYTES] {
        let mut bytes = [0; STATE_BYTES];
        bytes[DEVICE.at] = self.byte();
        match *self {
            Self::Repeater { queue, .. } => bytes[QUEUE.at] = queue,
            Self::Torch { toggles, candidate, .. } => {
                bytes[TOGGLES.at..CANDIDATE.at].copy_from_slice(&toggles.to_le_bytes());
                bytes[CANDIDATE.at] = candidate.into();
            }
            Self::Lamp { lit, ticks_left } => {
                bytes[LIT.at] = lit.into();
                bytes[TICKS_LEFT.at] = ticks_left;
            }
            Self::Bulb { lit, had_power } => {
                bytes[LIT.at] = lit.into();
                bytes[HAD_POWER.at] = had_power.into();
            }
            Self::Comparator { .. } | Self::None => {}
        }
        bytes
    }

    /// The byte that a device column has for the row.
    #[must_use]
    pub fn byte(&self) -> u8 {
        match *self {
            Self::Repeater { powered, .. } => powered.into(),
            Self::Torch { lit, .. } => lit.into(),
            Self::Comparator { level } => level,
            Self::Lamp { .. } | Self::Bulb { .. } | Self::None => 0,
        }
    }
}

/// Reads the byte that a device column has for a row, which is a state's first for it. A comparator's may be any.
pub(crate) fn read_device_byte(kind: Kind, byte: u8) -> Result<u8, BadField> {
    match kind {
        Kind::Repeater | Kind::RedstoneTorch => DEVICE.within(byte, 0, 1),
        Kind::Comparator => Ok(byte),
        _ if byte == 0 => Ok(byte),
        _ => {
            let rule = "it must be 0, as the row is no repeater, torch or comparator";
            Err(DEVICE.bad(byte, Allowed::Rule(rule)))
        }
    }
}

/// The device byte as the level of a comparator. That of another kind is 0 or 1.
pub(crate) fn check_device_level(bytes: &[u8]) -> Result<(), BadField> {
    DEVICE.within(DEVICE.byte(bytes), 0, MOST_LEVEL.into()).map(drop)
}

fn read_queue(row: &Row, bytes: &[u8], device: u8) -> Result<u8, BadField> {
    if row.kind() != Kind::Repeater {
        QUEUE.zero(bytes, Allowed::Rule("it must be 0, as the row is no repeater"))?;
        return Ok(0);
    }
    let queue = QUEUE.within(QUEUE.byte(bytes), 0, (1 << row.delay_ticks()) - 1)?;
    match (device, queue % 2) {
        (0, 1) => Err(QUEUE.bad(queue, Allowed::Rule("it must be even, as device (byte 0) is 0"))),
        (1, 0) => Err(QUEUE.bad(queue, Allowed::Rule("it must be odd, as device (byte 0) is 1"))),
        _ => Ok(queue),
    }
}

/// Whether a lamp or bulb is lit, and a lamp's ticks left.
fn read_light(kind: Kind, bytes: &[u8]) -> Result<(bool, u8), BadField> {
    let lit = match kind {
        Kind::RedstoneLamp | Kind::CopperBulb => LIT.flag(bytes)?,
        _ => {
            LIT.zero(bytes, Allowed::Rule("it must be 0, as the row is no lamp or bulb"))?;
            false
        }
    };
    if kind != Kind::RedstoneLamp {
        TICKS_LEFT.zero(bytes, Allowed::Rule("it must be 0, as the row is no lamp"))?;
    } else if !lit {
        TICKS_LEFT.zero(bytes, Allowed::ZeroWith(LIT))?;
    }
    Ok((lit, TICKS_LEFT.within(TICKS_LEFT.byte(bytes), 0, 2)?))
}

fn read_had_power(kind: Kind, bytes: &[u8]) -> Result<bool, BadField> {
    if kind != Kind::CopperBulb {
        HAD_POWER.zero(bytes, Allowed::Rule("it must be 0, as the row is no bulb"))?;
    }
    HAD_POWER.flag(bytes)
}

fn read_torch(kind: Kind, bytes: &[u8]) -> Result<(u32, bool), BadField> {
    let toggles = TOGGLES.number(bytes).cast_unsigned();
    if kind != Kind::RedstoneTorch {
        let rule = Allowed::Rule("it must be 0, as the row is no torch");
        if toggles != 0 {
            return Err(TOGGLES.bad(toggles, rule));
        }
        CANDIDATE.zero(bytes, rule)?;
        return Ok((0, false));
    }
    TOGGLES.within(toggles, 0, i32::MAX)?;
    let candidate = CANDIDATE.flag(bytes)?;
    if !candidate && toggles.count_ones() >= MANY_TOGGLES {
        let rule = "it must be 1, as toggles (byte 4) has eight bits or more";
        return Err(CANDIDATE.bad(candidate, Allowed::Rule(rule)));
    }
    Ok((toggles, candidate))
}
