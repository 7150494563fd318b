//! A row of the block table, in fields and in bytes.

use std::error::Error;
use std::fmt::{self, Display, Formatter};

use crate::field::{Allowed, BadField, Field};
use crate::{Arm, FARTHEST, Facing, Kind, MOST_LEVEL, PROFILE_BYTES_WITH_BULB, ROW_BYTES, Shape};

const fn field(name: &'static str, at: usize) -> Field {
    Field { name, at }
}

const POSITION: [Field; 3] = [field("x", 0), field("y", 4), field("z", 8)];
const KIND: Field = field("kind", 12);
const FACING: Field = field("facing", 13);
const POWERED: Field = field("powered", 14);
const LEVEL_GIVEN: Field = field("power level given", 15);
const LEVEL: Field = field("power level", 16);
const DELAY_GIVEN: Field = field("delay given", 17);
const DELAY: Field = field("delay", 18);
const SUPPORT_GIVEN: Field = field("support offset given", 19);
const SUPPORT: [Field; 3] = [field("support dx", 20), field("support dy", 21), field("support dz", 22)];
const ARMS_STORED: Field = field("arms stored", 23);
const ARMS: [Field; 4] =
    [field("north arm", 24), field("east arm", 25), field("south arm", 26), field("west arm", 27)];
const SHAPE: Field = field("shape", 28);
const SUBTRACT: Field = field("subtract", 29);
const UNUSED: [Field; 2] = [field("unused", 30), field("unused", 31)];

/// The fields after the position, of a byte each, in their order.
pub(crate) const AFTER_POSITION: [Field; 20] = [
    KIND,
    FACING,
    POWERED,
    LEVEL_GIVEN,
    LEVEL,
    DELAY_GIVEN,
    DELAY,
    SUPPORT_GIVEN,
    SUPPORT[0],
    SUPPORT[1],
    SUPPORT[2],
    ARMS_STORED,
    ARMS[0],
    ARMS[1],
    ARMS[2],
    ARMS[3],
    SHAPE,
    SUBTRACT,
    UNUSED[0],
    UNUSED[1],
];

/// A row of the table: a block and its position.
///
/// A field that is not set is missing. Each has a getter by its name and a `with_` that sets it, or clears it where it
/// is given `None`. [`Row::bytes`] packs a row, and `Row::try_from` reads 32 bytes back. Any kind may have any field;
/// the getters say what it means to which.
///
/// ```
/// use redstone::{Facing, Kind, Row};
///
/// let repeater = Row::new(Kind::Repeater, [1, 1, 0]).with_facing(Facing::East).with_delay(2);
/// let read = Row::try_from(repeater.bytes())?;
/// assert_eq!(read, repeater);
/// assert_eq!((read.facing(), read.delay(), read.powered()), (Some(Facing::East), Some(2), None));
/// # Ok::<(), redstone::BadField>(())
/// ```
///
/// A coordinate or a support offset out of range can be set, and no call accepts it; it is not read back. A comparator's
/// [power level](Self::power_level) above 15 can be set, too, and no call accepts it; it is read back.
#[derive(Clone, Copy, Debug, Eq, Hash, PartialEq)]
pub struct Row {
    position: [i32; 3],
    kind: Kind,
    facing: Option<Facing>,
    powered: Option<bool>,
    power_level: Option<u8>,
    delay: Option<u8>,
    support: Option<[i8; 3]>,
    arms: Option<[Option<Arm>; 4]>,
    shape: Shape,
    subtract: bool,
}

impl Row {
    /// A block at x, y, z, each from -1,000,000 to 1,000,000, with no other field. y is up.
    #[must_use]
    pub const fn new(kind: Kind, position: [i32; 3]) -> Self {
        Self {
            position,
            kind,
            facing: None,
            powered: None,
            power_level: None,
            delay: None,
            support: None,
            arms: None,
            shape: Shape::Plain,
            subtract: false,
        }
    }

    /// x, y and z.
    #[must_use]
    pub fn position(&self) -> [i32; 3] {
        self.position
    }

    /// The block moved to x, y, z.
    #[must_use]
    pub fn with_position(self, position: [i32; 3]) -> Self {
        Self { position, ..self }
    }

    /// The kind of the block.
    #[must_use]
    pub fn kind(&self) -> Kind {
        self.kind
    }

    /// The row with another kind.
    #[must_use]
    pub fn with_kind(self, kind: Kind) -> Self {
        Self { kind, ..self }
    }

    /// Where the block faces. A repeater or comparator faces its output, and has its input at the opposite side; with
    /// a facing that is missing, Up or Down it has neither. No other kind's facing matters to the bench.
    #[must_use]
    pub fn facing(&self) -> Option<Facing> {
        self.facing
    }

    /// Sets [`facing`](Self::facing).
    #[must_use]
    pub fn with_facing(self, facing: impl Into<Option<Facing>>) -> Self {
        Self { facing: facing.into(), ..self }
    }

    /// Whether a lever, button or plate is on, and whether a repeater, torch, comparator or bulb starts on. Where it is
    /// missing a torch starts lit, and all others are off. A comparator with a power level starts with that.
    #[must_use]
    pub fn powered(&self) -> Option<bool> {
        self.powered
    }

    /// Sets [`powered`](Self::powered).
    #[must_use]
    pub fn with_powered(self, powered: impl Into<Option<bool>>) -> Self {
        Self { powered: powered.into(), ..self }
    }

    /// The level that a lever, button or plate gives while it is on: above 15 it counts as 15, and missing it is 15. A
    /// comparator starts with it, and no call accepts a comparator with one above 15: that is refusal 10. Where it is
    /// missing, a comparator starts with 15 or 0 as [`powered`](Self::powered) says.
    #[must_use]
    pub fn power_level(&self) -> Option<u8> {
        self.power_level
    }

    /// Sets [`power_level`](Self::power_level).
    #[must_use]
    pub fn with_power_level(self, level: impl Into<Option<u8>>) -> Self {
        Self { power_level: level.into(), ..self }
    }

    /// A repeater's delay in ticks: below 1 it counts as 1, above 4 as 4, and missing it is 1.
    #[must_use]
    pub fn delay(&self) -> Option<u8> {
        self.delay
    }

    /// Sets [`delay`](Self::delay).
    #[must_use]
    pub fn with_delay(self, ticks: impl Into<Option<u8>>) -> Self {
        Self { delay: ticks.into(), ..self }
    }

    /// The ticks that a repeater's delay counts as: 1 where it is missing or 0, and 4 above 4.
    #[must_use]
    pub fn delay_ticks(&self) -> u8 {
        self.delay.unwrap_or(1).clamp(1, 4)
    }

    /// The support offset: the step to the block that this one is fixed to, each part from -1 to 1, `[0, -1, 0]` to
    /// the one below. A lever, button or plate powers that block, and a torch goes out while it has power; where the
    /// offset is missing, the one powers no block and the other stays lit. [`supports`](crate::supports) lists blocks
    /// with no support to be fixed to, and [`clear`](crate::clear) takes them away.
    #[must_use]
    pub fn support(&self) -> Option<[i8; 3]> {
        self.support
    }

    /// Sets [`support`](Self::support).
    #[must_use]
    pub fn with_support(self, step: impl Into<Option<[i8; 3]>>) -> Self {
        Self { support: step.into(), ..self }
    }

    /// A dust's stored arms to the North, East, South and West. One that has no entry is inferred from what stands
    /// around, and so are all where none are stored.
    #[must_use]
    pub fn arms(&self) -> Option<[Option<Arm>; 4]> {
        self.arms
    }

    /// Sets [`arms`](Self::arms).
    #[must_use]
    pub fn with_arms(self, arms: impl Into<Option<[Option<Arm>; 4]>>) -> Self {
        Self { arms: arms.into(), ..self }
    }

    /// The shape of the block.
    #[must_use]
    pub fn shape(&self) -> Shape {
        self.shape
    }

    /// Sets the shape of the block.
    #[must_use]
    pub fn with_shape(self, shape: Shape) -> Self {
        Self { shape, ..self }
    }

    /// Whether a comparator subtracts; else it compares.
    #[must_use]
    pub fn subtract(&self) -> bool {
        self.subtract
    }

    /// Sets [`subtract`](Self::subtract).
    #[must_use]
    pub fn with_subtract(self, subtract: bool) -> Self {
        Self { subtract, ..self }
    }

    /// The 32 bytes of the row.
    #[must_use]
    pub fn bytes(&self) -> [u8; ROW_BYTES] {
        let mut bytes = [0; ROW_BYTES];
        let mut put = |field: Field, values: &[u8]| {
            bytes[field.at..field.at + values.len()].copy_from_slice(values);
        };
        for (field, coordinate) in POSITION.into_iter().zip(self.position) {
            put(field, &coordinate.to_le_bytes());
        }
        put(KIND, &[self.kind.code()]);
        put(FACING, &[self.facing.map_or(0, Facing::code)]);
        put(POWERED, &[self.powered.map_or(0, |powered| 1 + u8::from(powered))]);
        if let Some(level) = self.power_level {
            put(LEVEL_GIVEN, &[1, level]);
        }
        if let Some(delay) = self.delay {
            put(DELAY_GIVEN, &[1, delay]);
        }
        if let Some(step) = self.support {
            put(SUPPORT_GIVEN, &[1]);
            put(SUPPORT[0], &step.map(i8::cast_unsigned));
        }
        if let Some(arms) = self.arms {
            put(ARMS_STORED, &[1]);
            put(ARMS[0], &arms.map(|arm| arm.map_or(0, Arm::code)));
        }
        put(SHAPE, &[self.shape.code()]);
        put(SUBTRACT, &[self.subtract.into()]);
        bytes
    }

    /// Reads 32 bytes, field after field. The kind is to have a byte in a profile of so many.
    pub(crate) fn read(bytes: &[u8; ROW_BYTES], profile_bytes: usize) -> Result<Self, BadField> {
        let [x, y, z] = POSITION.map(|field| field.within(field.number(bytes), -FARTHEST, FARTHEST));
        let row = Self {
            position: [x?, y?, z?],
            kind: read_kind(bytes, profile_bytes)?,
            facing: FACING.optional(bytes, "missing")?,
            powered: read_powered(bytes)?,
            power_level: given(bytes, LEVEL_GIVEN, &[LEVEL])?.then(|| LEVEL.byte(bytes)),
            delay: given(bytes, DELAY_GIVEN, &[DELAY])?.then(|| DELAY.byte(bytes)),
            support: read_support(bytes)?,
            arms: read_arms(bytes)?,
            shape: SHAPE.coded(bytes)?,
            subtract: SUBTRACT.flag(bytes)?,
        };
        UNUSED.iter().try_for_each(|field| field.zero(bytes, Allowed::Rule("it must be 0")))?;
        Ok(row)
    }

    /// That a comparator's power level is not too large.
    pub(crate) fn check_level(&self) -> Result<(), BadField> {
        match self.power_level {
            Some(level) if self.kind == Kind::Comparator && level > MOST_LEVEL => {
                Err(LEVEL.bad(level, Allowed::Rule("a comparator's may be at most 15")))
            }
            _ => Ok(()),
        }
    }
}

fn read_kind(bytes: &[u8], profile_bytes: usize) -> Result<Kind, BadField> {
    let kind: Kind = KIND.coded(bytes)?;
    if usize::from(kind.code()) < profile_bytes {
        return Ok(kind);
    }
    let rule =
        "that is CopperBulb, and the profile has 13 bytes: give it a fourteenth, the bulb's, such as 7";
    Err(KIND.bad(kind.code(), Allowed::Rule(rule)))
}

fn read_powered(bytes: &[u8]) -> Result<Option<bool>, BadField> {
    match POWERED.byte(bytes) {
        0 => Ok(None),
        1 => Ok(Some(false)),
        2 => Ok(Some(true)),
        byte => Err(POWERED.bad(byte, Allowed::Codes(Some((0, "missing")), &[(1, "false"), (2, "true")]))),
    }
}

fn read_support(bytes: &[u8]) -> Result<Option<[i8; 3]>, BadField> {
    if !given(bytes, SUPPORT_GIVEN, &SUPPORT)? {
        return Ok(None);
    }
    let [dx, dy, dz] = SUPPORT.map(|field| field.within(field.byte(bytes).cast_signed(), -1, 1));
    Ok(Some([dx?, dy?, dz?]))
}

fn read_arms(bytes: &[u8]) -> Result<Option<[Option<Arm>; 4]>, BadField> {
    if !given(bytes, ARMS_STORED, &ARMS)? {
        return Ok(None);
    }
    let [north, east, south, west] = ARMS.map(|field| field.optional(bytes, "no entry"));
    Ok(Some([north?, east?, south?, west?]))
}

/// Whether the byte before values says that they are given. Where it does not, they are 0.
fn given(bytes: &[u8], given: Field, values: &[Field]) -> Result<bool, BadField> {
    let is_given = given.flag(bytes)?;
    if !is_given {
        values.iter().try_for_each(|field| field.zero(bytes, Allowed::ZeroWith(given)))?;
    }
    Ok(is_given)
}

/// The position that 32 bytes hold, on the ground or off it.
pub(crate) fn position_of(bytes: &[u8]) -> [i32; 3] {
    POSITION.map(|field| field.number(bytes))
}

/// Packs the row.
impl From<Row> for [u8; ROW_BYTES] {
    fn from(row: Row) -> Self {
        row.bytes()
    }
}

/// Reads a packed row. The error is the first field outside the layout.
impl TryFrom<&[u8; ROW_BYTES]> for Row {
    type Error = BadField;

    fn try_from(bytes: &[u8; ROW_BYTES]) -> Result<Self, BadField> {
        Self::read(bytes, PROFILE_BYTES_WITH_BULB)
    }
}

/// Reads a packed row. The error is the first field outside the layout.
impl TryFrom<[u8; ROW_BYTES]> for Row {
    type Error = BadField;

    fn try_from(bytes: [u8; ROW_BYTES]) -> Result<Self, BadField> {
        Self::try_from(&bytes)
    }
}

/// Reads a packed row.
impl TryFrom<&[u8]> for Row {
    type Error = RowError;

    fn try_from(bytes: &[u8]) -> Result<Self, RowError> {
        let bytes: &[u8; ROW_BYTES] = bytes.try_into().map_err(|_| RowError::Length(bytes.len()))?;
        Self::try_from(bytes).map_err(RowError::Field)
    }
}

/// Why bytes are no row.
#[derive(Clone, Copy, Debug, Eq, Hash, PartialEq)]
pub enum RowError {
    /// There are not 32, but so many.
    Length(usize),
    /// The first field outside the layout.
    Field(BadField),
}

impl Display for RowError {
    fn fmt(&self, f: &mut Formatter<'_>) -> fmt::Result {
        match self {
            Self::Length(length) => write!(f, "a row has {ROW_BYTES} bytes, and here are {length}"),
            Self::Field(field) => field.fmt(f),
        }
    }
}

impl Error for RowError {}
