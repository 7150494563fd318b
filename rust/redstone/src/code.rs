//! Kinds, facings, arms and shapes: names for the codes that a packed row holds.

use std::error::Error;
use std::fmt::{self, Display, Formatter};
use std::str::FromStr;

/// A code and the name that it has.
pub(crate) type Named = (u8, &'static str);

/// A type whose values have codes.
pub(crate) trait Coded: TryFrom<u8> {
    /// The codes and their names, in the order of the codes.
    const NAMED: &'static [Named];
}

/// Declares an enum whose values have codes, with all that reads and writes both codes and names.
macro_rules! coded {
    (
        $(#[$attribute:meta])*
        pub enum $type:ident as $what:literal {
            $($(#[$note:meta])* $name:ident = $code:literal,)*
        }
    ) => {
        $(#[$attribute])*
        #[derive(Clone, Copy, Debug, Eq, Hash, Ord, PartialEq, PartialOrd)]
        #[repr(u8)]
        pub enum $type {
            $($(#[$note])* $name = $code,)*
        }

        impl $type {
            /// All of them, in the order of their codes.
            pub const ALL: &'static [Self] = &[$(Self::$name),*];

            /// The name, as [`Display`] writes it and [`FromStr`] reads it.
            #[must_use]
            pub const fn name(self) -> &'static str {
                match self {
                    $(Self::$name => stringify!($name),)*
                }
            }

            /// The code, as a packed row holds it.
            #[must_use]
            pub const fn code(self) -> u8 {
                self as u8
            }
        }

        impl Coded for $type {
            const NAMED: &'static [Named] = &[$(($code, stringify!($name))),*];
        }

        /// The code.
        impl From<$type> for u8 {
            fn from(value: $type) -> Self {
                value.code()
            }
        }

        /// Reads the code.
        impl TryFrom<u8> for $type {
            type Error = UnknownCode;

            fn try_from(code: u8) -> Result<Self, UnknownCode> {
                match code {
                    $($code => Ok(Self::$name),)*
                    _ => Err(UnknownCode { what: $what, known: <Self as Coded>::NAMED, code }),
                }
            }
        }

        /// Reads the name.
        impl FromStr for $type {
            type Err = UnknownName;

            fn from_str(name: &str) -> Result<Self, UnknownName> {
                match name {
                    $(stringify!($name) => Ok(Self::$name),)*
                    _ => Err(UnknownName { what: $what, known: <Self as Coded>::NAMED, name: name.to_owned() }),
                }
            }
        }

        /// Writes the name.
        impl Display for $type {
            fn fmt(&self, f: &mut Formatter<'_>) -> fmt::Result {
                f.pad(self.name())
            }
        }
    };
}

coded! {
    /// The kind of a block. What a kind carries and takes, its byte of the profile says.
    ///
    /// ```
    /// use redstone::Kind;
    ///
    /// assert_eq!(Kind::try_from(3), Ok(Kind::RedstoneWire));
    /// assert_eq!("RedstoneWire".parse(), Ok(Kind::RedstoneWire));
    /// assert_eq!(Kind::RedstoneWire.to_string(), "RedstoneWire");
    /// ```
    #[non_exhaustive]
    pub enum Kind as "kind" {
        /// A full block: by the bench profile it supports components and takes all power.
        Solid = 1,
        /// A full block that by the bench profile supports components and takes no power.
        Transparent = 2,
        /// Dust.
        RedstoneWire = 3,
        /// A torch. It is fixed to the block at its support offset. Lit, it powers the block above it where the profile
        /// has [`TORCH_CHARGES_ABOVE`](crate::TORCH_CHARGES_ABOVE), and no block by the bench profile.
        RedstoneTorch = 4,
        /// A repeater. It faces its output.
        Repeater = 5,
        /// A comparator. It faces its output.
        Comparator = 6,
        /// A lever. It powers the block at its support offset.
        Lever = 7,
        /// A button, as a lever.
        Button = 8,
        /// A pressure plate, as a lever.
        PressurePlate = 9,
        /// A lamp. By the bench profile it supports components and takes all power.
        RedstoneLamp = 10,
        /// A block that always gives 15. By the bench profile it supports components and takes no power.
        RedstoneBlock = 11,
        /// A piston. It does nothing here.
        Piston = 12,
        /// A copper bulb, a lamp whose light flips each time that power arrives. It needs a profile of 14 bytes, such as
        /// [`BENCH_PROFILE_WITH_BULB`](crate::BENCH_PROFILE_WITH_BULB), by which it supports components and takes all
        /// power, and gives none to repeaters and dust.
        CopperBulb = 13,
    }
}

coded! {
    /// Where a block faces. North is towards lower z, East towards higher x, Up towards higher y.
    pub enum Facing as "facing" {
        /// (0, 0, -1)
        North = 1,
        /// (1, 0, 0)
        East = 2,
        /// (0, 0, 1)
        South = 3,
        /// (-1, 0, 0)
        West = 4,
        /// (0, 1, 0)
        Up = 5,
        /// (0, -1, 0)
        Down = 6,
    }
}

coded! {
    /// What stands on a side of dust.
    pub enum Arm as "arm" {
        /// No arm.
        None = 1,
        /// An arm on the ground.
        Side = 2,
        /// An arm that climbs the block beside.
        Up = 3,
    }
}

coded! {
    /// The shape of a block. All but the plain one stand in the place of what the profile says of the kind.
    pub enum Shape as "shape" {
        /// What the profile says of the kind.
        Plain = 0,
        /// It supports nothing and takes no power.
        BottomSlab = 1,
        /// It supports components. Power climbs over it from dust to dust, and does not come down.
        TopSlab = 2,
        /// As a solid block.
        DoubleSlab = 3,
        /// As a bottom slab.
        BottomStairs = 4,
        /// As a top slab.
        TopStairs = 5,
        /// As a top slab, but that dust beside it has an arm up where one on a slab has it on the side.
        Glass = 6,
    }
}

/// A code that stands for no kind, facing, arm or shape.
#[derive(Clone, Copy, Debug, Eq, Hash, PartialEq)]
pub struct UnknownCode {
    what: &'static str,
    known: &'static [Named],
    code: u8,
}

/// A name that no kind, facing, arm or shape has.
#[derive(Clone, Debug, Eq, Hash, PartialEq)]
pub struct UnknownName {
    what: &'static str,
    known: &'static [Named],
    name: String,
}

impl UnknownCode {
    /// The code.
    #[must_use]
    pub fn code(self) -> u8 {
        self.code
    }
}

impl UnknownName {
    /// The name.
    #[must_use]
    pub fn name(&self) -> &str {
        &self.name
    }
}

impl Display for UnknownCode {
    fn fmt(&self, f: &mut Formatter<'_>) -> fmt::Result {
        write!(f, "{} is no {}: give {}", self.code, self.what, one_of(self.known.iter().map(coded_name)))
    }
}

impl Display for UnknownName {
    fn fmt(&self, f: &mut Formatter<'_>) -> fmt::Result {
        let names = self.known.iter().map(|(_, name)| (*name).to_owned());
        write!(f, "`{}` is no {}: give {}", self.name, self.what, one_of(names))
    }
}

impl Error for UnknownCode {}

impl Error for UnknownName {}

/// A code with its name, for a message.
pub(crate) fn coded_name((code, name): &Named) -> String {
    format!("{code} {name}")
}

/// The words as "a, b or c".
pub(crate) fn one_of(words: impl Iterator<Item = String>) -> String {
    let words: Vec<_> = words.collect();
    match words.split_last() {
        Some((last, [])) => last.clone(),
        Some((last, others)) => format!("{} or {last}", others.join(", ")),
        None => String::new(),
    }
}
