//! A row as text.

use redstone::{Arm, Facing, Kind, MOST_LEVEL, Row, Shape};

use crate::{Error, Line, Word};

/// A field of a row that may be missing.
struct Field {
    name: &'static str,
    read: fn(Row, Word) -> Result<Row, Error>,
    /// The value, if it has to be written.
    text: fn(&Row) -> Option<String>,
}

/// The fields, in the order in which they are written.
const FIELDS: [Field; 8] = [
    Field {
        name: "facing",
        read: |row, word| Ok(row.with_facing(word.one_of("a facing", named(Facing::ALL, Facing::name))?)),
        text: |row| row.facing().map(|facing| facing.to_string()),
    },
    Field {
        name: "support",
        read: |row, word| Ok(row.with_support(word.numbers(-1..=1, "a step dx,dy,dz")?)),
        text: |row| row.support().map(|step| position_text(step.map(i32::from))),
    },
    Field {
        name: "powered",
        read: |row, word| {
            Ok(row.with_powered(word.one_of("a truth value", [("true", true), ("false", false)])?))
        },
        text: |row| row.powered().map(|powered| powered.to_string()),
    },
    Field {
        name: "level",
        read: |row, word| Ok(row.with_power_level(read_level(row.kind(), word)?)),
        text: |row| row.power_level().map(|level| level.to_string()),
    },
    Field {
        name: "delay",
        read: |row, word| Ok(row.with_delay(word.number(0..=u8::MAX)?)),
        text: |row| row.delay().map(|delay| delay.to_string()),
    },
    Field {
        name: "arms",
        read: |row, word| Ok(row.with_arms(read_arms(word)?)),
        text: |row| row.arms().map(arms_text),
    },
    Field {
        name: "shape",
        read: |row, word| Ok(row.with_shape(word.one_of("a shape", named(Shape::ALL, shape_name))?)),
        text: |row| (row.shape() != Shape::Plain).then(|| shape_name(row.shape()).to_owned()),
    },
    Field {
        name: "mode",
        read: |row, word| {
            Ok(row.with_subtract(word.one_of("a mode", [("compare", false), (SUBTRACT, true)])?))
        },
        text: |row| row.subtract().then(|| SUBTRACT.to_owned()),
    },
];

const SUBTRACT: &str = "subtract";

/// The sides of a dust, in the order of its arms.
const SIDES: [Facing; 4] = [Facing::North, Facing::East, Facing::South, Facing::West];
const NO_ARMS: &str = "none";

/// Reads a row: a position, a kind, and fields.
///
/// # Errors
///
/// The line is no row.
pub fn read_row(line: Line<'_>) -> Result<Row, Error> {
    let mut words = line.words();
    let position = words.expect("a position x,y,z")?.position()?;
    let mut row = Row::new(words.expect("a kind")?.one_of("a kind", kinds())?, position);
    for field in words.fields("a field", FIELDS.iter().map(|field| (field.name, field))) {
        let (field, value) = field?;
        row = (field.read)(row, value)?;
    }
    Ok(row)
}

/// The shortest text that is read as this row.
///
/// ```
/// use redstone::{Facing, Kind, Row};
///
/// let row = Row::new(Kind::Repeater, [1, 1, 0]).with_facing(Facing::East).with_delay(2);
/// assert_eq!(redstone_text::row_text(&row), "1,1,0 Repeater facing=East delay=2");
/// ```
#[must_use]
pub fn row_text(row: &Row) -> String {
    let fields = FIELDS.iter().filter_map(|field| Some(format!(" {}={}", field.name, (field.text)(row)?)));
    format!("{} {}{}", position_text(row.position()), row.kind(), fields.collect::<String>())
}

/// A position as `x,y,z`.
#[must_use]
pub fn position_text([x, y, z]: [i32; 3]) -> String {
    format!("{x},{y},{z}")
}

/// The arms that have an entry, as `North:Side,East:Up`, or `none`.
#[must_use]
pub fn arms_text(arms: [Option<Arm>; 4]) -> String {
    let entries = SIDES.into_iter().zip(arms).filter_map(|(side, arm)| Some(format!("{side}:{}", arm?)));
    let entries: Vec<_> = entries.collect();
    if entries.is_empty() { NO_ARMS.to_owned() } else { entries.join(",") }
}

/// Any byte: a comparator's above 15 is for the calls to refuse. Of a word that is no byte, the error has the levels that
/// the kind may have.
fn read_level(kind: Kind, word: Word) -> Result<u8, Error> {
    let most = if kind == Kind::Comparator { MOST_LEVEL } else { u8::MAX };
    word.number(0..=u8::MAX).or_else(|_| word.number(0..=most))
}

fn read_arms(word: Word) -> Result<[Option<Arm>; 4], Error> {
    let mut arms = [None; 4];
    if word.text == NO_ARMS {
        return Ok(arms);
    }
    for entry in word.split(',') {
        let (side, arm) = entry.split_once(':').ok_or_else(|| entry.expected("an arm Side:Arm, or none"))?;
        let at = side.one_of("a side", SIDES.into_iter().enumerate().map(|(at, side)| (side.name(), at)))?;
        if arms[at].is_some() {
            return Err(side.again("a side that is not given yet"));
        }
        arms[at] = Some(arm.one_of("an arm", named(Arm::ALL, Arm::name))?);
    }
    Ok(arms)
}

pub(crate) fn kinds() -> impl Iterator<Item = (&'static str, Kind)> + Clone {
    named(Kind::ALL, Kind::name)
}

/// A shape as a row has it.
#[must_use]
pub fn shape_name(shape: Shape) -> &'static str {
    match shape {
        Shape::Plain => "plain",
        Shape::BottomSlab => "bottom_slab",
        Shape::TopSlab => "top_slab",
        Shape::DoubleSlab => "double_slab",
        Shape::BottomStairs => "bottom_stairs",
        Shape::TopStairs => "top_stairs",
        Shape::Glass => "glass",
    }
}

/// Values with their names.
fn named<T: Copy>(
    values: &'static [T],
    name: fn(T) -> &'static str,
) -> impl Iterator<Item = (&'static str, T)> + Clone {
    values.iter().map(move |value| (name(*value), *value))
}
