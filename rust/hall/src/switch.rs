//! Levers, buttons and plates that are set during a run.

use std::fmt::{self, Display, Formatter};

use redstone::{Kind, Row};
use redstone_text::{Error, Line, Word, Words, position_text};

use crate::MOST_TICKS;
use crate::name::{Position, find, is_switch, kind_name, moved};

/// A lever, button or plate that is set once so many ticks are done. The figures of that tick are those after it.
#[derive(Clone, Copy, Debug, Eq, PartialEq)]
pub struct Switch {
    /// The number of the tick.
    pub tick: u32,
    /// Where it stands.
    pub position: Position,
    /// Whether it is on from then.
    pub on: bool,
    /// The number of its line, from 1 on; none where it was given with `--switch`.
    pub line: Option<usize>,
}

/// A switch and the word that its position was read from.
pub(crate) type Placed<'a> = (Switch, Word<'a>);

/// The word that begins a line with a switch.
pub(crate) const SWITCH: &str = "switch";
/// The word before a tick's number.
pub(crate) const TICK: &str = "tick";

const SETTINGS: [(&str, bool); 2] = [("on", true), ("off", false)];

impl Switch {
    /// Reads `switch 0,1,0 on`, at tick 0, or `switch tick 4 0,1,0 on`.
    pub(crate) fn read_line(line: Line<'_>) -> Result<Placed<'_>, Error> {
        let mut words = line.words();
        words.expect(SWITCH)?;
        let (tick, place) = after_tick(&mut words, "a position x,y,z")?;
        let position = place.position()?;
        let on = words.expect("on or off")?.one_of("a setting", SETTINGS)?;
        words.end()?;
        Ok((Self { tick, position, on, line: Some(line.number) }, place))
    }

    /// Reads `4:0,1,0=on`.
    pub(crate) fn read_word(word: Word<'_>) -> Result<Placed<'_>, Error> {
        let form = || word.expected("a switch TICK:x,y,z=on or TICK:x,y,z=off");
        let (tick, rest) = word.split_once(':').ok_or_else(form)?;
        let (place, setting) = rest.split_once('=').ok_or_else(form)?;
        let switch = Self {
            tick: tick.number(0..=MOST_TICKS)?,
            position: place.position()?,
            on: setting.one_of("a setting", SETTINGS)?,
            line: None,
        };
        Ok((switch, place))
    }

    /// The same in a hall that is moved by an offset.
    pub(crate) fn moved(self, offset: Position) -> Self {
        Self { position: moved(self.position, offset), ..self }
    }

    /// The line that is read as this.
    pub(crate) fn as_line(&self) -> String {
        match self.tick {
            0 => format!("{SWITCH} {self}"),
            tick => format!("{SWITCH} {TICK} {tick} {self}"),
        }
    }
}

/// Reads the word that a line is about, and the tick before it, as in `tick 4`; without one it is tick 0.
pub(crate) fn after_tick<'a>(words: &mut Words<'a>, what: &str) -> Result<(u32, Word<'a>), Error> {
    let first = words.expect(&format!("{what}, or tick"))?;
    if first.text != TICK {
        return Ok((0, first));
    }
    let tick = words.expect("a tick's number")?.number(0..=MOST_TICKS)?;
    Ok((tick, words.expect(what)?))
}

/// That a switch's position is that of a lever, button or plate.
pub(crate) fn check_place((switch, word): Placed<'_>, rows: &[Row]) -> Result<Switch, Error> {
    let kind = find(rows, switch.position).map(|row| rows[row].kind());
    match kind {
        Some(kind) if is_switch(kind) => Ok(switch),
        _ => Err(not_there(word, "lever, button or plate", kind)),
    }
}

/// The error of a position where something else stands.
pub(crate) fn not_there(word: Word<'_>, what: &str, kind: Option<Kind>) -> Error {
    word.expected(match kind {
        None => format!("the position of a {what}: no row stands there"),
        Some(kind) => format!("the position of a {what}: a {} stands there", kind_name(kind)),
    })
}

/// As in `lever 0,1,0 on`, without the kind.
impl Display for Switch {
    fn fmt(&self, f: &mut Formatter<'_>) -> fmt::Result {
        let setting = if self.on { "on" } else { "off" };
        write!(f, "{} {setting}", position_text(self.position))
    }
}
