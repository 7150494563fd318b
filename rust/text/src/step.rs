//! The lines of a run.

use std::fmt::{self, Display, Formatter};

use crate::{Error, Line, position_text};

/// Something done in a run: `tick 3`, or `switch 0,1,0 on`.
#[derive(Clone, Copy, Debug, Eq, Hash, PartialEq)]
pub enum Step {
    /// So many ticks.
    Tick(u32),
    /// A lever, button or plate is set.
    Switch {
        /// Where it stands.
        position: [i32; 3],
        /// Whether it is on from now.
        powered: bool,
    },
}

const TICK: &str = "tick";
const SWITCH: &str = "switch";
const ON: &str = "on";
const OFF: &str = "off";

impl Step {
    /// The words that a step begins with.
    pub const WORDS: &[&str] = &[TICK, SWITCH];

    /// Reads a line that begins with one of [`Step::WORDS`]; any other is none.
    ///
    /// # Errors
    ///
    /// What follows the word is wrong.
    pub fn read(line: Line<'_>) -> Result<Option<Self>, Error> {
        let mut words = line.words();
        let step = match words.next().map(|word| word.text) {
            Some(TICK) => Self::Tick(words.expect("a number of ticks")?.number(0..=u32::MAX)?),
            Some(SWITCH) => {
                let position = words.expect("a position x,y,z")?.position()?;
                let powered = words.expect("on or off")?.one_of("a setting", [(ON, true), (OFF, false)])?;
                Self::Switch { position, powered }
            }
            _ => return Ok(None),
        };
        words.end()?;
        Ok(Some(step))
    }
}

/// Writes the line.
impl Display for Step {
    fn fmt(&self, f: &mut Formatter<'_>) -> fmt::Result {
        match *self {
            Self::Tick(ticks) => write!(f, "{TICK} {ticks}"),
            Self::Switch { position, powered } => {
                let word = if powered { ON } else { OFF };
                write!(f, "{SWITCH} {} {word}", position_text(position))
            }
        }
    }
}
