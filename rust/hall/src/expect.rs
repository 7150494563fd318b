//! What a file expects of the figures: the lines that begin with `expect`.

use std::fmt::{self, Display, Formatter};

use redstone::{Kind, MOST_LEVEL, Refusal, Rounds, Row};
use redstone_text::{Error, Line, Word, Words, position_text};

use crate::device::is_candidate;
use crate::hall::Hall;
use crate::name::{Position, find, kind_name, moved};
use crate::run::{Frame, Run};
use crate::switch::{TICK, after_tick, not_there};

/// The word that begins a line with an expectation.
pub(crate) const EXPECT: &str = "expect";

/// A figure of a row that can be expected.
struct Subject {
    word: &'static str,
    /// The kind that the row has to have; any where there is none.
    kind: Option<Kind>,
    values: Values,
    given: fn(&Frame, usize) -> u8,
}

/// What may be expected of a figure.
#[derive(Clone, Copy)]
enum Values {
    /// A level.
    Levels,
    /// One of two words: the first for 0, the second for 1.
    Words([&'static str; 2]),
}

/// The figures of a row.
const SUBJECTS: &[Subject] = &[
    Subject {
        word: "dust",
        kind: Some(Kind::RedstoneWire),
        values: Values::Levels,
        given: |frame, row| frame.figures(row).signal,
    },
    Subject {
        word: "repeater",
        kind: Some(Kind::Repeater),
        values: Values::Words(["off", "on"]),
        given: |frame, row| frame.devices[row].byte(),
    },
    Subject {
        word: "torch",
        kind: Some(Kind::RedstoneTorch),
        values: Values::Words(["out", "lit"]),
        given: |frame, row| frame.devices[row].byte(),
    },
    Subject {
        word: "candidate",
        kind: Some(Kind::RedstoneTorch),
        values: Values::Words(["no", "yes"]),
        given: |frame, row| is_candidate(frame.devices[row]).into(),
    },
    Subject {
        word: "comparator",
        kind: Some(Kind::Comparator),
        values: Values::Levels,
        given: |frame, row| frame.devices[row].byte(),
    },
    Subject {
        word: "lamp",
        kind: Some(Kind::RedstoneLamp),
        values: Values::Words(["dark", "lit"]),
        given: |frame, row| frame.given(row),
    },
    Subject {
        word: "bulb",
        kind: Some(Kind::CopperBulb),
        values: Values::Words(["dark", "lit"]),
        given: |frame, row| frame.given(row),
    },
    Subject {
        word: "signal",
        kind: None,
        values: Values::Levels,
        given: |frame, row| frame.figures(row).signal,
    },
    Subject { word: "weak", kind: None, values: Values::Levels, given: |frame, row| frame.figures(row).weak },
    Subject {
        word: "strong",
        kind: None,
        values: Values::Levels,
        given: |frame, row| frame.figures(row).strong,
    },
];

/// What an expectation is about.
#[derive(Clone, Copy)]
enum About {
    /// The rounds of the last settling.
    Rounds,
    /// The number of rows.
    Blocks,
    /// A figure of the row at a position.
    Row(&'static Subject, Position),
}

const ROUNDS: &str = "rounds";
const BLOCKS: &str = "blocks";

/// A line that begins with `expect`.
#[derive(Clone, Copy)]
pub struct Expectation {
    /// The number of the line, from 1 on.
    pub line: usize,
    /// The number of the tick.
    pub tick: u32,
    about: About,
    value: u32,
}

/// An expectation and the word that its position was read from.
pub(crate) struct Placed<'a> {
    expectation: Expectation,
    place: Option<Word<'a>>,
}

impl Expectation {
    /// Reads a line. Whether such a row stands there, [`Placed::check`] says.
    pub(crate) fn read(line: Line<'_>) -> Result<Placed<'_>, Error> {
        let mut words = line.words();
        words.expect(EXPECT)?;
        let (tick, first) = after_tick(&mut words, "a figure")?;
        let subjects = SUBJECTS.iter().map(|subject| (subject.word, Some(subject)));
        let known = [(ROUNDS, None), (BLOCKS, None), (TICK, None)];
        let subject = first.one_of("a figure", subjects.chain(known))?;
        let (about, value, place) = match (subject, first.text) {
            (Some(subject), _) => {
                let place = words.expect("a position x,y,z")?;
                if place.text.contains('=') {
                    return Err(place.expected("a position x,y,z, and blanks around ="));
                }
                let position = place.position()?;
                (About::Row(subject, position), subject.values.read(&mut words)?, Some(place))
            }
            (None, ROUNDS) => (About::Rounds, number(&mut words, Rounds::MOST)?, None),
            (None, BLOCKS) => (About::Blocks, number(&mut words, u32::MAX)?, None),
            (None, _) => return Err(first.again("a figure")),
        };
        words.end()?;
        Ok(Placed { expectation: Self { line: line.number, tick, about, value }, place })
    }

    /// The position that it is about, if it is about one.
    #[must_use]
    pub fn position(&self) -> Option<Position> {
        match self.about {
            About::Row(_, position) => Some(position),
            About::Rounds | About::Blocks => None,
        }
    }

    /// The same in a hall that is moved by an offset.
    pub(crate) fn moved(self, offset: Position) -> Self {
        let about = match self.about {
            About::Row(subject, position) => About::Row(subject, moved(position, offset)),
            whole @ (About::Rounds | About::Blocks) => whole,
        };
        Self { about, ..self }
    }

    /// The line that is read as this.
    pub(crate) fn as_line(&self) -> String {
        format!("{EXPECT} {self}")
    }

    /// The number that a frame of these rows gives.
    fn given(&self, rows: &[Row], frame: &Frame) -> u32 {
        match self.about {
            About::Rounds => frame.settled.rounds().get(),
            About::Blocks => rows.len() as u32,
            About::Row(subject, position) => {
                find(rows, position).map_or(0, |row| (subject.given)(frame, row).into())
            }
        }
    }

    /// A number of this expectation, in its words.
    fn value_text(&self, value: u32) -> String {
        match self.about {
            About::Row(Subject { values: Values::Words(words), .. }, _) => {
                words[usize::from(value != 0)].into()
            }
            _ => value.to_string(),
        }
    }
}

impl Values {
    fn read(self, words: &mut Words<'_>) -> Result<u32, Error> {
        match self {
            Self::Levels => number(words, MOST_LEVEL.into()),
            Self::Words([no, yes]) => {
                words.expect(&format!("{yes} or {no}"))?.one_of("a state", [(no, 0), (yes, 1)])
            }
        }
    }
}

/// Reads `= 7`.
fn number(words: &mut Words<'_>, most: u32) -> Result<u32, Error> {
    let form = "= and a number, with blanks between";
    let sign = words.expect(form)?;
    if sign.text != "=" {
        return Err(sign.expected(form));
    }
    words.expect(&format!("a whole number from 0 to {most}"))?.number(0..=most)
}

impl Placed<'_> {
    /// The expectation, where a row of the right kind stands at its position.
    pub(crate) fn check(self, rows: &[Row]) -> Result<Expectation, Error> {
        if let (About::Row(subject, position), Some(word)) = (self.expectation.about, self.place) {
            let kind = find(rows, position).map(|row| rows[row].kind());
            if kind.is_none() || subject.kind.is_some_and(|wanted| Some(wanted) != kind) {
                return Err(not_there(word, subject.kind.map_or("row", kind_name), kind));
            }
        }
        Ok(self.expectation)
    }
}

/// As its line has it, without `expect`.
impl Display for Expectation {
    fn fmt(&self, f: &mut Formatter<'_>) -> fmt::Result {
        if self.tick != 0 {
            write!(f, "tick {} ", self.tick)?;
        }
        let value = self.value_text(self.value);
        match self.about {
            About::Rounds => write!(f, "{ROUNDS} = {value}"),
            About::Blocks => write!(f, "{BLOCKS} = {value}"),
            About::Row(Subject { word, values, .. }, position) => {
                let sign = if matches!(values, Values::Levels) { "= " } else { "" };
                write!(f, "{word} {} {sign}{value}", position_text(position))
            }
        }
    }
}

impl fmt::Debug for Expectation {
    fn fmt(&self, f: &mut Formatter<'_>) -> fmt::Result {
        write!(f, "{}: {self}", self.line)
    }
}

/// An expectation and what the calls gave.
#[derive(Clone, Debug)]
pub struct Met {
    /// The expectation.
    pub expectation: Expectation,
    /// What was given, in the expectation's words.
    pub given: String,
    /// Whether that is what was expected.
    pub is_met: bool,
}

/// What the calls give for each expectation of a hall, in the order of their lines. `run` is a run of the hall; it goes on
/// after its last tick where something is expected there.
///
/// # Errors
///
/// None: no call refuses what it has accepted.
pub fn meet(hall: &Hall, run: &Run) -> Result<Vec<Met>, Refusal> {
    let mut expectations = hall.expectations.clone();
    expectations.sort_by_key(|expectation| expectation.tick);
    let mut later = None;
    let mut all = Vec::with_capacity(expectations.len());
    for expectation in expectations {
        let given = match run.frames.get(expectation.tick as usize) {
            Some(frame) => expectation.given(&hall.rows, frame),
            None => {
                let course = match &mut later {
                    Some(course) => course,
                    None => later.insert(hall.course()?),
                };
                expectation.given(&hall.rows, &Frame::of(course.move_to(expectation.tick)?, Vec::new()))
            }
        };
        let is_met = given == expectation.value;
        all.push(Met { expectation, given: expectation.value_text(given), is_met });
    }
    all.sort_by_key(|met| met.expectation.line);
    Ok(all)
}

/// The difference, as in `expected tick 8 lamp 12,1,0 dark, given lit`.
impl Display for Met {
    fn fmt(&self, f: &mut Formatter<'_>) -> fmt::Result {
        write!(f, "expected {}, given {}", self.expectation, self.given)
    }
}
