//! A hall: a table that the calls accepted, with the switches and the expectations that its file has beside the rows.

use redstone::{Circuit, Fault, Kind, Refusal, Row};
use redstone_text::{TableReader, Word, lines};

use crate::Refused;
use crate::course::Course;
use crate::expect::{EXPECT, Expectation};
use crate::switch::{SWITCH, Switch, check_place};

/// What is said of a file that is refused in the packed form.
pub(crate) const PACKED: &str = "it was taken for the packed form, since it has a zero byte";

/// A hall.
#[derive(Clone, Debug)]
pub struct Hall {
    /// The file, as it was named.
    pub name: String,
    /// The table in its fresh state.
    pub fresh: Circuit,
    /// The rows, in the table's order.
    pub rows: Vec<Row>,
    /// The line of each row, from 1 on; none at all in the packed form.
    pub lines: Vec<usize>,
    /// What is set during a run.
    pub switches: Vec<Switch>,
    /// What the file expects of the figures.
    pub expectations: Vec<Expectation>,
}

impl Hall {
    /// Reads the text form.
    ///
    /// # Errors
    ///
    /// A line cannot be read, speaks of a position where no such block stands, or the table is refused.
    pub fn from_text(name: &str, text: &str, profile: Option<&[u8]>) -> Result<Self, Refused> {
        let refused = |error| Refused::text(name, &error);
        let mut reader = TableReader::new();
        let (mut switches, mut expectations) = (Vec::new(), Vec::new());
        for line in lines(text) {
            if reader.read(line).map_err(refused)? {
                continue;
            }
            match line.words().next().map(|word| word.text) {
                Some(SWITCH) => switches.push(Switch::read_line(line).map_err(refused)?),
                Some(EXPECT) => expectations.push(Expectation::read(line).map_err(refused)?),
                _ => {
                    let known = [TableReader::WORDS, &[SWITCH, EXPECT]].concat();
                    return Err(refused(line.unknown(&known)));
                }
            }
        }
        let table = reader.table().map_err(refused)?;
        let fresh = Circuit::new(profile.unwrap_or(&table.profile), table.rows.iter().copied())
            .map_err(|refusal| refused_table(name, &refusal, &reader))?;
        let rows = table.rows;
        let row_lines = rows.iter().filter_map(|row| reader.line_of(row.position())).collect();
        let switches =
            switches.into_iter().map(|placed| check_place(placed, &rows)).collect::<Result<_, _>>();
        let expectations =
            expectations.into_iter().map(|placed| placed.check(&rows)).collect::<Result<_, _>>();
        Ok(Self {
            name: name.to_owned(),
            fresh,
            switches: switches.map_err(refused)?,
            expectations: expectations.map_err(refused)?,
            rows,
            lines: row_lines,
        })
    }

    /// Reads the packed form: the profile's bytes, and then the table's.
    ///
    /// # Errors
    ///
    /// The profile or the table is refused.
    pub fn from_packed(name: &str, profile: &[u8], table: &[u8]) -> Result<Self, Refused> {
        let fresh = Circuit::from_table(profile, table).map_err(|refusal| {
            Refused::file(name, format!("{} ({PACKED})", sentence(&refusal, &IN_PACKED)))
        })?;
        let rows = fresh.blocks().map(|block| block.row).collect();
        Ok(Self {
            name: name.to_owned(),
            fresh,
            rows,
            lines: Vec::new(),
            switches: Vec::new(),
            expectations: Vec::new(),
        })
    }

    /// Adds a switch, as in `4:0,1,0=on`.
    ///
    /// # Errors
    ///
    /// The text is none, or no lever, button or plate stands there.
    pub fn add_switch(&mut self, text: &str) -> Result<(), redstone_text::Error> {
        let placed = Switch::read_word(Word { line: 1, column: 1, text })?;
        self.switches.push(check_place(placed, &self.rows)?);
        Ok(())
    }

    /// The file and, where it has lines, the line of a row, as in `door.hall:12`.
    #[must_use]
    pub fn place(&self, row: usize) -> String {
        self.place_of_line(self.lines.get(row).copied())
    }

    /// The file and, where there is one, a line.
    pub(crate) fn place_of_line(&self, line: Option<usize>) -> String {
        match line {
            Some(line) => format!("{}:{line}", self.name),
            None => self.name.clone(),
        }
    }

    /// The hall from its fresh state on.
    ///
    /// # Errors
    ///
    /// None: no call refuses what it has accepted.
    pub fn course(&self) -> Result<Course, Refusal> {
        Course::new(self.fresh.clone(), &self.switches)
    }
}

/// A refusal with the line of the row at fault.
fn refused_table(name: &str, refusal: &Refusal, reader: &TableReader) -> Refused {
    let line = match refusal.fault {
        Fault::BadRow { position, .. } | Fault::OverdrivenRow { position, .. } => reader.line_of(position),
        _ => None,
    };
    match line {
        Some(line) => Refused::line(name, line, sentence(refusal, &IN_TEXT)),
        None => Refused::file(name, sentence(refusal, &IN_TEXT)),
    }
}

/// What to do about a row that is refused, after the sentence that says why.
struct Advice {
    /// A bulb for which the profile has no byte.
    bulb: &'static str,
    /// A comparator whose level is too large.
    level: &'static str,
}

const IN_TEXT: Advice = Advice {
    bulb: " (write CopperBulb=7 into the line `profile`, or give a profile that has it with --profile)",
    level: " (write level=15 or less)",
};
/// A packed file has no lines to write into. Another bracket follows.
const IN_PACKED: Advice = Advice {
    bulb: ", or give a profile that has the bulb's byte with --profile",
    level: ": set it to 15 or less in what packs the file",
};

/// What a refusal says, and what to do.
fn sentence(refusal: &Refusal, advice: &Advice) -> String {
    let bulb = i64::from(Kind::CopperBulb.code());
    let what_to_do = match refusal.fault {
        // As a kind it is good with a profile that has the byte.
        Fault::BadRow { field, .. } if field.name() == "kind" && field.value() == bulb => advice.bulb,
        Fault::OverdrivenRow { .. } => advice.level,
        _ => "",
    };
    format!("{refusal}{what_to_do}")
}
