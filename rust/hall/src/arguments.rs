//! The words that a command is called with.

use std::ffi::{OsStr, OsString};
use std::fmt::Display;
use std::ops::RangeInclusive;
use std::str::FromStr;

use redstone::{FARTHEST, FARTHEST_OFFSET};
use redstone_text::Word;

use crate::command::{BY, Choice, Command, Failure, OUT, PROFILE, SWITCH, TICKS};
use crate::input::is_standard_input;
use crate::name::Position;
use crate::run::Run;
use crate::{DEFAULT_TICKS, Hall, MOST_SHOWN_TICKS, input};

/// The words after a command's name.
#[derive(Debug, Default)]
pub struct Arguments {
    /// Those that are no options.
    pub operands: Vec<OsString>,
    options: Vec<(&'static str, OsString)>,
    /// Whether the command knows `-o`.
    takes_out: bool,
}

impl Arguments {
    /// Reads the words after a command's name.
    pub(crate) fn read(command: &Command, words: impl Iterator<Item = OsString>) -> Result<Self, Failure> {
        let mut arguments = Self { takes_out: command.takes(&OUT), ..Self::default() };
        let mut only_operands = false;
        let mut words = words.peekable();
        // A word that is another option is no value: it was left out.
        let is_option = |word: &OsString| {
            let word = word.to_string_lossy();
            command.options.iter().any(|choice| word.split('=').next() == Some(choice.name))
        };
        while let Some(word) = words.next() {
            let text = word.to_string_lossy().into_owned();
            if only_operands || !is_option_name(&text) {
                arguments.operands.push(word);
                continue;
            }
            if text == "--" {
                only_operands = true;
                continue;
            }
            let (name, value) = match text.split_once('=') {
                Some((name, value)) if name.starts_with("--") => (name, Some(OsString::from(value))),
                _ => (text.as_str(), None),
            };
            let choice = command.choice(name)?;
            if !choice.may_repeat && arguments.option(choice).is_some() {
                return Err(Failure::sentence(format!("{name} is given twice: give it once")));
            }
            let value = value.or_else(|| words.next_if(|word| !is_option(word))).ok_or_else(|| {
                Failure::sentence(format!("{name} has no value: give {name} {}", choice.value))
            })?;
            arguments.options.push((choice.name, value));
        }
        Ok(arguments)
    }

    /// The value of an option.
    #[must_use]
    pub fn option(&self, choice: &Choice) -> Option<&OsStr> {
        self.options(choice).next()
    }

    fn options(&self, choice: &Choice) -> impl Iterator<Item = &OsStr> {
        self.options.iter().filter(|(name, _)| *name == choice.name).map(|(_, value)| value.as_os_str())
    }

    /// The value of an option as a whole number of a range.
    pub(crate) fn number<T>(&self, choice: &Choice, range: RangeInclusive<T>) -> Result<Option<T>, Failure>
    where
        T: FromStr + PartialOrd + Display,
    {
        let Some(value) = self.option(choice) else { return Ok(None) };
        let text = value.to_string_lossy();
        let number = Word { line: 1, column: 1, text: &text }.number(range);
        number.map(Some).map_err(|error| Failure::sentence(format!("{}: {}", choice.name, error.message())))
    }

    /// The one operand. `missing` is the sentence for where there is none.
    pub(crate) fn one(&self, missing: &str) -> Result<&OsStr, Failure> {
        match &self.operands[..] {
            [one] => Ok(one),
            [] => Err(Failure::sentence(missing)),
            [_, second, ..] => {
                let second = second.to_string_lossy();
                let meant = match self.takes_out && self.option(&OUT).is_none() {
                    true => format!("did you mean {} {second}?", OUT.name),
                    false => "give one name".to_owned(),
                };
                Err(Failure::sentence(format!("{second} is one word too many: {meant}")))
            }
        }
    }

    /// The one file that is named.
    pub(crate) fn file(&self) -> Result<&OsStr, Failure> {
        self.one("no hall is named: give a file, or - for standard input")
    }

    /// The files that are named, one at least.
    pub(crate) fn files(&self) -> Result<&[OsString], Failure> {
        if self.operands.is_empty() {
            return Err(Failure::sentence("no file is named: give some, or - for standard input"));
        }
        if self.operands.iter().filter(|file| is_standard_input(file)).count() > 1 {
            return Err(Failure::sentence("standard input is named twice: it can be read once"));
        }
        Ok(&self.operands)
    }

    /// The file that is named, and the position after it.
    pub(crate) fn file_and_position(&self) -> Result<(&OsStr, Position), Failure> {
        match &self.operands[..] {
            [file, position] => {
                let (first, second) = (file.to_string_lossy(), position.to_string_lossy());
                let position = read_position(&second).map_err(|failure| match read_position(&first) {
                    Ok(_) => Failure::sentence(format!(
                        "the file comes first, and then the position: give {second} {first}"
                    )),
                    Err(_) => failure,
                })?;
                Ok((file, position))
            }
            [] => Err(Failure::sentence(
                "no hall is named: give a file, or - for standard input, and then a position x,y,z",
            )),
            [one] => Err(Failure::sentence(match read_position(&one.to_string_lossy()) {
                Ok(_) => "no hall is named: give a file, or - for standard input, before the position",
                Err(_) => "no position is given: give one as x,y,z after the file",
            })),
            [_, _, third, ..] => {
                let third = third.to_string_lossy();
                Err(Failure::sentence(format!(
                    "{third} is one word too many: give one file, and one position x,y,z without blanks"
                )))
            }
        }
    }

    /// The two files that are named.
    pub(crate) fn two_files(&self) -> Result<[&OsStr; 2], Failure> {
        if self.operands.is_empty() {
            return Err(Failure::sentence(
                "no file is named: give two, of which one may be - for standard input",
            ));
        }
        match self.files()? {
            [first, second] => Ok([first, second]),
            [_, _, third, ..] => {
                let third = third.to_string_lossy();
                let meant = meant_by(&third).unwrap_or_else(|| "give two names, and no third".to_owned());
                Err(Failure::sentence(format!("{third} is one word too many: {meant}")))
            }
            _ => Err(Failure::sentence("one file alone is named: give a second one after it")),
        }
    }

    /// The offset of `--by`, which is none unless said.
    pub(crate) fn offset(&self) -> Result<Position, Failure> {
        let Some(value) = self.option(&BY) else { return Ok([0; 3]) };
        let (text, what) = (value.to_string_lossy(), "an offset dx,dy,dz");
        let word = Word { line: 1, column: 1, text: &text };
        // What 32 bits hold is for the call to refuse. Of all else the error has what it may be.
        word.position()
            .or_else(|_| word.numbers(-FARTHEST_OFFSET..=FARTHEST_OFFSET, what))
            .map_err(|error| Failure::sentence(format!("{} {text}: {}", BY.name, error.message())))
    }

    /// The profile that `--profile` names.
    pub(crate) fn profile(&self) -> Result<Option<Vec<u8>>, Failure> {
        Ok(self.option(&PROFILE).map(input::read_profile).transpose()?)
    }

    /// The hall that the one operand names, with the switches of `--switch`.
    pub(crate) fn hall(&self) -> Result<Hall, Failure> {
        self.hall_in(self.file()?)
    }

    /// The hall that a file holds, with the switches of `--switch`.
    pub(crate) fn hall_in(&self, file: &OsStr) -> Result<Hall, Failure> {
        let mut hall = input::read(file, self.profile()?.as_deref())?;
        for value in self.options(&SWITCH) {
            let text = value.to_string_lossy();
            hall.add_switch(&text)
                .map_err(|error| Failure::sentence(format!("{} {text}: {}", SWITCH.name, error.message())))?;
        }
        Ok(hall)
    }

    /// A hall's run for as many ticks as `--ticks` says.
    pub(crate) fn run(&self, hall: &Hall) -> Result<Run, Failure> {
        let ticks = self.number(&TICKS, 0..=MOST_SHOWN_TICKS)?.unwrap_or(DEFAULT_TICKS);
        Ok(Run::new(hall, ticks)?)
    }
}

/// Whether a word is to be an option's name: `-` alone is standard input, and before a digit it is that of a number.
fn is_option_name(text: &str) -> bool {
    let after = text.strip_prefix('-').and_then(|after| after.chars().next());
    after.is_some_and(|first| !first.is_ascii_digit())
}

/// A position where a block may be.
fn read_position(text: &str) -> Result<Position, Failure> {
    let position = Word { line: 1, column: 1, text }.numbers(-FARTHEST..=FARTHEST, "a position x,y,z");
    position.map_err(|error| Failure::sentence(format!("position {text}: {}", error.message())))
}

/// What is asked about a word of three numbers before which `--by` was forgotten.
fn meant_by(text: &str) -> Option<String> {
    let word = Word { line: 1, column: 1, text };
    word.position().is_ok().then(|| format!("did you mean {} {text}?", BY.name))
}
