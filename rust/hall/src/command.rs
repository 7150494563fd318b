//! What a command is, and how one is called.

use std::ffi::OsString;
use std::fmt::Write as _;
use std::io::{self, Write};

use redstone::Refusal;
use redstone_text::nearest;

use crate::Refused;
use crate::arguments::Arguments;
use crate::commands::COMMANDS;
use crate::output::unwritten;

/// A command: one entry of the table [`COMMANDS`].
pub struct Command {
    /// Its name.
    pub name: &'static str,
    /// The words after the name, before the options.
    pub operands: &'static str,
    /// What it does, in a line.
    pub summary: &'static str,
    /// More that `--help` says.
    pub help: &'static str,
    /// The options that it knows.
    pub options: &'static [&'static Choice],
    /// Does it.
    pub run: fn(&Arguments, &mut dyn Write) -> Result<Status, Failure>,
}

/// An option of a command.
pub struct Choice {
    /// As it is written, with its dashes.
    pub name: &'static str,
    /// What stands for its value.
    pub value: &'static str,
    /// What it says.
    pub help: &'static str,
    /// Whether it may be given more than once.
    pub may_repeat: bool,
}

/// How many ticks are run.
pub const TICKS: Choice = Choice {
    name: "--ticks",
    value: "N",
    help: "the ticks to run, 20 unless said, at most 10000",
    may_repeat: false,
};

/// The tick that is shown.
pub const TICK: Choice =
    Choice { name: "--tick", value: "N", help: "the tick to show, 0 unless said", may_repeat: false };

/// A switch.
pub const SWITCH: Choice = Choice {
    name: "--switch",
    value: "TICK:x,y,z=on|off",
    help: "sets the lever, button or plate at x,y,z once TICK ticks are done; may be given again",
    may_repeat: true,
};

/// Another profile.
pub const PROFILE: Choice = Choice {
    name: "--profile",
    value: "FILE",
    help: "takes the profile from FILE, 13 or 14 bytes or a line `profile Solid=31 ..`, and not from the hall",
    may_repeat: false,
};

/// How far a hall is moved.
pub const BY: Choice = Choice {
    name: "--by",
    value: "dx,dy,dz",
    help: "moves the second hall so far along x, y and z, each from -2000000 to 2000000; 0,0,0 unless said",
    may_repeat: false,
};

/// Where the output goes.
pub const OUT: Choice = Choice {
    name: "-o",
    value: "FILE",
    help: "writes to FILE and not to standard output",
    may_repeat: false,
};

/// How a command ended. Of several the largest counts.
#[derive(Clone, Copy, Debug, Eq, Ord, PartialEq, PartialOrd)]
#[repr(u8)]
pub enum Status {
    /// All is as expected.
    Good = 0,
    /// A figure differs.
    Differs = 1,
    /// Something is refused, cannot be read or is not written.
    Refused = 2,
}

/// Why a command could not be done.
#[derive(Debug)]
pub enum Failure {
    /// For the reason that a sentence gives.
    Sentence(String),
    /// A file holds no hall that can be run.
    Refused(Refused),
    /// Its output could not be written.
    Unwritten(io::Error),
}

impl Failure {
    pub(crate) fn sentence(sentence: impl Into<String>) -> Self {
        Self::Sentence(sentence.into())
    }
}

impl From<Refused> for Failure {
    fn from(refused: Refused) -> Self {
        Self::Refused(refused)
    }
}

impl From<Refusal> for Failure {
    fn from(refusal: Refusal) -> Self {
        Self::Sentence(refusal.to_string())
    }
}

impl From<io::Error> for Failure {
    fn from(error: io::Error) -> Self {
        Self::Unwritten(error)
    }
}

impl Command {
    /// Whether it knows an option.
    pub(crate) fn takes(&self, choice: &Choice) -> bool {
        self.options.iter().any(|known| known.name == choice.name)
    }

    /// The option of a name.
    pub(crate) fn choice(&self, name: &str) -> Result<&'static Choice, Failure> {
        if let Some(choice) = self.options.iter().find(|choice| choice.name == name) {
            return Ok(choice);
        }
        let start = format!("{name} is not an option of `hall {}`", self.name);
        Err(Failure::sentence(match nearest(name, self.options.iter().map(|choice| choice.name)) {
            Some((nearest, true)) => format!("{start}: did you mean {nearest}?"),
            Some((_, false)) => format!("{start}: see `hall {} --help`", self.name),
            None => format!("{start}, which has none"),
        }))
    }

    /// What `--help` says.
    fn help(&self) -> String {
        let mut text = format!("hall {} {}", self.name, self.operands);
        for choice in self.options {
            let more = if choice.may_repeat { " .." } else { "" };
            let _ = write!(text, " [{} {}{more}]", choice.name, choice.value);
        }
        let _ = write!(text, "\n\n{}\n", self.summary);
        if !self.help.is_empty() {
            let _ = write!(text, "\n{}\n", self.help.trim_end());
        }
        if !self.options.is_empty() {
            text.push('\n');
        }
        for choice in self.options {
            let _ = writeln!(text, "    {} {}\n        {}", choice.name, choice.value, choice.help);
        }
        text
    }
}

/// What `hall --help` says.
fn help() -> String {
    let mut text = "\
hall COMMAND ..

What a hall of redstone does, for whoever passes it. A hall is a file with a table of blocks, as text or packed, or -
for standard input. Every figure comes from the proved calls.

"
    .to_owned();
    for command in COMMANDS {
        let _ = writeln!(text, "    hall {:8} {}", command.name, command.summary);
    }
    text + "
`hall COMMAND --help` says more. The status is 0 where all is as expected, 1 where a figure differs, and 2 where
something is refused, cannot be read or is not written.
"
}

/// Does what the words say, which are those after the program's name. What goes wrong is said on `errors`.
pub fn perform(
    words: impl IntoIterator<Item = OsString>,
    out: &mut dyn Write,
    errors: &mut dyn Write,
) -> Status {
    let done = dispatch(words.into_iter().collect(), out).and_then(|status| {
        out.flush()?;
        Ok(status)
    });
    done.unwrap_or_else(|failure| {
        let sentence = match failure {
            Failure::Sentence(sentence) => sentence,
            Failure::Refused(refused) => refused.to_string(),
            Failure::Unwritten(error) => unwritten("standard output", &error),
        };
        // What was written before the failure is still to be seen, and nobody is left to tell of another one.
        let _ = out.flush();
        let end = if sentence.ends_with('?') { "" } else { "." };
        let _ = writeln!(errors, "hall: {sentence}{end}");
        Status::Refused
    })
}

fn dispatch(words: Vec<OsString>, out: &mut dyn Write) -> Result<Status, Failure> {
    let mut words = words.into_iter();
    let first = words.next().unwrap_or_else(|| "--help".into()).to_string_lossy().into_owned();
    let is_help = |word: &OsString| word == "--help" || word == "-h";
    if first == "help" || is_help(&first.clone().into()) {
        let text = match words.next() {
            Some(name) => command(&name.to_string_lossy())?.help(),
            None => help(),
        };
        out.write_all(text.as_bytes())?;
        return Ok(Status::Good);
    }
    let command = command(&first)?;
    let rest: Vec<_> = words.collect();
    if rest.iter().take_while(|word| *word != "--").any(is_help) {
        out.write_all(command.help().as_bytes())?;
        return Ok(Status::Good);
    }
    (command.run)(&Arguments::read(command, rest.into_iter())?, out)
}

/// The command of a name.
fn command(name: &str) -> Result<&'static Command, Failure> {
    if let Some(command) = COMMANDS.iter().find(|command| command.name == name) {
        return Ok(command);
    }
    let start = format!("there is no command `{name}`");
    Err(Failure::sentence(match nearest(name, COMMANDS.iter().map(|command| command.name)) {
        Some((nearest, true)) => format!("{start}: did you mean `hall {nearest}`?"),
        Some((nearest, false)) => {
            format!("{start}: the nearest is `hall {nearest}`, and `hall --help` lists all")
        }
        None => start,
    }))
}
