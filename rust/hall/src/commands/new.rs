//! `hall new`: a hall to start from.

use std::ffi::OsStr;
use std::fs::File;
use std::io::{self, ErrorKind, Write};
use std::path::{Path, PathBuf};

use crate::arguments::Arguments;
use crate::command::{Command, Failure, Status};
use crate::output::unwritten;

pub const COMMAND: Command = Command {
    name: "new",
    operands: "NAME",
    summary: "writes a small hall to start from, as NAME.hall",
    help: "The file has comments that say how it is made. A file that is there already is left as it is.",
    options: &[],
    run,
};

/// What a new hall holds.
const SAMPLE: &str = include_str!("new.hall");

fn run(arguments: &Arguments, out: &mut dyn Write) -> Result<Status, Failure> {
    let file = file_of(arguments.one("no name is given: give one, as in `hall new door`")?)?;
    let name = file.display().to_string();
    create(&file).map_err(|error| {
        Failure::sentence(match error.kind() {
            ErrorKind::AlreadyExists => format!("{name} is there already: take another name"),
            _ => unwritten(&name, &error),
        })
    })?;
    writeln!(out, "{name} is written. Try `hall run {name}` and `hall check {name}`, and change it.")?;
    Ok(Status::Good)
}

/// NAME.hall, or NAME itself where it ends so.
fn file_of(name: &OsStr) -> Result<PathBuf, Failure> {
    let path = Path::new(name);
    // A slash at the end, which a path passes over, names a folder.
    let is_name =
        path.file_name().is_some_and(|last| name.as_encoded_bytes().ends_with(last.as_encoded_bytes()));
    if !is_name {
        let name = name.to_string_lossy();
        return Err(Failure::sentence(format!(
            "\"{name}\" is no name for a file: give one, as in `hall new door`"
        )));
    }
    if path.extension() == Some(OsStr::new("hall")) {
        return Ok(path.to_owned());
    }
    Ok(PathBuf::from([name, OsStr::new(".hall")].join(OsStr::new(""))))
}

fn create(file: &Path) -> io::Result<()> {
    let mut opened = File::create_new(file)?;
    opened.write_all(SAMPLE.as_bytes())?;
    opened.sync_all()
}
