//! What a command writes to: standard output or a file, with every failure noticed.

use std::ffi::OsStr;
use std::fs::{self, File};
use std::io::{self, BufWriter, ErrorKind, IsTerminal, Write};
use std::os::fd::AsFd;
use std::os::unix::fs::MetadataExt;
use std::path::Path;

use crate::command::Failure;
use crate::hall::Hall;
use crate::name::counted;

/// Standard output. Unlike [`io::Stdout`] it takes a descriptor that cannot be written for a failure.
///
/// # Errors
///
/// Standard output is closed.
pub fn standard_output() -> io::Result<BufWriter<File>> {
    let descriptor = io::stdout().as_fd().try_clone_to_owned()?;
    Ok(BufWriter::with_capacity(1 << 16, File::from(descriptor)))
}

/// The sentence for output that could not be written.
pub(crate) fn unwritten(name: &str, error: &io::Error) -> String {
    match error.kind() {
        ErrorKind::BrokenPipe => format!("{name} was closed before all was written"),
        ErrorKind::StorageFull => format!("{name} could not be written: the disk is full"),
        ErrorKind::NotFound => format!("{name} could not be written: there is no such folder"),
        ErrorKind::IsADirectory => {
            format!("{name} could not be written: it is a folder, so name a file in it")
        }
        _ => format!("{name} could not be written: {error}"),
    }
}

/// Refuses what would go to a terminal, where there is no `-o`; `what` is as in `bytes are`.
pub(crate) fn refuse_terminal(file: Option<&OsStr>, what: &str, example: &str) -> Result<(), Failure> {
    if file.is_none() && io::stdout().is_terminal() {
        return Err(Failure::sentence(format!("{what} not for a terminal: name a file, as in -o {example}")));
    }
    Ok(())
}

/// Writes bytes to the file that `-o` names, or to standard output for `-` and where there is no `-o`. `inputs` are the
/// halls' files.
pub(crate) fn deliver(
    bytes: &[u8],
    file: Option<&OsStr>,
    inputs: &[impl AsRef<Path>],
    out: &mut dyn Write,
) -> Result<(), Failure> {
    match file.filter(|file| *file != "-") {
        None => Ok(out.write_all(bytes)?),
        Some(file) => {
            let name = file.to_string_lossy();
            if inputs.iter().any(|input| is_same_file(Path::new(file), input.as_ref())) {
                return Err(Failure::sentence(format!(
                    "{name} is the hall itself: name another file after -o, or it would be lost"
                )));
            }
            write_file(file, bytes).map_err(|error| Failure::sentence(unwritten(&name, &error)))
        }
    }
}

/// Says, once all is written, how many lines with switches and expectations the halls have that were left out, and why.
pub(crate) fn tell_left_out(halls: &[Hall], why: &str, out: &mut dyn Write) -> Result<(), Failure> {
    let left = halls.iter().map(|hall| hall.switches.len() + hall.expectations.len()).sum();
    tell_lines(left, &format!("with switches and expectations left out: {why}"), out)
}

/// Says something of so many lines, once all is written; nothing of none.
pub(crate) fn tell_lines(number: usize, what: &str, out: &mut dyn Write) -> Result<(), Failure> {
    if number == 0 {
        return Ok(out.flush()?);
    }
    tell(&format!("hall: {} {what}.\n", counted(number, "line")), out)
}

/// Says something on standard error, once all is written.
pub(crate) fn tell(text: &str, out: &mut dyn Write) -> Result<(), Failure> {
    out.flush()?;
    // It changes nothing that this cannot be said.
    let _ = io::stderr().write_all(text.as_bytes());
    Ok(())
}

fn is_same_file(one: &Path, other: &Path) -> bool {
    let place = |path| fs::metadata(path).map(|data| (data.dev(), data.ino())).ok();
    place(one).is_some_and(|one| Some(one) == place(other))
}

/// Writes a file and waits until it is on the disk, where a lack of room shows at last.
fn write_file(file: &OsStr, bytes: &[u8]) -> io::Result<()> {
    let mut opened = File::create(file)?;
    opened.write_all(bytes)?;
    if opened.metadata()?.is_file() {
        opened.sync_all()?;
    }
    Ok(())
}
