//! Halls from files and from standard input, in the text form or the packed form.

use std::ffi::OsStr;
use std::fs::File;
use std::io::{self, ErrorKind, Read};
use std::path::{Path, PathBuf};

use redstone::{Circuit, MOST_ROWS, PROFILE_BYTES, PROFILE_BYTES_WITH_BULB, ROW_BYTES};
use redstone_text::{TableReader, lines};

use crate::hall::PACKED;
use crate::{Hall, Refused};

/// The most bytes that the packed form may have.
const MOST_PACKED: usize = PROFILE_BYTES_WITH_BULB + MOST_ROWS * ROW_BYTES;
/// The most bytes of text that are read.
const MOST_TEXT: usize = 4 << 20;

/// Reads the hall that a file holds, or standard input for `-`. A profile that is given goes before the file's own.
///
/// # Errors
///
/// The file cannot be read, or holds no hall that can be run.
pub fn read(file: &OsStr, profile: Option<&[u8]>) -> Result<Hall, Refused> {
    let name = name(file);
    let bytes = contents(file, &name)?;
    if !is_packed(&bytes) {
        return Hall::from_text(&name, text(&name, &bytes)?, profile);
    }
    let (own, table) =
        split_packed(&bytes).map_err(|sentence| Refused::file(&name, format!("{sentence} ({PACKED})")))?;
    // A file that ends within its own profile is refused for that, whatever other profile is given.
    let profile = profile.filter(|_| own.len() >= PROFILE_BYTES).unwrap_or(own);
    Hall::from_packed(&name, profile, table)
}

/// The profile and the table of the packed form, which the program `settle` tells apart so, too: by the length, before
/// either is looked at.
fn split_packed(bytes: &[u8]) -> Result<(&[u8], &[u8]), String> {
    let length = bytes.len();
    if length > MOST_PACKED {
        let most = format!("{PROFILE_BYTES_WITH_BULB} of profile and {MOST_ROWS} rows of {ROW_BYTES}");
        return Err(format!("refusal 3, crowded: there are more than {MOST_PACKED} bytes, {most}"));
    }
    match length % ROW_BYTES {
        _ if length < PROFILE_BYTES => Ok((bytes, &[])),
        own @ (PROFILE_BYTES | PROFILE_BYTES_WITH_BULB) => Ok(bytes.split_at(own)),
        _ => Err(format!(
            "refusal 2, ragged: there are {length} bytes; they must be {PROFILE_BYTES} of profile, or \
             {PROFILE_BYTES_WITH_BULB} with the bulb's, and {ROW_BYTES} for each row"
        )),
    }
}

/// Reads a profile: its bytes, or a text with a line `profile`.
///
/// # Errors
///
/// The file cannot be read, or holds no profile that is accepted.
pub fn read_profile(file: &OsStr) -> Result<Vec<u8>, Refused> {
    let name = name(file);
    let mut profile = contents(file, &name)?;
    if !is_packed(&profile) {
        let written = profile_of(text(&name, &profile)?).map_err(|error| Refused::text(&name, &error))?;
        let none = "there is no profile in it: write a line as `profile Solid=31 Piston=1`";
        profile = written.ok_or_else(|| Refused::file(&name, none))?;
    }
    // With no rows the profile is all that can be refused, and here it is known whose fault that is.
    Circuit::new(&profile, []).map_err(|refusal| Refused::file(&name, refusal.to_string()))?;
    Ok(profile)
}

/// The profile of a text that has a line `profile` and no other.
fn profile_of(text: &str) -> Result<Option<Vec<u8>>, redstone_text::Error> {
    let (mut reader, mut is_given) = (TableReader::new(), false);
    for line in lines(text) {
        match line.words().next() {
            None => {}
            Some(word) if word.text == "profile" => {
                reader.read(line)?;
                is_given = true;
            }
            Some(word) => return Err(word.unknown("the line of a profile", &["profile"])),
        }
    }
    // A table without rows has to say so.
    reader.read(lines("blocks=0\n").next().expect("a line"))?;
    Ok(is_given.then_some(reader.table()?.profile))
}

/// A file's name in messages.
fn name(file: &OsStr) -> String {
    if is_standard_input(file) { "standard input".to_owned() } else { file.to_string_lossy().into_owned() }
}

/// Whether a file's name stands for standard input.
pub(crate) fn is_standard_input(file: &OsStr) -> bool {
    file == "-"
}

fn contents(file: &OsStr, name: &str) -> Result<Vec<u8>, Refused> {
    let most = (MOST_TEXT + 1) as u64;
    let mut bytes = Vec::new();
    let read = if is_standard_input(file) {
        io::stdin().lock().take(most).read_to_end(&mut bytes)
    } else {
        File::open(file).and_then(|opened| opened.take(most).read_to_end(&mut bytes))
    };
    read.map_err(|error| Refused::unread(name, unreadable(Path::new(file), &error)))?;
    Ok(bytes)
}

fn unreadable(file: &Path, error: &io::Error) -> String {
    match error.kind() {
        ErrorKind::NotFound => match with_ending(file) {
            Some(other) => format!("there is no such file: did you mean {}?", other.display()),
            None => "there is no such file: look at its name, or begin one with `hall new`".to_owned(),
        },
        ErrorKind::IsADirectory => {
            format!("this is a folder: name files, as in {}", file.join("*.hall").display())
        }
        ErrorKind::PermissionDenied => "it may not be read: see who may with `ls -l`".to_owned(),
        _ => format!("it cannot be read: {error}"),
    }
}

/// The file that has the name with the ending of halls, if there is one.
fn with_ending(file: &Path) -> Option<PathBuf> {
    let mut name = file.as_os_str().to_owned();
    name.push(".hall");
    Some(PathBuf::from(name)).filter(|file| file.is_file())
}

/// A text has no zero byte, and a profile has one at its front.
fn is_packed(bytes: &[u8]) -> bool {
    bytes.contains(&0)
}

fn text<'a>(name: &str, bytes: &'a [u8]) -> Result<&'a str, Refused> {
    if bytes.len() > MOST_TEXT {
        let message =
            format!("the text has more than {MOST_TEXT} bytes: a hall has at most {MOST_ROWS} rows");
        return Err(Refused::file(name, message));
    }
    // Some editors put a mark before a text.
    let bytes = bytes.strip_prefix("\u{feff}".as_bytes()).unwrap_or(bytes);
    str::from_utf8(bytes).map_err(|error| {
        let line = 1 + bytes[..error.valid_up_to()].iter().filter(|byte| **byte == b'\n').count();
        Refused::line(name, line, "the text is not UTF-8, nor is it the packed form: save it as UTF-8")
    })
}
