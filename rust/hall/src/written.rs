//! A hall in the text form, as commands write it that make one of others.

use redstone::rows;
use redstone_text::Table;

use crate::command::Failure;

/// The text of a table that a call wrote, under a profile, and after it sections of other lines.
pub(crate) fn hall_text(profile: &[u8], table: &[u8], sections: &str) -> Result<String, Failure> {
    let rows = rows(table).map_err(|fault| Failure::sentence(fault.to_string()))?;
    Ok(format!("{}{sections}", Table { profile: profile.to_vec(), rows }))
}

/// Lines under a comment, after an empty line; nothing where there are none.
pub(crate) fn section(title: &str, lines: &[String]) -> String {
    if lines.is_empty() {
        return String::new();
    }
    // A file's name may have a line's end in it.
    format!("\n# {}\n{}\n", title.replace(char::is_control, "?"), lines.join("\n"))
}
