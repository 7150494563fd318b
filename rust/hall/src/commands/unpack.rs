//! `hall unpack`: from bytes to text.

use std::io::Write;
use std::slice;

use redstone_text::Table;

use crate::arguments::Arguments;
use crate::command::{Command, Failure, OUT, PROFILE, Status};
use crate::output::{deliver, tell_left_out};

pub const COMMAND: Command = Command {
    name: "unpack",
    operands: "FILE",
    summary: "writes a hall in the text form",
    help: "\
One line for each row, in the table's order, and before them `blocks=` and, where it is not the bench profile with the
bulb's byte, `profile`. Packed again it gives the same bytes. Of a hall that is a text already, it leaves out comments,
switches and expectations.",
    options: &[&PROFILE, &OUT],
    run,
};

fn run(arguments: &Arguments, out: &mut dyn Write) -> Result<Status, Failure> {
    let hall = arguments.hall()?;
    let text = Table { profile: hall.fresh.profile().to_vec(), rows: hall.rows.clone() }.to_string();
    deliver(text.as_bytes(), arguments.option(&OUT), &arguments.operands, out)?;
    tell_left_out(slice::from_ref(&hall), "the rows alone are written", out)?;
    Ok(Status::Good)
}
