//! `hall pack`: from text to bytes.

use std::io::Write;
use std::slice;

use crate::arguments::Arguments;
use crate::command::{Command, Failure, OUT, PROFILE, Status};
use crate::output::{deliver, refuse_terminal, tell_left_out};

pub const COMMAND: Command = Command {
    name: "pack",
    operands: "FILE",
    summary: "writes a hall in the packed form, which `settle` and the editor read",
    help: "\
The packed form is the profile's bytes, 13 or with the bulb's 14, and 32 for each row. It has no place for switches and
expectations: they stay behind in the text.",
    options: &[&PROFILE, &OUT],
    run,
};

fn run(arguments: &Arguments, out: &mut dyn Write) -> Result<Status, Failure> {
    let (hall, file) = (arguments.hall()?, arguments.option(&OUT));
    refuse_terminal(file, "bytes are", "hall.bin")?;
    deliver(&[hall.fresh.profile(), hall.fresh.table()].concat(), file, &arguments.operands, out)?;
    tell_left_out(slice::from_ref(&hall), "the packed form has no place for them", out)?;
    Ok(Status::Good)
}
