//! `hall csv`: every figure of every tick, for spreadsheets.

use std::io::Write;

use crate::arguments::Arguments;
use crate::command::{Command, Failure, OUT, PROFILE, SWITCH, Status, TICKS};
use crate::csv::write_csv;
use crate::output::deliver;

pub const COMMAND: Command = Command {
    name: "csv",
    operands: "FILE",
    summary: "writes every figure of every tick as comma-separated values",
    help: "\
One line for each tick and row: the tick, x, y, z, the kind; signal, weak and strong power; and of the state the device
byte, a repeater's queue, whether a lamp or bulb is lit, a lamp's ticks left, whether a torch is a candidate for burning
out, and whether a bulb had power after the last tick.",
    options: &[&TICKS, &SWITCH, &PROFILE, &OUT],
    run,
};

fn run(arguments: &Arguments, out: &mut dyn Write) -> Result<Status, Failure> {
    let run = arguments.run(&arguments.hall()?)?;
    let mut bytes = Vec::new();
    write_csv(&run, &mut bytes)?;
    deliver(&bytes, arguments.option(&OUT), &arguments.operands, out)?;
    Ok(Status::Good)
}
