//! `hall report`: a page of a hall.

use std::io::Write;

use crate::arguments::Arguments;
use crate::command::{Command, Failure, OUT, PROFILE, SWITCH, Status, TICKS};
use crate::expect::meet;
use crate::html::{page, refused_page};
use crate::output::{deliver, refuse_terminal};

pub const COMMAND: Command = Command {
    name: "report",
    operands: "FILE",
    summary: "writes a page with pictures, charts and events, to read and to print",
    help: "\
The page is one file and needs no other and no script. It shows what is expected beside what is given, and so ends with
the status of `hall check`. Of a file that is refused it gives the reason; of one that cannot be read\nno page is written, and an older one stays.",
    options: &[&OUT, &TICKS, &SWITCH, &PROFILE],
    run,
};

fn run(arguments: &Arguments, out: &mut dyn Write) -> Result<Status, Failure> {
    let (inputs, file) = ([arguments.file()?], arguments.option(&OUT));
    refuse_terminal(file, "a page is", "hall.html")?;
    let hall = match arguments.hall() {
        Err(Failure::Refused(refused)) if refused.is_read => {
            deliver(refused_page(&refused).as_bytes(), file, &inputs, out)?;
            return Err(refused.into());
        }
        other => other?,
    };
    let run = arguments.run(&hall)?;
    let met = meet(&hall, &run)?;
    deliver(page(&hall, &run, &met)?.as_bytes(), file, &inputs, out)?;
    Ok(if met.iter().all(|met| met.is_met) { Status::Good } else { Status::Differs })
}
