//! `hall levels`: a picture of a tick.

use std::io::Write;

use crate::MOST_TICKS;
use crate::arguments::Arguments;
use crate::command::{Command, Failure, PROFILE, SWITCH, Status, TICK};
use crate::name::counted;
use crate::picture::picture;
use crate::run::Frame;

pub const COMMAND: Command = Command {
    name: "levels",
    operands: "FILE",
    summary: "draws the dust levels and the devices, layer by layer",
    help: "\
Each layer is a y, from the lowest on, with North (lower z) up and East (higher x) to the right. Dust is its level as a
hexadecimal digit, other blocks are signs with a legend, and `!` marks what the support list names.",
    options: &[&TICK, &SWITCH, &PROFILE],
    run,
};

fn run(arguments: &Arguments, out: &mut dyn Write) -> Result<Status, Failure> {
    let hall = arguments.hall()?;
    let tick = arguments.number(&TICK, 0..=MOST_TICKS)?.unwrap_or(0);
    let mut course = hall.course()?;
    let circuit = course.move_to(tick)?;
    let (blocks, rounds) = (circuit.len(), circuit.rounds().get() as usize);
    let (blocks, rounds) = (counted(blocks, "block"), counted(rounds, "round"));
    writeln!(out, "{}, tick {tick}: {blocks}, settled in {rounds}\n", hall.name)?;
    let picture = picture(&hall.rows, &Frame::of(circuit, Vec::new()), &circuit.unsupported()?);
    out.write_all(picture.as_bytes())?;
    Ok(Status::Good)
}
