//! A run as comma-separated values, for spreadsheets.

use std::io::{self, Write};

use crate::run::Run;

/// The first line.
const HEAD: &str = "tick,x,y,z,kind,signal,weak,strong,device,queue,lamp_lit,ticks_left,candidate,had_power";

/// Writes a line for each tick and row: the tick, the row's position and kind, its figures, and the bytes 0 to 3, 8 and 9
/// of its state.
///
/// # Errors
///
/// It cannot be written.
pub fn write_csv(run: &Run, out: &mut dyn Write) -> io::Result<()> {
    writeln!(out, "{HEAD}")?;
    for (tick, frame) in run.ticks() {
        for (number, row) in run.rows.iter().enumerate() {
            let ([x, y, z], kind, figures) = (row.position(), row.kind(), frame.figures(number));
            write!(out, "{tick},{x},{y},{z},{kind},{},{},{}", figures.signal, figures.weak, figures.strong)?;
            let state = frame.devices[number].bytes();
            writeln!(out, ",{},{},{},{},{},{}", state[0], state[1], state[2], state[3], state[8], state[9])?;
        }
    }
    Ok(())
}
