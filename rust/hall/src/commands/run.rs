//! `hall run`: the settled levels, and what every device does on the next ticks.

use std::io::Write;

use redstone_text::position_text;

use crate::arguments::Arguments;
use crate::chart::chart;
use crate::command::{Command, Failure, PROFILE, SWITCH, Status, TICKS};
use crate::event::events;
use crate::hint::{Hint, hints};
use crate::name::{block_name, counted};
use crate::run::Run;

pub const COMMAND: Command = Command {
    name: "run",
    operands: "FILE",
    summary: "shows the settled levels and what every device does on the next ticks",
    help: "\
First the settled levels, with the fresh devices: those of tick 0. Then a chart with a line for each repeater, torch,
comparator, lamp and bulb, the same as events in words, and from which tick on nothing changes or a cycle begins.
Lines `switch tick 4 0,1,0 on` of the file do what --switch does. Hints tell where the game is known to differ; they
change no figure.",
    options: &[&TICKS, &SWITCH, &PROFILE],
    run,
};

fn run(arguments: &Arguments, out: &mut dyn Write) -> Result<Status, Failure> {
    let hall = arguments.hall()?;
    let run = arguments.run(&hall)?;
    write_settled(&hall.name, &run, out)?;
    write_ticks(&run, out)?;
    write_hints(&hints(&hall, &run)?, out)?;
    Ok(Status::Good)
}

fn write_settled(name: &str, run: &Run, out: &mut dyn Write) -> Result<(), Failure> {
    let fresh = &run.frames[0];
    let rounds = fresh.settled.rounds().get() as usize;
    writeln!(out, "{name}: {}, settled in {}", counted(run.rows.len(), "block"), counted(rounds, "round"))?;
    writeln!(out, "\nSettled levels, tick 0, with the fresh devices\n")?;
    let positions: Vec<_> = run.rows.iter().map(|row| position_text(row.position())).collect();
    let width = positions.iter().map(String::len).max().unwrap_or(0).max("x,y,z".len());
    writeln!(out, "{:width$}  {:13}  signal  weak  strong", "x,y,z", "kind")?;
    for (number, row) in run.rows.iter().enumerate() {
        let figures = fresh.figures(number);
        let (position, kind) = (&positions[number], row.kind());
        let (signal, weak, strong) = (figures.signal, figures.weak, figures.strong);
        writeln!(out, "{position:width$}  {kind:13}  {signal:6}  {weak:4}  {strong:6}")?;
    }
    Ok(())
}

fn write_ticks(run: &Run, out: &mut dyn Write) -> Result<(), Failure> {
    writeln!(out, "\nTicks 0 to {}\n\n{}", run.last_tick(), chart(run))?;
    writeln!(out, "Events\n")?;
    let events = events(run);
    for event in &events {
        writeln!(out, "tick {}: {event}", event.tick)?;
    }
    if events.is_empty() {
        writeln!(out, "none")?;
    }
    writeln!(out, "\n{run}")?;
    for (row, tick) in &run.candidates {
        let torch = block_name(&run.rows[*row]);
        writeln!(out, "Burn-out candidate: {torch}, from tick {tick} on.")?;
    }
    for switch in &run.later {
        writeln!(out, "Not shown: tick {} switch {switch}; ask for more with --ticks.", switch.tick)?;
    }
    Ok(())
}

fn write_hints(hints: &[Hint], out: &mut dyn Write) -> Result<(), Failure> {
    if !hints.is_empty() {
        writeln!(out, "\nHints: where the game is known to differ, by the numbers of docs/DIFFERENCES.md\n")?;
    }
    for hint in hints {
        writeln!(out, "hint {}: {hint}", hint.number)?;
    }
    Ok(())
}
