//! `hall feeders`: what dust feeds a dust, from where, and by which rule.

use std::fmt::Write as _;
use std::io::Write;

use redstone::{DustTransfer, Facing, Feeder, Kind, Row};
use redstone_text::position_text;

use crate::arguments::Arguments;
use crate::command::{Command, Failure, PROFILE, Status};
use crate::name::{Position, block_name, find, moved, step};
use crate::{Hall, Refused};

pub const COMMAND: Command = Command {
    name: "feeders",
    operands: "FILE x,y,z",
    summary: "lists what dust feeds the dust at x,y,z, from where, and by which rule",
    help: "\
Dust feeds dust at its four sides, at the same height, one higher or one lower. All dust that feeds the one at x,y,z is
listed, each with its line, the side on which it lies, and the rule:
    Horizontal            at the same height, by the arms that both have to each other
    Rise                  from one lower, by the arm of the lower dust to the block on which the higher one lies
    FallThroughConductor  from one higher, by the same arm, if strong power of that block drives dust
The arms are those of the file, and where it has none those that dust finds itself. Whether what is listed has power does
not matter: see `hall levels`. Levers, torches and other blocks that may power the dust are not listed.",
    options: &[&PROFILE],
    run,
};

fn run(arguments: &Arguments, out: &mut dyn Write) -> Result<Status, Failure> {
    let (file, position) = arguments.file_and_position()?;
    let hall = arguments.hall_in(file)?;
    let feeders = hall.fresh.feeders_of(position)?.ok_or_else(|| no_dust(&hall, position))?;
    out.write_all(list(&hall, position, &feeders).as_bytes())?;
    Ok(Status::Good)
}

/// What feeds the dust at a position, a line for each.
fn list(hall: &Hall, position: Position, feeders: &[Feeder]) -> String {
    let (name, dust) = (&hall.name, block_at(hall, position));
    if feeders.is_empty() {
        return format!(
            "{name}: no dust feeds {dust} (levers, torches and other blocks that may power it are not listed)\n"
        );
    }
    let mut text = format!("{name}: {dust} is fed by {} dust\n", feeders.len());
    for feeder in feeders {
        let (place, source) = (hall.place(feeder.number), block_at(hall, feeder.position));
        let (from, rule) = (direction(position, feeder), rule(hall, position, feeder));
        let _ = writeln!(text, "    {place}: {source}, {from}: {rule}");
    }
    text
}

/// Where a feeder lies, seen from the dust at a position.
fn direction([x, _, z]: Position, feeder: &Feeder) -> String {
    let [from_x, _, from_z] = feeder.position;
    let towards = [from_x - x, 0, from_z - z];
    let side = Facing::ALL.iter().find(|facing| step(**facing) == towards);
    let side = side.expect("a feeder lies at one of the four sides");
    let height = match feeder.transfer {
        DustTransfer::Horizontal => "",
        DustTransfer::Rise => " and one lower",
        DustTransfer::FallThroughConductor => " and one higher",
    };
    format!("to the {side}{height}")
}

/// The rule by which a feeder transmits into the dust at a position.
fn rule(hall: &Hall, position: Position, feeder: &Feeder) -> String {
    let dust = block_at(hall, position);
    let below = |position| block_at(hall, moved(position, step(Facing::Down)));
    let how = match feeder.transfer {
        DustTransfer::Horizontal => "by the arms that both have to each other".to_owned(),
        DustTransfer::Rise => format!("by its arm to {}, on which {dust} lies", below(position)),
        DustTransfer::FallThroughConductor => {
            format!("through {} below it, to which {dust} has an arm", below(feeder.position))
        }
    };
    format!("{}, {how}", feeder.transfer)
}

/// What stands at a position.
fn block_at(hall: &Hall, position: Position) -> String {
    let row = find(&hall.rows, position).map(|row| block_name(&hall.rows[row]));
    row.unwrap_or_else(|| format!("nothing at {}", position_text(position)))
}

/// Why nothing can be listed of a position where no dust is, and where there is some.
fn no_dust(hall: &Hall, position: Position) -> Refused {
    let what = match find(&hall.rows, position) {
        Some(row) => format!("{} is no dust", block_name(&hall.rows[row])),
        None => format!("nothing stands at {}", position_text(position)),
    };
    let elsewhere = match nearest_dust(hall, position) {
        Some(dust) => format!(": the nearest is {}", block_name(dust)),
        None => ", and there is no dust in the hall".to_owned(),
    };
    Refused::file(&hall.name, what + &elsewhere)
}

/// The dust with the fewest cells to a position, along the axes.
fn nearest_dust(hall: &Hall, position: Position) -> Option<&Row> {
    let dust = hall.rows.iter().filter(|row| row.kind() == Kind::RedstoneWire);
    dust.min_by_key(|row| (0..3).map(|axis| row.position()[axis].abs_diff(position[axis])).sum::<u32>())
}
