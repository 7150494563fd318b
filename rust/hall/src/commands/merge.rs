//! `hall merge`: two halls in one.

use std::collections::{BTreeMap, BTreeSet};
use std::fmt::Write as _;
use std::io::Write;

use redstone::{Fault, Kind, MOST_ROWS, Refusal, clashes, merged};
use redstone_text::{position_text, row_text};

use crate::arguments::Arguments;
use crate::command::{BY, Command, Failure, OUT, PROFILE, Status};
use crate::name::{Position, block_name, counted, find};
use crate::output::{deliver, tell_lines};
use crate::switch::Switch;
use crate::written::{hall_text, section};
use crate::{Hall, Refused, input};

pub const COMMAND: Command = Command {
    name: "merge",
    operands: "FIRST SECOND",
    summary: "writes two halls as one, the second moved by an offset",
    help: "\
For halls that are drawn room by room. It writes the rows of both in the text form, those of the second moved. A position
that both have is written once; they are to have the same block there, with the same fields. Both are to have the same
profile, but the bulb's byte may be missing in one.
Switches and expectations are written, too, those of the second moved as its rows are, and a line that both have once. A
block that both set at one tick is to be set alike. Left out are comments, and what is expected of rounds and blocks, since
that is about a whole table. What a room expects by itself may not be so in the whole: see `hall check`.
As with other commands, -o writes over an older file of that name, and over the lines that were added to it by hand: keep
such lines in the rooms, or write the whole to another name.",
    options: &[&BY, &PROFILE, &OUT],
    run,
};

/// The most clashes that are shown one by one.
const SHOWN_CLASHES: usize = 5;

fn run(arguments: &Arguments, out: &mut dyn Write) -> Result<Status, Failure> {
    let (files, file, offset) = (arguments.two_files()?, arguments.option(&OUT), arguments.offset()?);
    let given = arguments.profile()?;
    let [first, second] = files.map(|file| input::read(file, given.as_deref()));
    let (first, second) = (first?, second?);
    deliver(merged_text(&first, &second, offset)?.as_bytes(), file, &files, out)?;
    let of_whole_table =
        |hall: &Hall| hall.expectations.iter().filter(|one| one.position().is_none()).count();
    let what = "left out that expect rounds or blocks: the hall is another now, so write them anew";
    tell_lines(of_whole_table(&first) + of_whole_table(&second), what, out)?;
    Ok(Status::Good)
}

/// The text of both halls, the second moved by an offset.
fn merged_text(first: &Hall, second: &Hall, offset: Position) -> Result<String, Failure> {
    let profile = one_profile(first, second)?;
    let table = merged(first.fresh.table(), second.fresh.table(), offset)
        .map_err(|refusal| Failure::Sentence(sentence(&refusal, first, second, offset)))?;
    hall_text(profile, &table, &sections(first, second, offset)?)
}

/// The profile of both halls. Where one lacks the bulb's byte, it has no bulbs either, and the other's is good for it.
fn one_profile<'a>(first: &'a Hall, second: &'a Hall) -> Result<&'a [u8], Refused> {
    let (one, other) = (first.fresh.profile(), second.fresh.profile());
    match (0..).zip(one.iter().zip(other)).find(|(_, (one, other))| one != other) {
        None if one.len() < other.len() => Ok(other),
        None => Ok(one),
        Some((code, (one, other))) => {
            let (kind, first) = (Kind::try_from(code).map_or("Air", Kind::name), &first.name);
            let message = format!(
                "its profile has {kind}={other}, and that of {first} has {kind}={one}: write the same line `profile` \
                 into both, or give a profile for both with --profile"
            );
            Err(Refused::file(&second.name, message))
        }
    }
}

/// What a refusal of two halls says in terms of their files, and what to do.
fn sentence(refusal: &Refusal, first: &Hall, second: &Hall, offset: Position) -> String {
    let (number, word) = (refusal.number, refusal.kind());
    let (one, other) = (&first.name, &second.name);
    match refusal.fault {
        Fault::FarOffset { .. } => format!("{} {}: {refusal}", BY.name, position_text(offset)),
        Fault::OffGround { second: row, moved, axis, least, most, .. } => {
            let (place, block, moved) =
                (second.place(row), block_name(&second.rows[row]), position_text(moved));
            format!(
                "{place}: refusal {number}, {word}: {block} would come to {moved}, where no block may be: give a \
                 d{axis} from {least} to {most} after {}",
                BY.name
            )
        }
        Fault::Clash(_) => {
            format!("refusal {number}, {word}: {}", clashes_text(first, second, offset))
        }
        Fault::CrowdedTogether { first, second, shared } => format!(
            "refusal {number}, {word}: {one} has {first} rows and {other} {second}, {shared} of them in both, which are \
             {} together: a hall has at most {}, so keep them apart, or take blocks out",
            first + second - shared,
            MOST_ROWS
        ),
        _ => refusal.to_string(),
    }
}

/// The rows of both halls at the positions where they clash.
fn clashes_text(first: &Hall, second: &Hall, offset: Position) -> String {
    let all: Vec<_> = clashes(first.fresh.table(), second.fresh.table(), offset).collect();
    let (one, other, by) = (&first.name, &second.name, position_text(offset));
    let mut text = format!("{one}, and {other} moved by {by}, differ at {}:", counted(all.len(), "position"));
    for clash in all.iter().take(SHOWN_CLASHES) {
        let _ = write!(text, "\n    {}", position_text(clash.position));
        for (hall, row) in [(first, clash.first), (second, clash.second)] {
            let _ = write!(text, "\n        {}: {}", hall.place(row), row_text(&hall.rows[row]));
        }
    }
    if let Some(more) = all.len().checked_sub(SHOWN_CLASHES).filter(|more| *more > 0) {
        let _ = write!(text, "\n    and {more} more");
    }
    text + "\nMake both rows the same, or give another offset after " + BY.name
}

/// The lines with switches and expectations of both halls, but for those about a whole table.
fn sections(first: &Hall, second: &Hall, offset: Position) -> Result<String, Failure> {
    let own = lines(first, &first.switches, [0; 3]);
    let mut others = lines(second, &other_switches(first, second, offset)?, offset);
    let known: BTreeSet<_> = own.iter().collect();
    others.retain(|line| !known.contains(line));
    let title = format!("{}, moved by {}", second.name, position_text(offset));
    Ok(section(&first.name, &own) + &section(&title, &others))
}

/// The lines with these switches, and with what a hall expects of positions, moved by an offset.
fn lines(hall: &Hall, switches: &[Switch], offset: Position) -> Vec<String> {
    let expectations = hall.expectations.iter().filter(|expectation| expectation.position().is_some());
    let expectations = expectations.map(|expectation| expectation.moved(offset).as_line());
    switches.iter().map(Switch::as_line).chain(expectations).collect()
}

/// The switches of the second hall, moved, but for those that the first hall's own lines set as well. A block that one hall
/// sets on and the other off at the same tick is refused.
fn other_switches(first: &Hall, second: &Hall, offset: Position) -> Result<Vec<Switch>, Failure> {
    let mut moved: Vec<_> = second.switches.iter().map(|switch| switch.moved(offset)).collect();
    let (own, others) = (settings(&first.switches), settings(&moved));
    let is_unlike = |switch: &&Switch| own.get(&key(switch)).is_some_and(|on| others[&key(switch)] != *on);
    if let Some(switch) = moved.iter().find(is_unlike) {
        let row = find(&first.rows, switch.position).map(|row| block_name(&first.rows[row]));
        let block = row.unwrap_or_else(|| position_text(switch.position));
        let [one, other] = if own[&key(switch)] { ["on", "off"] } else { ["off", "on"] };
        return Err(Failure::sentence(format!(
            "at tick {} {} sets {block} {one}, and {} sets the same block {other}: take one of the two lines out",
            switch.tick, first.name, second.name
        )));
    }
    moved.retain(|switch| !own.contains_key(&key(switch)));
    Ok(moved)
}

/// What switches set each block to at each tick: the last of a tick counts.
fn settings(switches: &[Switch]) -> BTreeMap<(u32, Position), bool> {
    let mut settings = BTreeMap::new();
    for switch in switches {
        settings.insert(key(switch), switch.on);
    }
    settings
}

/// The tick and the position at which a switch sets.
fn key(switch: &Switch) -> (u32, Position) {
    (switch.tick, switch.position)
}
