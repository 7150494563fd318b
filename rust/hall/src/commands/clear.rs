//! `hall clear`: what would drop, and the hall without it.

use std::fmt::Write as _;
use std::io::Write;

use redstone::{Cleared, Kind, Row, Shape};
use redstone_text::{position_text, shape_name};

use crate::Hall;
use crate::arguments::Arguments;
use crate::command::{Choice, Command, Failure, PROFILE, Status};
use crate::name::{Position, block_name, counted, find, moved};
use crate::output::{deliver, tell};
use crate::written::{hall_text, section};

pub const COMMAND: Command = Command {
    name: "clear",
    operands: "FILE",
    summary: "lists what would drop, and writes the hall without it",
    help: "\
For halls that miss a part of their floor. Dust, torches, repeaters, comparators and levers need a block at their support=
that supports components; no other block needs one here. The block below is not assumed: without a support= they go,
whatever they stand on, so that an import that gives no support offsets loses all its dust. Those that have none go in
pass 1, those that they held up in pass 2, and so on. Blocks that hold each other up are kept. Each block that goes is
listed with its line and the reason.
With -o the hall that is left is written in the text form, with its switches and expectations. Lines about blocks that go
are left out and listed. So is what is expected of rounds and blocks, since that is about a whole table; but where nothing
goes, it stays. Comments are left out, too. What the file expects of the blocks that are left may not be so without the
others: see `hall check`.
As with other commands, -o writes over an older file of that name.",
    options: &[&PROFILE, &OUT],
    run,
};

/// Where the hall that is left goes.
const OUT: Choice = Choice {
    name: "-o",
    value: "FILE",
    help: "writes the hall that is left to FILE; with - to standard output, and the list to standard error",
    may_repeat: false,
};

fn run(arguments: &Arguments, out: &mut dyn Write) -> Result<Status, Failure> {
    let (hall, file) = (arguments.hall()?, arguments.option(&OUT));
    let cleared = hall.fresh.cleared()?;
    let (kept, gone) = lines(&hall, &cleared);
    if file.is_some() {
        let lines: Vec<_> = kept.into_iter().map(|line| line.text).collect();
        let text = hall_text(hall.fresh.profile(), &cleared.kept, &section(&hall.name, &lines))?;
        deliver(text.as_bytes(), file, &arguments.operands, out)?;
    }
    let list = blocks_text(&hall, &cleared) + &lines_text(&hall, gone);
    if file.is_some_and(|file| file == "-") {
        tell(&list, out)?;
    } else {
        out.write_all(list.as_bytes())?;
    }
    Ok(Status::Good)
}

/// A line with a switch or an expectation.
struct Line {
    number: Option<usize>,
    /// The position that it is about; none where it is about a whole table.
    position: Option<Position>,
    /// As it is read again.
    text: String,
}

/// The lines with switches and expectations: those that are kept, and those that go.
fn lines(hall: &Hall, cleared: &Cleared) -> (Vec<Line>, Vec<Line>) {
    let switches = hall.switches.iter().map(|switch| Line {
        number: switch.line,
        position: Some(switch.position),
        text: switch.as_line(),
    });
    let expectations = hall.expectations.iter().map(|expectation| Line {
        number: Some(expectation.line),
        position: expectation.position(),
        text: expectation.as_line(),
    });
    let nothing_goes = cleared.gone().is_empty();
    let is_kept = |line: &Line| match line.position {
        Some(position) => find(&hall.rows, position).is_some_and(|row| cleared.passes[row] == 0),
        None => nothing_goes,
    };
    switches.chain(expectations).partition(is_kept)
}

/// The blocks that go, pass by pass, each with its line and the reason.
fn blocks_text(hall: &Hall, cleared: &Cleared) -> String {
    let (all, gone) = (hall.rows.len(), cleared.gone());
    let head = format!("{}: {}", hall.name, counted(all, "block"));
    let Some(&(_, last)) = gone.last() else {
        return format!("{head}, nothing would drop\n");
    };
    let (passes, kept) = (counted(last.into(), "pass"), all - gone.len());
    let mut text = format!("{head}, {} would drop, in {passes}; {kept} kept\n", gone.len());
    let mut before = 0;
    for (row, pass) in gone {
        if pass != before {
            let _ = writeln!(text, "pass {pass}");
            before = pass;
        }
        let (place, block) = (hall.place(row), block_name(&hall.rows[row]));
        let _ = writeln!(text, "    {place}: {block}: {}", reason(hall, row, pass));
    }
    text
}

/// Why a row goes in a pass. After the first it can only be that its support went in the one before.
fn reason(hall: &Hall, row: usize, pass: u16) -> String {
    let row = &hall.rows[row];
    let Some(step) = row.support() else {
        return format!("it has no support field: write {}", support_to_write(row));
    };
    let position = moved(row.position(), step.map(i32::from));
    let Some(support) = find(&hall.rows, position).map(|support| &hall.rows[support]) else {
        return format!("nothing stands at its support, {}", position_text(position));
    };
    let (name, shape) = (block_name(support), support.shape());
    match pass {
        1 if shape == Shape::Plain => {
            format!("its support, {name}, does not support components by the profile")
        }
        1 => format!("its support, {name} in the shape {}, does not support components", shape_name(shape)),
        later => format!("its support, {name}, goes in pass {}", later - 1),
    }
}

/// Torches and levers may be fixed to a side of a block, and all else to the one below alone.
fn support_to_write(row: &Row) -> &'static str {
    match row.kind() {
        Kind::RedstoneTorch | Kind::Lever => {
            "support= and the step to the block that it is fixed to, 0,-1,0 if that is the one below"
        }
        _ => "support=0,-1,0 if it rests on the block below",
    }
}

/// The lines that go, in the order of the file.
fn lines_text(hall: &Hall, mut gone: Vec<Line>) -> String {
    if gone.is_empty() {
        return String::new();
    }
    gone.sort_by_key(|line| line.number);
    let mut text = "lines that go with them\n".to_owned();
    for line in gone {
        let _ = writeln!(text, "    {}: {}", hall.place_of_line(line.number), line.text);
    }
    text
}
