//! `hall stream`: many halls as the program `month` reads them.

use std::io::Write;

use redstone::{Kind, PROFILE_BYTES};

use crate::arguments::Arguments;
use crate::command::{Command, Failure, OUT, PROFILE, Status};
use crate::name::block_name;
use crate::output::{deliver, refuse_terminal, tell_left_out};
use crate::{Hall, Refused, input};

pub const COMMAND: Command = Command {
    name: "stream",
    operands: "FILES..",
    summary: "writes halls one after the other, as `month` reads them",
    help: "\
A stream is the profile's 13 bytes, and then each hall's table in the order given, led by its number of rows in four bytes,
low byte first. So all of them are to have the same profile, and none may have bulbs, whose byte would be a fourteenth. It
has no place for switches and expectations: they stay behind in the text.",
    options: &[&PROFILE, &OUT],
    run,
};

fn run(arguments: &Arguments, out: &mut dyn Write) -> Result<Status, Failure> {
    let (files, file) = (arguments.files()?, arguments.option(&OUT));
    let profile = arguments.profile()?;
    let halls: Vec<_> =
        files.iter().map(|file| input::read(file, profile.as_deref())).collect::<Result<_, _>>()?;
    refuse_terminal(file, "bytes are", "month.bin")?;
    deliver(&stream(&halls)?, file, files, out)?;
    tell_left_out(&halls, "a stream has no place for them", out)?;
    Ok(Status::Good)
}

/// The bytes of halls, of which there is one at least. The bulb's byte of their profiles, if they have it, is left out.
fn stream(halls: &[Hall]) -> Result<Vec<u8>, Refused> {
    let first = &halls[0];
    let mut bytes = first.fresh.profile()[..PROFILE_BYTES].to_vec();
    for Hall { name, fresh, rows, .. } in halls {
        if let Some(bulb) = rows.iter().find(|row| row.kind() == Kind::CopperBulb) {
            let bulb = block_name(bulb);
            let message = format!("{bulb} is in it, and `month` takes no bulbs: leave this hall out");
            return Err(Refused::file(name, message));
        }
        if !fresh.profile().starts_with(&bytes[..PROFILE_BYTES]) {
            let message = format!(
                "its profile is not that of {}, and a stream has one: leave it out, or give a profile for all with \
                 --profile",
                first.name
            );
            return Err(Refused::file(name, message));
        }
        bytes.extend((fresh.len() as u32).to_le_bytes());
        bytes.extend(fresh.table());
    }
    Ok(bytes)
}
