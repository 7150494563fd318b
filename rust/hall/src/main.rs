//! The program `hall`.

#![deny(unsafe_code)]

#[allow(unsafe_code)]
mod before_main;

use std::io::{self, ErrorKind, Write};
use std::process::ExitCode;

use hall::{Status, perform, standard_output};

fn main() -> ExitCode {
    let out = if before_main::was_standard_output_open() {
        standard_output()
    } else {
        Err(io::Error::new(ErrorKind::NotConnected, "it is closed"))
    };
    let status = match out {
        Ok(mut out) => perform(std::env::args_os().skip(1), &mut out, &mut io::stderr()),
        Err(error) => {
            // Nobody is left to tell of another failure.
            let _ = writeln!(io::stderr(), "hall: standard output cannot be written: {error}.");
            Status::Refused
        }
    };
    ExitCode::from(status as u8)
}
