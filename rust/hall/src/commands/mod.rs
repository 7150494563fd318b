//! The commands, one module each.

use crate::command::Command;

mod check;
mod clear;
mod csv;
mod feeders;
mod levels;
mod merge;
mod new;
mod pack;
mod report;
mod run;
mod stream;
mod unpack;

/// All commands, in the order in which `--help` lists them. A new one is a module and a line here.
pub const COMMANDS: &[&Command] = &[
    &new::COMMAND,
    &run::COMMAND,
    &levels::COMMAND,
    &feeders::COMMAND,
    &check::COMMAND,
    &report::COMMAND,
    &csv::COMMAND,
    &pack::COMMAND,
    &unpack::COMMAND,
    &merge::COMMAND,
    &clear::COMMAND,
    &stream::COMMAND,
];
