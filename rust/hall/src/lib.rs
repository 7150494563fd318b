//! What a hall of redstone does, for whoever passes it: the library under the program `hall`.
//!
//! A [`Hall`] is a table that the proved calls accepted, with what its file has beside the rows. A [`Run`] is its
//! figures tick by tick. Everything that is shown, written or compared is taken from these; nothing is computed beside
//! the calls. The commands stand in one table, a module each.

#![deny(unsafe_code)]
#![warn(missing_docs)]

mod arguments;
mod chart;
mod command;
mod commands;
mod course;
mod csv;
mod device;
mod event;
mod expect;
mod grid;
mod hall;
mod hint;
mod html;
mod input;
mod name;
mod output;
mod picture;
mod progress;
mod refused;
mod run;
mod switch;
mod written;

pub use chart::chart;
pub use command::{Status, perform};
pub use course::Course;
pub use csv::write_csv;
pub use device::States;
pub use event::{Event, events};
pub use expect::{Expectation, Met, meet};
pub use grid::{Layer, layers};
pub use hall::Hall;
pub use hint::{Hint, hints};
pub use html::{page, refused_page};
pub use input::{read, read_profile};
pub use output::standard_output;
pub use picture::picture;
pub use refused::Refused;
pub use run::{Frame, Lane, Outlook, Run};
pub use switch::Switch;

/// The ticks that are shown unless more or fewer are asked for.
pub const DEFAULT_TICKS: u32 = 20;
/// The most ticks that are shown one by one.
pub const MOST_SHOWN_TICKS: u32 = 10_000;
/// The last tick that a switch or an expectation may stand at.
pub const MOST_TICKS: u32 = 1_000_000;
