//! The program `hall`, as it is called.

mod check;
mod clear;
mod feeders;
mod generated;
mod hints;
mod merge;
mod output;
mod page;
mod readme;
mod refusals;
mod samples;
mod stored;
mod stream;
mod support;
mod text;
mod words;
