//! The program `month` on streams of equal tables, and the original in a loop over them.

use std::ffi::OsStr;

use differential::generate::Case;
use differential::month::{Ended, Figures, Month, stream};
use differential::oracle::Oracle;
use differential::program::run;

use crate::calls::lines;
use crate::timing::{Medians, medians};

/// The tables, and how many of each make a stream.
pub fn streams() -> impl Iterator<Item = (Case, usize)> {
    lines().into_iter().zip([2_000, 50])
}

/// The same, with more of the larger table, for programs alone.
pub fn long_streams() -> impl Iterator<Item = (Case, usize)> {
    lines().into_iter().zip([10_000, 1_000])
}

/// What the original makes of a table that is given so many times.
fn by_the_original(oracle: &Oracle, tables: usize) -> String {
    let mut figures = Figures::default();
    for _ in 0..tables {
        figures.add(&Figures::of_accepted(oracle), 1);
    }
    Month { figures, ended: Ended::Whole }.to_string()
}

fn by_the_program(program: &OsStr, stream: &[u8]) -> String {
    run(program, stream).unwrap_or_else(|error| panic!("`month` could not be run: {error}")).output
}

fn stream_of(case: &Case, tables: usize) -> Vec<u8> {
    stream(&case.profile, vec![&case.table; tables])
}

pub fn assert_sides_agree(program: &OsStr, case: &Case, tables: usize) {
    let written = by_the_program(program, &stream_of(case, tables));
    assert_eq!(written, by_the_original(&Oracle::new(case), tables), "{tables} of {}", case.sort);
}

/// The medians of whole streams.
pub fn medians_of_streams(program: &OsStr, case: &Case, tables: usize) -> Medians {
    let (oracle, stream) = (Oracle::new(case), stream_of(case, tables));
    medians(|| (), |()| by_the_original(&oracle, tables), || by_the_program(program, &stream))
}

/// The medians of whole streams by two programs, which are to write the same.
pub fn medians_of_programs(before: &OsStr, now: &OsStr, case: &Case, tables: usize) -> Medians {
    let stream = stream_of(case, tables);
    assert_eq!(by_the_program(before, &stream), by_the_program(now, &stream), "{tables} of {}", case.sort);
    medians(|| (), |()| by_the_program(before, &stream), || by_the_program(now, &stream))
}

#[cfg(test)]
mod tests {
    use differential::program::find;

    #[test]
    fn the_sides_agree_on_what_is_timed() {
        let program = find("month").unwrap_or_else(|sentence| panic!("{sentence}"));
        super::streams().for_each(|(case, _)| super::assert_sides_agree(&program, &case, 3));
    }
}
