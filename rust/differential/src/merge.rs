//! Two tables in one, held to a second reading of document 02's Change 6.

mod faults;
mod generated;
mod misreadings;
mod reading;
mod trials;

use std::fmt::{self, Display, Formatter};

use crate::compare::{Answer, Answers};
use crate::generate::row_lines;
use crate::lent::{Entry, Lent};
use crate::probe::redstone_merge;
use crate::refusals::Refusal;
use crate::table::Position;

pub use faults::{Arrangement, all_combinations, of_rows};
pub use generated::{Generated, generated};
pub use misreadings::{MISREADINGS, Misreading};
pub use reading::{ORDER, OUT_BYTES, READING, Reading};
pub use trials::{
    Layout, clashes, empty_tables, ends, far_offsets, fillings, given_off_ground, most_rows, of_counts,
    offsets, out_lengths, single_bytes, small_pairs,
};

/// A call.
#[derive(Clone, Debug)]
pub struct Merge {
    pub first: Vec<u8>,
    pub second: Vec<u8>,
    pub offset: Position,
    pub out: Out,
}

/// What is lent to be written: so many bytes, each of which has this value before.
#[derive(Clone, Copy, Debug)]
pub struct Out {
    pub bytes: usize,
    pub filling: u8,
}

/// Where the output stands among the buffers of an answer, after both tables.
pub const OUT: usize = 2;

impl Merge {
    /// With as many bytes to be written as there should be.
    pub fn new(first: impl Into<Vec<u8>>, second: impl Into<Vec<u8>>, offset: Position) -> Self {
        let out = Out { bytes: OUT_BYTES, filling: u8::UNTOUCHED };
        Self { first: first.into(), second: second.into(), offset, out }
    }

    fn lent(&self) -> [Lent<u8>; 3] {
        let out = vec![self.out.filling; self.out.bytes];
        [&self.first, &self.second, &out].map(|bytes| Lent::new(bytes))
    }
}

impl Display for Merge {
    fn fmt(&self, f: &mut Formatter<'_>) -> fmt::Result {
        writeln!(f, "offset {:?}, {:?}", self.offset, self.out)?;
        write!(f, "the first table\n{}", row_lines(&self.first))?;
        write!(f, "the second table\n{}", row_lines(&self.second))
    }
}

/// The proved call.
pub struct Proved;

impl Answers<Merge> for Proved {
    fn answer(&self, merge: &Merge) -> Answer {
        let mut lent = merge.lent();
        let [first, second, out] = lent.each_mut().map(Lent::entries);
        let [dx, dy, dz] = merge.offset;
        let number = redstone_merge(first, second, dx, dy, dz, out);
        Answer::with_buffers(number, lent.map(Lent::returned))
    }
}

impl Answers<Merge> for Reading {
    fn answer(&self, merge: &Merge) -> Answer {
        let mut lent = merge.lent();
        let number = self.called(merge, lent[OUT].entries());
        Answer::with_buffers(number, lent.map(Lent::returned))
    }
}

/// A call, and the rows of its result or what it is to be refused with, by hand.
#[derive(Clone, Debug)]
pub struct Trial {
    pub merge: Merge,
    pub answer: Result<usize, Refusal>,
}

impl Trial {
    /// The number with which it is to answer.
    pub fn number(&self) -> u32 {
        self.answer.map_or_else(Refusal::code, |rows| rows as u32)
    }
}
