//! Change 7, read from document 02 a second time and apart from the proved code: what holds what, and from there the rows
//! that fall, each with those that it holds.

use std::collections::BTreeMap;
use std::iter::successors;

use redstone::{Kind, ROW_BYTES, Row, Shape};

use super::Clear;
use crate::compare::{Answer, Answers};
use crate::generate::Case;
use crate::lent::fill;
use crate::refusals::{self, Test, refuse};
use crate::table::{self, Position, moved};

/// What holds a row.
#[derive(Clone, Copy, Debug, Eq, PartialEq)]
pub enum Hold {
    /// It needs no support.
    NotNeeded,
    /// Its support is missing or does not support components.
    Nothing,
    /// The row of this number, which may be its own.
    Row(usize),
}

/// What is made of a table: its rows, and the pass in which each goes, or 0.
pub struct Cleared<'a> {
    pub rows: &'a [[u8; ROW_BYTES]],
    pub passes: Vec<u16>,
}

impl<'a> Cleared<'a> {
    /// The rows that are kept.
    pub fn kept(&self) -> impl Iterator<Item = &'a [u8; ROW_BYTES]> {
        self.rows.iter().zip(&self.passes).filter(|(_, pass)| **pass == 0).map(|(row, _)| row)
    }
}

pub type Order = [Test; 7];

/// The tests in their order: those of every call that has a profile and a table, and after them "a wrong length is 7".
pub const ORDER: Order = {
    let [profile, ragged, crowded, bad_row, misplaced, overdriven, _, _, _, column, _] = refusals::ORDER;
    [profile, ragged, crowded, bad_row, misplaced, overdriven, column]
};

/// A way to read Change 7.
#[derive(Clone, Copy)]
pub struct Reading {
    pub needs_support: fn(&Row) -> bool,
    /// Where the support of a row is.
    pub support: fn(&Row) -> Option<Position>,
    /// Whether by a profile a row, the first, holds another that has it for its support.
    pub supports: fn(&[u8], &Row, &Row) -> bool,
    /// The pass in which each row goes.
    pub passes: fn(&[Hold]) -> Vec<u16>,
    pub order: Order,
    /// Writes to both buffers and answers.
    pub write: fn(&Cleared, &mut [u8], &mut [u16]) -> u32,
    /// What a refused call does to them.
    pub on_refusal: fn(&mut [u8], &mut [u16]),
}

/// The right one: "A tool removes every row named by the support list, looks again, and repeats until none is named. It
/// writes the kept rows to another table of the same length, leaving the rest of it untouched. It also writes, per input
/// row, the pass from 1 in which it went, or 0, in 16 bits. The answer is the number kept."
pub const READING: Reading =
    Reading { needs_support, support, supports, passes: falling, order: ORDER, write, on_refusal: |_, _| () };

/// Document 01: "`support_issues` lists, in row order, dust, torches, repeaters, comparators and levers".
pub fn needs_support(row: &Row) -> bool {
    matches!(
        row.kind(),
        Kind::RedstoneWire | Kind::RedstoneTorch | Kind::Repeater | Kind::Comparator | Kind::Lever
    )
}

pub fn support(row: &Row) -> Option<Position> {
    row.support().map(|step| moved(row.position(), step.map(i32::from)))
}

/// Document 01: "Plain traits come from the profile", 1 for "supports components". "Other shapes replace all of them".
pub fn supports(profile: &[u8], holder: &Row, _held: &Row) -> bool {
    match holder.shape() {
        Shape::Plain => profile[usize::from(holder.kind().code())] & 1 != 0,
        Shape::TopSlab | Shape::TopStairs | Shape::DoubleSlab | Shape::Glass => true,
        Shape::BottomSlab | Shape::BottomStairs => false,
    }
}

/// What nothing holds goes in the first pass, and in the pass after a row what that row held.
pub fn falling(holds: &[Hold]) -> Vec<u16> {
    let mut passes = vec![0; holds.len()];
    let mut going = rows_that(holds, |hold| hold == Hold::Nothing);
    let mut held_by = vec![Vec::new(); holds.len()];
    for (row, hold) in holds.iter().enumerate() {
        if let Hold::Row(holder) = hold {
            held_by[*holder].push(row);
        }
    }
    let mut pass = 0;
    while !going.is_empty() {
        pass += 1;
        going.iter().for_each(|row| passes[*row] = pass);
        going = going.iter().flat_map(|row| held_by[*row].iter().copied()).collect();
    }
    passes
}

/// The numbers of the rows that are held so.
pub fn rows_that(holds: &[Hold], is_held_so: impl Fn(Hold) -> bool) -> Vec<usize> {
    (0..holds.len()).filter(|row| is_held_so(holds[*row])).collect()
}

/// The rows that a row rests on, from the one that holds it on, as many as there are rows.
pub fn resting_on(holds: &[Hold], row: usize) -> impl Iterator<Item = usize> {
    let holder = |row: usize| match holds[row] {
        Hold::Row(holder) => Some(holder),
        Hold::NotNeeded | Hold::Nothing => None,
    };
    successors(holder(row), move |row| holder(*row)).take(holds.len())
}

/// The size of the ring that a row is of.
pub fn ring(holds: &[Hold], row: usize) -> Option<usize> {
    resting_on(holds, row).position(|lower| lower == row).map(|steps| steps + 1)
}

pub fn write(cleared: &Cleared, kept: &mut [u8], passes: &mut [u16]) -> u32 {
    fill(kept, cleared.kept().flatten().copied());
    fill(passes, cleared.passes.iter().copied());
    cleared.kept().count() as u32
}

impl Reading {
    /// What holds each of these rows, which are a table's.
    pub fn holds(&self, profile: &[u8], rows: &[Row]) -> Vec<Hold> {
        let numbers: BTreeMap<_, _> = rows.iter().map(Row::position).zip(0..).collect();
        let hold = |row: &Row| {
            if !(self.needs_support)(row) {
                return Hold::NotNeeded;
            }
            let holder = (self.support)(row).and_then(|at| numbers.get(&at).copied());
            let holder = holder.filter(|holder| (self.supports)(profile, &rows[*holder], row));
            holder.map_or(Hold::Nothing, Hold::Row)
        };
        rows.iter().map(hold).collect()
    }

    /// Writes what a call is to write, and answers as it is to answer.
    fn called(&self, case: &Case, clear: &Clear, kept: &mut [u8], passes: &mut [u16]) -> u32 {
        if let Err(refusal) = refuse(&self.order, &clear.asked(case)) {
            (self.on_refusal)(kept, passes);
            return refusal.code();
        }
        // A wrong reading may let any bytes pass.
        let Ok(decoded) = redstone::rows(&case.table) else { return u32::MAX };
        let (rows, _) = case.table.as_chunks();
        let holds = self.holds(&case.profile, &decoded);
        (self.write)(&Cleared { rows, passes: (self.passes)(&holds) }, kept, passes)
    }
}

/// A reading, on a case.
pub struct Read<'a> {
    pub case: &'a Case,
    pub reading: Reading,
}

impl<'a> Read<'a> {
    /// The right one.
    pub fn new(case: &'a Case) -> Self {
        Self { case, reading: READING }
    }

    /// What holds each row of an accepted case.
    pub fn holds(&self) -> Vec<Hold> {
        self.reading.holds(&self.case.profile, &table::rows(&self.case.table))
    }
}

impl Answers<Clear> for Read<'_> {
    fn answer(&self, clear: &Clear) -> Answer {
        clear.called(self.case, |_, _, kept, passes| self.reading.called(self.case, clear, kept, passes))
    }
}

/// "The largest set of rows in which every row that needs support has it", a bit for each row: of all sets, the one that
/// has all others in it.
pub fn largest_set(holds: &[Hold]) -> Option<u32> {
    let has = |set: u32, row: usize| set >> row & 1 == 1;
    let is_held = |set: u32, hold: Hold| match hold {
        Hold::NotNeeded => true,
        Hold::Nothing => false,
        Hold::Row(holder) => has(set, holder),
    };
    let sets = (0..1 << holds.len())
        .filter(|set| (0..holds.len()).all(|row| !has(*set, row) || is_held(*set, holds[row])));
    let sets: Vec<u32> = sets.collect();
    sets.iter().copied().find(|largest| sets.iter().all(|set| set & !largest == 0))
}
