//! Change 9, read from document 02 a second time and apart from the proved code: for each dust all rows are asked whether
//! they transmit into it.

use redstone::{ROW_BYTES, Row};

use super::Call;
use crate::compare::{Answer, Answers};
use crate::dust::{Blocks, Pair, is_dust};
use crate::generate::Case;
use crate::lent::fill;
use crate::refusals::{self, Asked, NewRow, Refusal, Test, refuse};
use crate::table;

/// "Twelve 16-bit entries per row".
pub const WIDTH: usize = 12;

pub type Entries = [u16; WIDTH];

/// What stands after the last row number.
pub const NO_ROW: u16 = 65_535;

/// How far away on every axis dust may be whose entries are written afresh.
const NEAR: u32 = 2;

pub type Order = [Test; 10];

const POSITION_BYTES: usize = 12;

/// The tests in their order: those of every call that has a profile and a table, then those of the new row, if there is
/// one, and 7.
pub const ORDER: Order = {
    let [profile, ragged, crowded, bad_row, misplaced, overdriven, _, _, _, column, _] = refusals::ORDER;
    [
        profile,
        ragged,
        crowded,
        bad_row,
        misplaced,
        overdriven,
        Test { number: 4, fault: |asked| at_new_row(asked, |new| is_bad(asked, new)) },
        Test { number: 5, fault: |asked| at_new_row(asked, |new| is_elsewhere(asked, new)) },
        Test { number: 10, fault: |asked| at_new_row(asked, |new| is_overdriven(asked, new)) },
        column,
    ]
};

/// "All with the row as given".
pub fn at_new_row(asked: &Asked, is_at_fault: impl Fn(&NewRow) -> bool) -> Option<usize> {
    asked.new_row.filter(is_at_fault).map(|new| new.row)
}

/// "A bad new row, or one not of 32 bytes".
fn is_bad(asked: &Asked, new: &NewRow) -> bool {
    new.bytes.len() != ROW_BYTES || has_fault(4, asked, new)
}

/// "Another position or no such row".
fn is_elsewhere(asked: &Asked, new: &NewRow) -> bool {
    let old = asked.table.chunks_exact(ROW_BYTES).nth(new.row);
    old.is_none_or(|old| new.bytes.get(..POSITION_BYTES) != old.get(..POSITION_BYTES))
}

fn is_overdriven(asked: &Asked, new: &NewRow) -> bool {
    has_fault(10, asked, new)
}

/// Whether a test of rows finds fault with the new one, as with one in a table.
pub fn has_fault(number: u32, asked: &Asked, new: &NewRow) -> bool {
    let alone = Asked::new(asked.profile, new.bytes);
    refusals::ORDER.iter().any(|test| test.number == number && (test.fault)(&alone).is_some())
}

/// A table that is accepted.
pub struct Table<'a> {
    pub rows: Vec<Row>,
    pub blocks: Blocks<'a>,
}

impl<'a> Table<'a> {
    pub fn new(profile: &'a [u8], table: &[u8]) -> Self {
        let rows = table::rows(table);
        Self { blocks: Blocks::new(profile, rows.iter().copied()), rows }
    }
}

/// A table before a row of it is replaced and after.
pub struct Replaced<'a> {
    pub row: usize,
    pub before: Table<'a>,
    pub after: Table<'a>,
}

/// A way to read Change 9.
#[derive(Clone, Copy)]
pub struct Reading {
    pub order: Order,
    /// The entries of a table's row.
    pub entries: fn(&Table, usize) -> Entries,
    /// Writes a table's list.
    pub build: fn(&Self, &Table, &mut [Entries]),
    /// Writes the list of a table of which a row is replaced.
    pub update: fn(&Self, &Replaced, &mut [Entries]),
    /// Puts the new row in the place of the old one.
    pub put: fn(&mut [u8], &[u8]),
    /// What a call answers that is not refused, on so many rows.
    pub answer: fn(&Call, usize) -> u32,
    /// What a call that is refused so does to the table and to the list.
    pub on_refusal: fn(&Call, Refusal, &mut [u8], &mut [u16]),
}

/// The right one: "table and list are updated: that row's entries and those of dust at most two cells away on every axis
/// are written afresh, all others are left as handed in".
pub const READING: Reading = Reading {
    order: ORDER,
    entries: |table, row| listed(feeders(table, row)),
    build: |reading, table, list| build_where(reading, table, list, |_| true),
    update: |reading, replaced, list| {
        let Replaced { row: replaced, after, .. } = replaced;
        build_where(reading, after, list, |row| is_afresh(&after.rows, *replaced, row));
    },
    put: |place, new_row| fill(place, new_row.iter().copied()),
    answer: |_, rows| rows as u32,
    on_refusal: |_, _, _, _| (),
};

/// "The row numbers of all dust that transmits into it, in rising order".
pub fn feeders(table: &Table, sink: usize) -> Vec<usize> {
    feeders_by(table, sink, |pair| pair.rule().is_some())
}

/// The same by another test of two dust.
pub fn feeders_by(table: &Table, sink: usize, transmits: impl Fn(&Pair) -> bool) -> Vec<usize> {
    let pair = |source: usize| Pair::new(&table.blocks, &table.rows[source], &table.rows[sink]);
    (0..table.rows.len()).filter(|source| pair(*source).is_some_and(|pair| transmits(&pair))).collect()
}

/// "Then 65,535."
pub fn listed(numbers: impl IntoIterator<Item = usize>) -> Entries {
    let mut entries = [NO_ROW; WIDTH];
    fill(&mut entries, numbers.into_iter().map(|row| row as u16));
    entries
}

/// Writes the entries of the rows that are so.
pub fn build_where(reading: &Reading, table: &Table, list: &mut [Entries], is: impl Fn(usize) -> bool) {
    for (row, place) in list.iter_mut().enumerate().take(table.rows.len()).filter(|(row, _)| is(*row)) {
        *place = (reading.entries)(table, row);
    }
}

/// Whether of rows, of which one was replaced, this one's entries are written afresh.
pub fn is_afresh(rows: &[Row], replaced: usize, row: usize) -> bool {
    row == replaced
        || is_dust(&rows[row]) && distances(rows, replaced, row).iter().all(|along| *along <= NEAR)
}

/// How far two rows are apart along each axis.
pub fn distances(rows: &[Row], one: usize, other: usize) -> [u32; 3] {
    let [one, other] = [one, other].map(|row| rows[row].position());
    [0, 1, 2].map(|axis| one[axis].abs_diff(other[axis]))
}

impl Reading {
    /// Writes what a call is to write, and answers as it is to answer.
    fn called(&self, call: &Call, profile: &[u8], table: &mut [u8], list: &mut [u16]) -> u32 {
        if let Err(refusal) = refuse(&self.order, &call.asked(profile, table)) {
            (self.on_refusal)(call, refusal, table, list);
            return refusal.code();
        }
        self.written(call, profile, table, list).unwrap_or(NO_ANSWER)
    }

    /// Nothing where a wrong reading lets pass what is no table.
    fn written(&self, call: &Call, profile: &[u8], table: &mut [u8], list: &mut [u16]) -> Option<u32> {
        let (list, _) = list.as_chunks_mut();
        let before = accepted(profile, table)?;
        let rows = before.rows.len();
        match &call.replacement {
            None => (self.build)(self, &before, list),
            Some(replacement) => {
                let row = usize::from(replacement.row);
                (self.put)(table.chunks_exact_mut(ROW_BYTES).nth(row)?, &replacement.new_row);
                let after = accepted(profile, table)?;
                (self.update)(self, &Replaced { row, before, after }, list);
            }
        }
        Some((self.answer)(call, rows))
    }
}

const NO_ANSWER: u32 = u32::MAX;

fn accepted<'a>(profile: &'a [u8], table: &[u8]) -> Option<Table<'a>> {
    refusals::check(profile, table).is_ok().then(|| Table::new(profile, table))
}

/// A reading, on a case.
pub struct Read<'a> {
    pub case: &'a Case,
    pub reading: Reading,
}

impl<'a> Read<'a> {
    /// The right one.
    pub fn new(case: &'a Case) -> Self {
        Self { case, reading: READING }
    }
}

impl Answers<Call> for Read<'_> {
    fn answer(&self, call: &Call) -> Answer {
        call.called(self.case, |profile, table, _, list| self.reading.called(call, profile, table, list))
    }
}
