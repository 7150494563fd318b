//! What feeds each dust, in a list beside the table: built afresh, and kept up where a row is replaced. Held to the
//! original's `dust_transmits` of all pairs of rows, and to a second reading of document 02's Change 9.

mod around;
mod faults;
mod generated;
mod lines;
mod misreadings;
mod near;
#[cfg(not(no_original))]
mod original;
mod reading;
mod told;
mod trials;
mod written;

use redstone::{ROW_BYTES, Row};

use crate::compare::{Answer, Answers};
use crate::generate::Case;
use crate::lent::{Lent, unlike_entries};
use crate::probe::{Probe, redstone_feeders, redstone_replace};
use crate::refusals::{Asked, NewRow, Refusal, Written};

pub use around::{every_kind_by_every_kind, stored_arms};
pub use faults::{all_combinations, building, in_every_order};
pub use generated::{edits, edits_of, generated};
pub use lines::full_lines;
pub use misreadings::{MISREADINGS, Misreading};
pub use near::{cubes, every_distance, far_distances};
#[cfg(not(no_original))]
pub use original::by_all_pairs;
pub use reading::{Entries, ORDER, READING, Read, Reading, WIDTH, listed};
pub use told::{Told, tell};
pub use trials::{
    fillings, kind_numbers, list_lengths, new_row_bytes, new_row_lengths, profile_lengths, row_numbers,
    single_bytes,
};
pub use written::{REPLACEMENTS, TABLES, replaced, turned};

/// A call on a case: with a replacement it replaces a row, and without one it builds the list afresh.
#[derive(Clone, Debug)]
pub struct Call {
    pub replacement: Option<Replacement>,
    /// What is lent for the list, as it is before.
    pub list: Vec<u16>,
}

/// The number of a row, and what is put in its place.
#[derive(Clone, Debug)]
pub struct Replacement {
    pub row: u16,
    pub new_row: Vec<u8>,
}

/// Where what is written stands among the buffers of an answer, after the profile.
pub const TABLE: usize = 1;
pub const LIST: usize = 3;

impl Call {
    /// With a list of the right length, which is no table's.
    pub fn build(case: &Case) -> Self {
        Self { replacement: None, list: any_list(case) }
    }

    /// With a list of the right length, which is no table's.
    pub fn replace(case: &Case, row: usize, new_row: &Row) -> Self {
        let replacement = Replacement { row: row as u16, new_row: new_row.bytes().into() };
        Self { replacement: Some(replacement), list: any_list(case) }
    }

    /// What a refusal may fall on.
    fn asked<'a>(&'a self, profile: &'a [u8], table: &'a [u8]) -> Asked<'a> {
        let new_row = |replacement: &'a Replacement| NewRow {
            row: replacement.row.into(),
            bytes: &replacement.new_row,
        };
        Asked {
            new_row: self.replacement.as_ref().map(new_row),
            lent: vec![Written { entries: self.list.len(), width: WIDTH }],
            ..Asked::new(profile, table)
        }
    }

    /// Lends every buffer between guards: the profile, the table, the new row and the list.
    fn called(&self, case: &Case, call: impl FnOnce(&[u8], &mut [u8], &[u8], &mut [u16]) -> u32) -> Answer {
        let new_row = self.replacement.as_ref().map_or(&[][..], |replacement| &replacement.new_row);
        let [mut profile, mut table, mut new_row] = [&case.profile[..], &case.table, new_row].map(Lent::new);
        let mut list = Lent::new(&self.list);
        let number = call(profile.entries(), table.entries(), new_row.entries(), list.entries());
        let [profile, table, new_row] = [profile, table, new_row].map(Lent::returned);
        Answer::with_buffers(number, [profile, table, new_row, list.returned()])
    }
}

fn any_list(case: &Case) -> Vec<u16> {
    unlike_entries(WIDTH * case.rows())
}

impl Answers<Call> for Probe<'_> {
    fn answer(&self, call: &Call) -> Answer {
        call.called(self.0, |profile, table, new_row, list| match &call.replacement {
            Some(replacement) => redstone_replace(profile, table, replacement.row, new_row, list),
            None => redstone_feeders(profile, table, list),
        })
    }
}

/// The case with the table that a call leaves.
pub fn left_by(answer: &Answer, case: &Case) -> Case {
    Case { table: answer.bytes(TABLE), profile: case.profile.clone(), ..*case }
}

/// The place of a row in a table.
fn row_of(table: &mut [u8], row: usize) -> &mut [u8] {
    &mut table[ROW_BYTES * row..][..ROW_BYTES]
}

/// A call, and by hand what it writes or is to be refused with.
#[derive(Clone, Debug)]
pub struct Trial {
    pub case: Case,
    pub call: Call,
    pub answer: Result<List, Refusal>,
}

/// The entries that are written of each row. Of the others they are left as they are handed in.
pub type List = Vec<Option<Entries>>;

impl Trial {
    /// The answer by hand, in every byte of every buffer.
    pub fn expected(&self) -> Answer {
        self.call.called(&self.case, |_, table, new_row, list| match &self.answer {
            Ok(written) => {
                let (places, _) = list.as_chunks_mut();
                for (place, entries) in places.iter_mut().zip(written) {
                    *place = entries.unwrap_or(*place);
                }
                if let Some(replacement) = &self.call.replacement {
                    row_of(table, replacement.row.into()).copy_from_slice(new_row);
                }
                written.len() as u32
            }
            Err(refusal) => refusal.code(),
        })
    }
}
