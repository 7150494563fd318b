//! The original's side: its `dust_transmits` of every pair of rows. Which rows are written afresh it does not know, and has
//! from the second reading.

use original::wire::dust_transmits;

use super::reading::{Entries, ORDER, is_afresh, listed};
use super::{Call, Replacement, row_of};
use crate::compare::{Answer, Answers};
use crate::generate::Case;
use crate::oracle::{Oracle, pos};
use crate::refusals::refuse;

impl Answers<Call> for Oracle<'_> {
    fn answer(&self, call: &Call) -> Answer {
        call.called(self.case, |profile, table, new_row, list| {
            if let Err(refusal) = refuse(&ORDER, &call.asked(profile, table)) {
                return refusal.code();
            }
            let (list, _) = list.as_chunks_mut();
            match &call.replacement {
                None => list.copy_from_slice(&by_all_pairs(self)),
                Some(Replacement { row, .. }) => {
                    let row = usize::from(*row);
                    row_of(table, row).copy_from_slice(new_row);
                    update(&Case::of_bytes(profile, table), row, list);
                }
            }
            list.len() as u32
        })
    }
}

/// Writes the list of a case of which a row was replaced.
fn update(case: &Case, replaced: usize, list: &mut [Entries]) {
    let oracle = Oracle::new(case);
    let is_written = |(row, _): &(usize, &mut Entries)| is_afresh(&oracle.rows, replaced, *row);
    for (row, entries) in list.iter_mut().enumerate().filter(is_written) {
        *entries = of_all_rows(&oracle, row);
    }
}

/// The list, by asking of every two rows.
pub fn by_all_pairs(oracle: &Oracle) -> Vec<Entries> {
    (0..oracle.rows.len()).map(|sink| of_all_rows(oracle, sink)).collect()
}

fn of_all_rows(oracle: &Oracle, sink: usize) -> Entries {
    let world = oracle.world();
    let at = |row: usize| pos(oracle.rows[row].position());
    listed((0..oracle.rows.len()).filter(|source| dust_transmits(world, at(*source), at(sink))))
}
