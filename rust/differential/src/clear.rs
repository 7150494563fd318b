//! Rows that would drop, cleared: held to the original's `support_issues`, made again and again of what is left, and to a
//! second reading of document 02's Change 7.

mod faults;
mod generated;
mod misreadings;
#[cfg(not(no_original))]
mod original;
mod reading;
mod small;
mod told;
mod towers;
mod trials;
mod written;

use redstone::Row;

use crate::compare::{Answer, Answers};
use crate::generate::Case;
use crate::lent::{Lent, unlike_bytes, unlike_entries};
use crate::probe::{Probe, redstone_clear};
use crate::refusals::{Asked, Refusal, Written};
use reading::{Cleared, write};

pub use faults::{all_combinations, in_every_order};
pub use generated::generated;
pub use misreadings::{MISREADINGS, Misreading};
#[cfg(not(no_original))]
pub use original::lists;
pub use reading::{Hold, ORDER, READING, Read, Reading, largest_set};
pub use small::{cubes, squares};
pub use told::{features, told};
pub use towers::{Foot, Way, long_towers, rings, tower, towers};
pub use trials::{fillings, holders, lengths, offsets, profile_bytes, profile_lengths, single_bytes};
pub use written::{TRIALS, turned};

/// A call on a case: what is lent to be written, as it is before.
#[derive(Clone, Debug)]
pub struct Clear {
    pub kept: Vec<u8>,
    pub passes: Vec<u16>,
}

/// Where what is written stands among the buffers of an answer, after the profile and the table.
pub const KEPT: usize = 2;
pub const PASSES: usize = 3;

impl Clear {
    /// With as much to be written as there should be.
    pub fn on(case: &Case) -> Self {
        Self::of_lengths(case.table.len(), case.rows())
    }

    /// So many bytes and entries, of which no two that are near each other are the same.
    pub fn of_lengths(kept: usize, passes: usize) -> Self {
        Self { kept: unlike_bytes(kept), passes: unlike_entries(passes) }
    }

    /// What a refusal may fall on.
    fn asked<'a>(&self, case: &'a Case) -> Asked<'a> {
        let lent = vec![Written::table(self.kept.len()), Written::column(self.passes.len())];
        Asked { lent, ..Asked::new(&case.profile, &case.table) }
    }

    /// Lends every buffer between guards.
    fn called(&self, case: &Case, call: impl FnOnce(&[u8], &[u8], &mut [u8], &mut [u16]) -> u32) -> Answer {
        let [mut profile, mut table, mut kept] =
            [&case.profile, &case.table, &self.kept].map(|bytes| Lent::new(bytes));
        let mut passes = Lent::new(&self.passes);
        let number = call(profile.entries(), table.entries(), kept.entries(), passes.entries());
        let [profile, table, kept] = [profile, table, kept].map(Lent::returned);
        Answer::with_buffers(number, [profile, table, kept, passes.returned()])
    }
}

impl Answers<Clear> for Probe<'_> {
    fn answer(&self, clear: &Clear) -> Answer {
        clear.called(self.0, redstone_clear)
    }
}

/// The pass in which a side has each row of an accepted case go, or 0.
pub fn passes(side: &impl Answers<Clear>, case: &Case) -> Vec<u16> {
    side.answer(&Clear::on(case)).buffers[PASSES].entries.clone()
}

/// A call, and by hand the pass of each row or what it is to be refused with.
#[derive(Clone, Debug)]
pub struct Trial {
    pub case: Case,
    pub clear: Clear,
    pub answer: Result<Vec<u16>, Refusal>,
}

impl Trial {
    /// Rows in any order, each with its pass.
    fn of_rows(sort: &'static str, profile: &[u8], mut rows: Vec<(Row, u16)>) -> Self {
        rows.sort_by_key(|(row, _)| row.position());
        let (rows, passes): (Vec<_>, _) = rows.into_iter().unzip();
        Self::new(Case::new(sort, profile, rows), Ok(passes))
    }

    /// With as much to be written as there should be.
    fn new(case: Case, answer: Result<Vec<u16>, Refusal>) -> Self {
        Self { clear: Clear::on(&case), case, answer }
    }

    /// The answer by hand, in every byte of every buffer.
    pub fn expected(&self) -> Answer {
        self.clear.called(&self.case, |_, table, kept, passes| match &self.answer {
            Ok(by_hand) => {
                write(&Cleared { rows: table.as_chunks().0, passes: by_hand.clone() }, kept, passes)
            }
            Err(refusal) => refusal.code(),
        })
    }
}
