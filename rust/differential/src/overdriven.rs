//! What document 02's Change 5 turns away: calls with their refusals by hand, overdriven alone and beside every other
//! fault, and wrong readings of the change.

mod faults;
mod misreadings;
mod trials;

use crate::calls::AnyCall;
use crate::generate::Case;
use crate::refusals::{Refusal, Test, refuse};

pub use faults::{Arrangement, all_combinations, of_rows_and_devices, with_the_level};
pub use misreadings::{MISREADINGS, Misreading};
pub use trials::{Level, device_bytes, levels_of_kinds, several_devices, several_rows};

/// A call on a table, and what it is to be refused with, if with anything.
#[derive(Clone, Debug)]
pub struct Trial {
    pub case: Case,
    pub call: AnyCall,
    pub refusal: Option<Refusal>,
}

impl Trial {
    /// What it is refused with where the tests stand in such an order.
    pub fn refused_by(&self, order: &[Test]) -> Option<Refusal> {
        refuse(order, &self.call.asked(&self.case)).err()
    }
}
