//! Calls from a seed, often with a fault or two.

use redstone::ROW_BYTES;

use super::Clear;
use crate::damage::damaged;
use crate::generate::{self, Case};
use crate::random::Random;

/// The call of a seed.
pub fn generated(seed: u64) -> (Case, Clear) {
    let random = &mut Random::new(!seed);
    let mut case = if random.percent(75) { generate::leaning_case(seed) } else { generate::case(seed) };
    if random.percent(15) {
        case = damaged(&case, random);
    }
    let (mut kept, mut passes) = (case.table.len(), case.rows());
    if random.percent(8) {
        kept = other_length(random, kept, ROW_BYTES);
    }
    if random.percent(8) {
        passes = other_length(random, passes, 1);
    }
    (case, Clear::of_lengths(kept, passes))
}

/// Most often a wrong length, of a buffer that has so many entries for a row.
fn other_length(random: &mut Random, right: usize, width: usize) -> usize {
    let any = random.below(2 * right + 2);
    let [less, a_row_less] = [1, width].map(|by| right.saturating_sub(by));
    random.pick(&[0, a_row_less, less, right + 1, right + width, 2 * right, any])
}
