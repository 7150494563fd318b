//! What the lists of tables have, so that it can be seen what was compared.

use std::collections::BTreeMap;

use super::reading::{Table, feeders};
use crate::dust::{Pair, Rule, is_dust};
use crate::generate::Case;

/// Of one list or of several.
#[derive(Clone, Debug, Default)]
pub struct Told {
    pub dust: u64,
    /// The pairs of which one feeds the other, by rule.
    pub rules: BTreeMap<Rule, u64>,
    /// The dust that so many rows feed.
    pub fed_by: BTreeMap<usize, u64>,
}

/// Adds what the list of an accepted table has.
pub fn tell(told: &mut Told, case: &Case) {
    let table = Table::new(&case.profile, &case.table);
    for sink in (0..table.rows.len()).filter(|row| is_dust(&table.rows[*row])) {
        let feeders = feeders(&table, sink);
        told.dust += 1;
        *told.fed_by.entry(feeders.len()).or_default() += 1;
        let pair = |source: usize| Pair::new(&table.blocks, &table.rows[source], &table.rows[sink]);
        for rule in feeders.into_iter().filter_map(|source| pair(source)?.rule()) {
            *told.rules.entry(rule).or_default() += 1;
        }
    }
}
