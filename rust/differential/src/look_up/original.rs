//! The original's answers on rows in any order: those on a world of the rows found.

use super::{Find, first_that_stands, rows_found};
use crate::compare::{Answers, Compared, Query, Tally, compare};
use crate::generate::Case;
use crate::oracle::Oracle;
use crate::probe::Probe;
use crate::{connectivity, refusals, wire, world};

/// The functions that answer by what stands at positions, whatever the numbers of the rows are.
pub const BY_POSITION: [&str; 10] = [
    "kind_at",
    "repeater_input_pos",
    "repeater_output_pos",
    "comparator_input_pos",
    "comparator_output_pos",
    "device_side_positions",
    "component_connects",
    "infer_wire_connection",
    "resolved_wire_connection",
    "dust_transfer",
];

/// The same rows in order, one at each position.
fn in_order(case: &Case) -> Case {
    rows_found(case, first_that_stands)
}

/// Whether the original has a world of the rows: they are accepted once they are in order.
pub fn has_world(case: &Case) -> bool {
    let Case { profile, table, .. } = in_order(case);
    refusals::check(&profile, &table).is_ok()
}

/// Puts to both sides what is asked of the same rows in order, for these functions.
pub fn compare_with_original(case: &Case, find: Find, functions: &[&str], tally: &mut Tally) -> Compared {
    let in_order = in_order(case);
    let found = rows_found(case, find);
    let sides = (Oracle::new(&found), Probe(case));
    compare_some(world::queries(&in_order), functions, &sides, tally)?;
    compare_some(connectivity::queries(&in_order), functions, &sides, tally)?;
    compare_some(wire::queries(&in_order), functions, &sides, tally)
}

fn compare_some<'a, Q: Query>(
    queries: Vec<Q>,
    functions: &[&str],
    (oracle, probe): &(Oracle<'a>, Probe<'a>),
    tally: &mut Tally,
) -> Compared
where
    Oracle<'a>: Answers<Q>,
    Probe<'a>: Answers<Q>,
{
    let asked = queries.into_iter().filter(|query| functions.contains(&query.function()));
    compare(asked, oracle, probe, tally)
}
