//! Look-ups, and the tables of which they, the lists of what feeds dust and the replacements are timed.

use std::collections::BTreeSet;

use differential::compare::Answers;
use differential::generate::{self, BENCH_PROFILE, Case};
use differential::oracle::{Oracle, pos};
use differential::probe::{Probe, probe_find};
use differential::table::Position;
use differential::world::WorldQuery;
use redstone::{PROFILE_BYTES, Row};

use crate::timing::{Medians, medians};

pub fn cases() -> impl Iterator<Item = Case> {
    // Without bulbs, which are none of the original's devices.
    let is_dense = |case: &Case| case.sort == "1,024 rows" && case.profile.len() == PROFILE_BYTES;
    let dense = (0..).map(generate::case).find(is_dense);
    let dense = Case {
        sort: "dense, 1,024 rows",
        profile: BENCH_PROFILE.into(),
        ..dense.expect("some seed has such a table")
    };
    lines().into_iter().chain([dense, Case::new("no rows", BENCH_PROFILE, [])])
}

/// Test 4's line, and the same with as many dust as fit.
pub fn lines() -> [Case; 2] {
    [Case::line("15 dust in line, 31 rows", 15), Case::line("511 dust in line, 1,023 rows", 511)]
}

/// The rows' own positions, or one where there are no rows.
fn standing(rows: &[Row]) -> Vec<Position> {
    at_least_one(rows.iter().map(Row::position).collect())
}

/// The first empty cell to the South of each row, which in the table's order is after it.
fn empty(rows: &[Row]) -> Vec<Position> {
    let own: BTreeSet<_> = rows.iter().map(Row::position).collect();
    let to_the_south = |row: &Row| {
        let mut at = row.position();
        while own.contains(&at) {
            at[2] += 1;
        }
        at
    };
    at_least_one(rows.iter().map(to_the_south).collect())
}

fn at_least_one(mut positions: Vec<Position>) -> Vec<Position> {
    positions.extend(positions.is_empty().then_some([0; 3]));
    positions
}

pub fn assert_sides_agree(case: &Case) {
    let oracle = Oracle::new(case);
    for at in [standing(&oracle.rows), empty(&oracle.rows)].concat() {
        let find = WorldQuery::Find(at);
        assert_eq!(oracle.answer(&find), Probe(case).answer(&find), "{} at {at:?}", case.sort);
    }
}

pub fn medians_of_look_ups(case: &Case) -> [(&'static str, Medians); 2] {
    let oracle = Oracle::new(case);
    [
        ("look-up", of_look_up(&oracle, &standing(&oracle.rows))),
        ("look-up, nothing there", of_look_up(&oracle, &empty(&oracle.rows))),
    ]
}

fn of_look_up(oracle: &Oracle, positions: &[Position]) -> Medians {
    let table = &oracle.case.table;
    let world = oracle.world();
    let (mut originals, mut proved) = (positions.iter().cycle(), positions.iter().cycle());
    medians(
        || (),
        |()| originals.next().map(|at| world.get(pos(*at))),
        || proved.next().map(|[x, y, z]| probe_find(table, *x, *y, *z)),
    )
}

#[cfg(test)]
mod tests {
    #[test]
    fn the_sides_agree_on_what_is_timed() {
        super::cases().for_each(|case| super::assert_sides_agree(&case));
    }
}
